/* Stands in front of the C library's allocator in a program that is run with LD_PRELOAD, and writes at the program's end how often each call
 * was made, and how many bytes were asked for, as one line to the file that the variable ALLOCATIONS names. Each call is handed on to glibc's
 * own names for the same functions, so that nothing is looked up, and the counting itself takes no memory before the end. */
#include <fcntl.h>
#include <stdio.h>
#include <stdlib.h>
#include <unistd.h>

void *__libc_malloc(size_t);
void *__libc_calloc(size_t, size_t);
void *__libc_realloc(void *, size_t);
void *__libc_memalign(size_t, size_t);

static unsigned long allocated, enlarged, bytes;

void *malloc(size_t size)
{
    __atomic_fetch_add(&allocated, 1, __ATOMIC_RELAXED);
    __atomic_fetch_add(&bytes, size, __ATOMIC_RELAXED);
    return __libc_malloc(size);
}

void *calloc(size_t count, size_t size)
{
    __atomic_fetch_add(&allocated, 1, __ATOMIC_RELAXED);
    __atomic_fetch_add(&bytes, count * size, __ATOMIC_RELAXED);
    return __libc_calloc(count, size);
}

/* A call without a block is an allocation, any other one enlarges or shortens a block. */
void *realloc(void *block, size_t size)
{
    __atomic_fetch_add(block ? &enlarged : &allocated, 1, __ATOMIC_RELAXED);
    __atomic_fetch_add(&bytes, size, __ATOMIC_RELAXED);
    return __libc_realloc(block, size);
}

void *aligned_alloc(size_t alignment, size_t size)
{
    __atomic_fetch_add(&allocated, 1, __ATOMIC_RELAXED);
    __atomic_fetch_add(&bytes, size, __ATOMIC_RELAXED);
    return __libc_memalign(alignment, size);
}

void *memalign(size_t alignment, size_t size)
{
    return aligned_alloc(alignment, size);
}

int posix_memalign(void **block, size_t alignment, size_t size)
{
    void *made = aligned_alloc(alignment, size);
    if (!made)
        return 12; /* ENOMEM */
    *block = made;
    return 0;
}

__attribute__((destructor)) static void report(void)
{
    char line[96];
    const char *name = getenv("ALLOCATIONS");
    int length = snprintf(line, sizeof line, "%lu %lu %lu\n", allocated, enlarged, bytes);
    int file = name ? open(name, O_WRONLY | O_CREAT | O_TRUNC, 0600) : -1;
    if (file >= 0 && write(file, line, length) == length)
        close(file);
}
