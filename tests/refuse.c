/* Stands in front of the C library's allocator in a program that is run with LD_PRELOAD. The call with the number that the variable REFUSED
 * tells gets no memory, the first call of all being 1; with the variable ON every later one too. At the program's end the count of all calls is
 * written, as one line, to the file that the variable COUNTED names. Other calls are handed on to glibc's own names for the same functions. */
#include <errno.h>
#include <fcntl.h>
#include <stdio.h>
#include <stdlib.h>
#include <unistd.h>

void *__libc_malloc(size_t);
void *__libc_calloc(size_t, size_t);
void *__libc_realloc(void *, size_t);
void *__libc_memalign(size_t, size_t);

static unsigned long calls, refused;
static int on, ready;

static int is_refused(void)
{
    unsigned long call = __atomic_add_fetch(&calls, 1, __ATOMIC_RELAXED);
    if (!ready) {
        const char *number = getenv("REFUSED");
        refused = number ? strtoul(number, 0, 10) : 0;
        on = getenv("ON") != 0;
        ready = 1;
    }
    if (refused == 0 || call < refused || (call > refused && !on))
        return 0;
    errno = ENOMEM;
    return 1;
}

void *malloc(size_t size)
{
    return is_refused() ? 0 : __libc_malloc(size);
}

void *calloc(size_t count, size_t size)
{
    return is_refused() ? 0 : __libc_calloc(count, size);
}

void *realloc(void *block, size_t size)
{
    return is_refused() ? 0 : __libc_realloc(block, size);
}

void *aligned_alloc(size_t alignment, size_t size)
{
    return is_refused() ? 0 : __libc_memalign(alignment, size);
}

void *memalign(size_t alignment, size_t size)
{
    return aligned_alloc(alignment, size);
}

int posix_memalign(void **block, size_t alignment, size_t size)
{
    void *made = aligned_alloc(alignment, size);
    if (!made)
        return ENOMEM;
    *block = made;
    return 0;
}

__attribute__((destructor)) static void report(void)
{
    char line[32];
    const char *name = getenv("COUNTED");
    int length = snprintf(line, sizeof line, "%lu\n", calls);
    int file = name ? open(name, O_WRONLY | O_CREAT | O_TRUNC, 0600) : -1;
    if (file >= 0 && write(file, line, length) == length)
        close(file);
}
