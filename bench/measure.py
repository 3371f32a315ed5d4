"""What the measurements of `hns pipe` share: requests as bytes, a run over a file of them, and a program that is spoken to by turns.

The program is crates/hns/out/hns, or the one that the variable HNS names. Build it first: 'rt run -- pipe </dev/null' in crates/hns.
"""
import collections
import mmap
import os
import re
import subprocess
import sys
import tempfile
import threading
import time

TOP = os.path.dirname(os.path.dirname(os.path.abspath(__file__)))
PROGRAM = os.environ.get("HNS", f"{TOP}/crates/hns/out/hns")
STATUS = re.compile(rb"HTTP/1\.1 (\d{3}) ")
LENGTH = re.compile(rb"\r\nContent-Length: (\d+)")


def request(method, target, body=b"", **headers):
    """A request of the superuser; a header `x_ms_lease_id` is `x-ms-lease-id`."""
    lines = [f"{method} {target} HTTP/1.1", "Host: h", "x-ms-caller: $superuser", f"Content-Length: {len(body)}"]
    lines += [f"{name.replace('_', '-')}: {value}" for name, value in headers.items()]
    return "\r\n".join(lines + ["", ""]).encode() + body


def make_filesystem():
    return request("PUT", "/data?resource=filesystem")


def make_file(path):
    return request("PUT", f"{path}?resource=file")


Run = collections.namedtuple("Run", "seconds kib statuses")


def run(requests, env=None):
    """One run over these requests from a file, with the replies to a file: its processor time (user and system), the most memory that it held
    at once, in KiB, and how often each status was answered."""
    with tempfile.TemporaryDirectory() as work:
        with open(f"{work}/in", "wb") as file:
            for piece in requests:
                file.write(piece)
        with open(f"{work}/in", "rb") as given, open(f"{work}/out", "wb") as taken:
            program = subprocess.Popen([PROGRAM, "pipe"], stdin=given, stdout=taken, env={**os.environ, **(env or {})})
            _, status, used = os.wait4(program.pid, 0)
            program.returncode = os.waitstatus_to_exitcode(status)
        if program.returncode != 0:
            sys.exit(f"{PROGRAM} pipe ended with {program.returncode}")
        return Run(used.ru_utime + used.ru_stime, used.ru_maxrss, statuses(f"{work}/out"))


def statuses(name):
    if os.path.getsize(name) == 0:
        return collections.Counter()
    with open(name, "rb") as file, mmap.mmap(file.fileno(), 0, access=mmap.ACCESS_READ) as text:
        return collections.Counter(int(found[1]) for found in STATUS.finditer(text))


def least(rounds, requests):
    """The run of the least processor time of so many; `requests` makes the requests anew each time."""
    return min((run(requests()) for _ in range(rounds)), key=lambda it: it.seconds)


def expect(statuses, **wanted):
    """Stops where other statuses were answered than these: `s201=3` wants three of 201."""
    found = {f"s{status}": many for status, many in statuses.items()}
    if found != wanted:
        sys.exit(f"answers are {found}, and not {wanted}")


class Talk:
    """A running program: requests go to it and its replies are awaited, and its processor time is read between, while it waits for more.

    The time is the first number of /proc/PID/schedstat: nanoseconds on a processor, in the program and in the system for it."""

    def __init__(self):
        self.program = subprocess.Popen([PROGRAM, "pipe"], stdin=subprocess.PIPE, stdout=subprocess.PIPE, bufsize=0)
        self.kept = bytearray()

    def ask(self, requests, many, heads=False):
        """Sends the requests and takes as many replies. Answers the last one as its head and its body."""
        feeder = threading.Thread(target=self._feed, args=(requests,))
        feeder.start()
        for _ in range(many):
            last = self._reply(heads)
        feeder.join()
        return last

    def _feed(self, requests):
        gathered = bytearray()
        for piece in requests:
            gathered += piece
            if len(gathered) >= 65536:
                self._write(gathered)
                gathered = bytearray()
        self._write(gathered)

    def _write(self, gathered):
        rest = memoryview(gathered)
        while rest:
            rest = rest[self.program.stdin.write(rest):]

    def _reply(self, heads):
        end = self.kept.find(b"\r\n\r\n")
        while end < 0:
            self._more()
            end = self.kept.find(b"\r\n\r\n")
        head = bytes(self.kept[: end + 4])
        found = LENGTH.search(head)
        many = int(found[1]) if found and not heads else 0
        while len(self.kept) < end + 4 + many:
            self._more()
        body = bytes(self.kept[end + 4 : end + 4 + many])
        del self.kept[: end + 4 + many]
        return head, body

    def _more(self):
        piece = self.program.stdout.read(1 << 20)
        if not piece:
            sys.exit(f"{PROGRAM} pipe ended early")
        self.kept += piece

    def seconds(self):
        """The processor time so far, once the program waits for input."""
        while True:
            with open(f"/proc/{self.program.pid}/stat") as it:
                if it.read().rpartition(")")[2].split()[0] == "S":
                    break
            time.sleep(0.001)
        with open(f"/proc/{self.program.pid}/schedstat") as it:
            return int(it.read().split()[0]) / 1e9

    def timed(self, request, wanted):
        """The processor time of one request, which is answered with this status, and its reply."""
        before = self.seconds()
        head, body = self.ask([request], 1)
        spent = self.seconds() - before
        if STATUS.match(head)[1] != wanted:
            sys.exit(f"answered with {head}")
        return spent, head, body

    def end(self):
        self.program.stdin.close()
        self.program.stdout.read()
        if self.program.wait() != 0:
            sys.exit(f"{PROGRAM} pipe ended with {self.program.returncode}")
