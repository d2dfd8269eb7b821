"""One run of a program: its times, and the most memory that it held.

    measured.py LIMIT EXE WORDS..

runs EXE and says on one line of standard error its seconds by the clock, those of the processor, user and system, the
most memory that it held at once in KiB, and its status, or `none` where it was stopped after LIMIT seconds. The
program's own output goes to standard output.

The system counts among the memory of a program that of the process which started it. So it is started here, by a
Python without its site, and what is told is at least the 10 MiB or so of that one.
"""
from __future__ import annotations

import os
import resource
import sys
import time


def wait(child: int, end: float) -> tuple[int | None, resource.struct_rusage]:
    """The status of a child, or None where it had to be stopped, and what it used."""
    while True:
        pid, status, usage = os.wait4(child, os.WNOHANG)
        if pid:
            return os.waitstatus_to_exitcode(status), usage
        if time.perf_counter() > end:
            os.kill(child, 9)
            return None, os.wait4(child, 0)[2]
        time.sleep(0.0005)


def main() -> None:
    limit, exe, *words = sys.argv[1:]
    start = time.perf_counter()
    child = os.posix_spawn(exe, [exe, *words], os.environ)
    status, usage = wait(child, start + float(limit))
    seconds = time.perf_counter() - start
    processor = usage.ru_utime + usage.ru_stime
    told = "none" if status is None else status
    print(seconds, processor, usage.ru_maxrss, told, file=sys.stderr)


if __name__ == "__main__":
    main()
