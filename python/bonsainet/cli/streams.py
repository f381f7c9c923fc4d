"""Standard streams that are closed, and signals that end a tool with all that it has started."""
from __future__ import annotations

import errno
import io
import os
import shutil
import signal
import sys

# The numbers of the standard streams that were closed.
held: set[int] = set()


def hold() -> None:
    """Takes the places of standard streams that are closed, so that no file of a tool, or of what it starts, gets one.

    Nothing can be read there, and nothing written to standard output; what is written to standard error is lost.
    """
    for number, way in ((0, os.O_WRONLY), (1, os.O_RDONLY), (2, os.O_WRONLY)):
        try:
            os.fstat(number)
        except OSError:
            # (a file gets the least number that is free)
            os.set_inheritable(os.open(os.devnull, way), True)
            held.add(number)
    if sys.stdout is None:
        sys.stdout = io.TextIOWrapper(io.FileIO(1, "w", closefd=False), encoding="utf-8")
    if sys.stderr is None:
        sys.stderr = io.TextIOWrapper(io.FileIO(2, "w", closefd=False), encoding="utf-8", line_buffering=True)


def standard_input(most: int) -> bytes:
    """The first bytes of standard input. OSError with its name where it cannot be read."""
    try:
        if sys.stdin is None:
            raise OSError(errno.EBADF, os.strerror(errno.EBADF))
        return sys.stdin.buffer.read(most)
    except OSError as fault:
        raise OSError(fault.errno, fault.strerror, "standard input") from None


def takes(number: int, data: bytes) -> bool:
    """Whether standard output or error, by its number, takes all of some bytes, which are written without a buffer."""
    if number in held:
        return not data
    try:
        while data:
            data = data[os.write(number, data) :]
    except OSError:
        return False
    return True


def ending_with_this() -> list[str]:
    """What stands before a command so that it ends where this process is killed, if the system has the program for it."""
    return ["setpriv", "--pdeathsig", "TERM"] if shutil.which("setpriv") else []


def end_by_signals() -> None:
    """Makes of the signals that end a process an exit, so that what a tool has started ends too, and its files go."""
    for number in (signal.SIGTERM, signal.SIGHUP):
        if signal.getsignal(number) == signal.SIG_DFL:
            signal.signal(number, lambda ended, _: sys.exit(128 + ended))
