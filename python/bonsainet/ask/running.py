"""Processes that end with the work for which they run."""
from __future__ import annotations

import contextlib
import errno
import functools
import os
import shutil
import subprocess
import threading
from collections.abc import Callable, Iterator


class Running:
    """The processes of some threads, which work for one thing. Where that is over, so are they."""

    def __init__(self) -> None:
        self._lock = threading.Lock()
        self._ends: list[Callable[[], None]] = []
        self.is_over = False

    def join(self) -> None:
        """Makes each process that this thread starts from now on one of these."""
        _HERE.running = self

    def end(self) -> None:
        """Ends those that run, and each that is started later."""
        with self._lock:
            self.is_over = True
            for end in self._ends:
                end()

    @contextlib.contextmanager
    def holding(self, end: Callable[[], None]) -> Iterator[None]:
        """A process that this call ends is one of these for the time of the context."""
        with self._lock:
            self._ends.append(end)
            if self.is_over:
                end()
        try:
            yield
        finally:
            with self._lock:
                self._ends.remove(end)


_HERE = threading.local()


def of_this_thread() -> Running:
    """The processes among which this thread starts its own."""
    found: Running = getattr(_HERE, "running", None) or Running()
    return found


@functools.cache
def ending_with_caller() -> tuple[str, ...]:
    """What is put before a command so that it ends where this process is killed, if the system has the program for it."""
    found = shutil.which("setpriv")
    return (found, "--pdeathsig", "KILL") if found else ()


def must_start(program: str) -> None:
    """OSError with its name where a program cannot be started, as where it is started by itself."""
    if shutil.which(program) is None:
        fault = errno.EACCES if os.path.exists(program) else errno.ENOENT
        raise OSError(fault, os.strerror(fault), program)


def ran(words: list[str], files: list[int], seconds: float | None = None) -> subprocess.CompletedProcess[bytes]:
    """Runs a process to its end. It gets these files and nothing to read, and ends where the call does. TimeoutExpired
    after so many seconds."""
    with subprocess.Popen(
        words, stdin=subprocess.DEVNULL, stdout=subprocess.PIPE, stderr=subprocess.PIPE, pass_fds=files
    ) as process:
        with of_this_thread().holding(process.kill):
            try:
                out, err = process.communicate(timeout=seconds)
            except BaseException:
                process.kill()
                raise
    return subprocess.CompletedProcess(words, process.returncode, out, err)
