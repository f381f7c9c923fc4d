"""The program asked quickly: no shell, no pipe, no file on disk, and no command twice over the same texts."""
from __future__ import annotations

import collections
import dataclasses
import fcntl
import functools
import os
import select
import signal
import subprocess
from collections.abc import Mapping

from bonsainet.ask.program import LOWEST, Answer, Program, with_places

SECONDS = 60.0
LARGEST_READ = 1 << 30
ONE_ROUTER = b"hostname a\ninterface Vlan1\n ip address 10.0.0.1 255.255.255.0\nrouter ospf 1\n network 0.0.0.0 255.255.255.255 area 0\nend\n"
USAGE = 2


@dataclasses.dataclass
class Counts:
    """What was asked so far: commands, kinds of refusals and other ends, and texts that the second reader judges only
    in part."""

    commands: collections.Counter[str] = dataclasses.field(default_factory=collections.Counter)
    kinds: collections.Counter[str] = dataclasses.field(default_factory=collections.Counter)
    partly: int = 0

    def note(self, command: str, answer: Answer) -> None:
        """One more command."""
        self.commands[command] += 1
        if answer.status in (1, 6):
            self.kinds[[word for word in answer.reason.split() if not word.isdigit()][-1]] += 1
        elif answer.status:
            self.kinds[f"status {answer.status}"] += 1


class Asker(Program):
    """The program, without the launcher in front of it, whose outputs are files in memory. `ask` has the same answers
    as that of Program.

    NoProgram where the launcher names none."""

    def __init__(self, path: str | None = None) -> None:
        super().__init__(path)
        self.path = self.path
        self._environment = dict(os.environ)
        self._out, self._err = (os.memfd_create(name, os.MFD_CLOEXEC) for name in ("out", "err"))

    def close(self) -> None:
        """Lets go of its files."""
        os.close(self._out)
        os.close(self._err)

    def ask(
        self, *words: str, texts: Mapping[str, str | bytes] | None = None, seconds: float | None = SECONDS
    ) -> Answer:
        """Runs a command. The first word that is a key of `texts` names a file with that text."""
        files = {name: _file(text) for name, text in (texts or {}).items()}
        places = {name: f"/proc/self/fd/{file}" for name, file in files.items()}
        try:
            status = self._run([self.path, *with_places(words, places)], seconds)
        finally:
            for file in files.values():
                os.close(file)
        out, err = _content(self._out), _content(self._err)
        for name, place in sorted(places.items(), key=lambda item: -len(item[1])):
            err = err.replace(place.encode(), name.encode())
        return Answer(status, out, err)

    def _run(self, words: list[str], seconds: float | None) -> int:
        for file in (self._out, self._err):
            os.ftruncate(file, 0)
            os.lseek(file, 0, os.SEEK_SET)
        actions = [
            (os.POSIX_SPAWN_OPEN, 0, "/dev/null", os.O_RDONLY, 0),
            (os.POSIX_SPAWN_DUP2, self._out, 1),
            (os.POSIX_SPAWN_DUP2, self._err, 2),
        ]
        child = os.posix_spawn(words[0], words, self._environment, file_actions=actions)
        watch = os.pidfd_open(child)
        try:
            poll = select.poll()
            poll.register(watch, select.POLLIN)
            late = not poll.poll(None if seconds is None else seconds * 1000)
            if late:
                os.kill(child, signal.SIGKILL)
            status = os.waitstatus_to_exitcode(os.waitpid(child, 0)[1])
        finally:
            os.close(watch)
        if late:
            raise subprocess.TimeoutExpired(words, seconds or 0)
        return status


def _file(text: str | bytes) -> int:
    """A file in memory that a child inherits."""
    first = os.memfd_create("text")
    file = fcntl.fcntl(first, fcntl.F_DUPFD, LOWEST)
    os.close(first)
    rest = memoryview(text.encode("utf-8", "surrogateescape") if isinstance(text, str) else text)
    while rest:
        rest = rest[os.write(file, rest) :]
    return file


def _content(file: int) -> bytes:
    return os.pread(file, min(os.fstat(file).st_size, LARGEST_READ), 0)


@functools.cache
def has_canon(program: Program) -> bool:
    """Whether the program has the command `canon`, which older ones do not have."""
    return program.ask("canon", "F", "1", texts={"F": ONE_ROUTER}).status != USAGE


class Asked:
    """The commands over one text and what comes of it, each asked once and counted once."""

    def __init__(self, program: Program, counts: Counts) -> None:
        self.program, self.counts = program, counts
        self.known: dict[tuple[object, ...], Answer] = {}

    def has_canon(self) -> bool:
        """Whether there is the command `canon`."""
        return has_canon(self.program)

    def ask(self, text: bytes, *words: str, S: bytes = b"") -> Answer:
        """The answer to a command, of which F is this text and S that one. TimeoutExpired where none comes."""
        given = (text, words, S)
        if given not in self.known:
            texts: dict[str, str | bytes] = {"F": text, "S": S} if "S" in words else {"F": text}
            self.known[given] = self.program.ask(words[0], "F", *words[1:], texts=texts, seconds=SECONDS)
            self.counts.note(words[0], self.known[given])
        return self.known[given]
