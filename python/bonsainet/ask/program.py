"""How the proved program is asked: a command over texts, and its answer as plain data.

`Program.ask` runs one command. The functions below it read what the commands write. The forms are those of
docs/use/FORMATS.md.
"""
from __future__ import annotations

import contextlib
import dataclasses
import enum
import fcntl
import functools
import os
import re
import shutil
import subprocess
import sys
from collections.abc import Collection, Iterable, Iterator, Mapping
from itertools import takewhile
from pathlib import Path
from typing import IO, BinaryIO

from bonsainet.ask.running import ending_with_caller, must_start, of_this_thread, ran
from bonsainet.ask.shares import side_by_side
from bonsainet.ask.where import Identity, Named, NoProgram, identity_of, is_file_of_one, named_by, without_notices

TOP = Path(__file__).resolve().parents[3]
LOWEST = 3
# (as much as Linux gives anyone)
LARGE_PIPE = 1 << 20


BONSAI, ASK, ALL = "bonsai", "bonsai-ask", "bonsai-all"


class Status(enum.IntEnum):
    """The exit status of the program."""

    DONE = 0
    REFUSED = 1
    USAGE = 2
    READ_FAULT = 3
    WRITE_FAULT = 4
    MEMORY = 5
    NOT_STABLE = 6
    NO_WORDS = 7
    NOT_ALL = 8
    NO_PROGRAM = 9


# (of bonsai-ask and bonsai-all: the work is done, and an answer is not `yes`, or a class was refused)
NOT_ALL = Status.NOT_ALL
IS_DONE = (Status.DONE, NOT_ALL)


@dataclasses.dataclass(frozen=True)
class Answer:
    """What a command came to: its status, its output and its line on standard error."""

    status: int
    out: bytes
    err: bytes

    @property
    def text(self) -> str:
        """The output as text."""
        return self.out.decode("ascii", "replace")

    @property
    def reason(self) -> str:
        """The line on standard error, without its end."""
        return self.err.decode("utf-8", "replace").strip()


class NotAnswered(Exception):
    """The program refused or failed where a tool needs its answer. `answer` is what it said."""

    def __init__(self, answer: Answer, command: str, name: str = BONSAI) -> None:
        super().__init__(f"{name} {command}: {answer.reason or f'status {answer.status}'}")
        self.answer = answer


@dataclasses.dataclass(frozen=True)
class Refusal:
    """A refusal of a text: its kind, and its line from 1, or none where the text as a whole is refused."""

    line: int | None
    kind: str


@dataclasses.dataclass(frozen=True)
class Class:
    """A class of destination prefixes: its number from 1, its prefixes, and its originators with their costs (BGP:
    none)."""

    number: int
    prefixes: tuple[str, ...]
    origins: tuple[tuple[str, int | None], ...]


@dataclasses.dataclass(frozen=True)
class Group:
    """Routers that behave alike for a class."""

    number: int
    is_origin: bool
    is_lone: bool
    members: tuple[str, ...]


@dataclasses.dataclass(frozen=True)
class Size:
    """A class of `summary`: routers and links of the network, groups and links of the compressed one."""

    number: int
    routers: int
    links: int
    groups: int
    links_after: int


def variable_of(name: str) -> str:
    """The variable of the environment that names another program in the place of this one."""
    return f"{name.upper().replace('-', '_')}_PROGRAM"


class Program:
    """The program of a path, or the one that the launcher of its name gives: `bonsai`, `bonsai-ask` or `bonsai-all` at the
    top of the repository, or on the path.

    The launcher is asked once, and says on standard error if that program is not proved.
    """

    def __init__(self, path: str | None = None, name: str = BONSAI) -> None:
        self.name = name
        here, variable = TOP / name, variable_of(name)
        self.launcher = None if path else str(here) if here.is_file() else shutil.which(name)
        found = path or (None if self.launcher else os.environ.get(variable))
        if found:
            self.named = Named(found)
        elif not self.launcher:
            raise FileNotFoundError(f"no program {name}: set {variable}, or build it with ./build")

    @functools.cached_property
    def named(self) -> Named:
        """What the launcher names."""
        assert self.launcher
        return named_by(self.launcher)

    @functools.cached_property
    def path(self) -> str:
        """The file that answers."""
        return self.named.path

    @functools.cached_property
    def identity(self) -> Identity:
        """Which program answers."""
        return identity_of(self.named)

    def executable(self) -> Path | None:
        """The program as one file that runs alone. None where there is none."""
        return Path(self.path) if is_file_of_one(self.path) else None

    def _start(self) -> list[str]:
        """How it is started. A question, or all classes, may take for ever: such a program ends where its caller is killed."""
        if self.name == BONSAI or not ending_with_caller():
            return [self.path]
        must_start(self.path)
        return [*ending_with_caller(), self.path]

    def ask(self, *words: str, texts: Mapping[str, str | bytes] | None = None, seconds: float | None = None) -> Answer:
        """Runs a command. The first word that is a key of `texts` names a file with that text, in memory and made for this
        call alone; further ones are words, as a router may have the name. TimeoutExpired after so many seconds."""
        with contextlib.ExitStack() as room:
            files = {name: room.enter_context(_in_memory(text)) for name, text in (texts or {}).items()}
            places = {name: f"/proc/self/fd/{file.fileno()}" for name, file in files.items()}
            asked = [*self._start(), *with_places(words, places)]
            done = ran(asked, [file.fileno() for file in files.values()], seconds)
        err = without_notices(done.stderr)
        for name, place in sorted(places.items(), key=lambda item: -len(item[1])):
            err = err.replace(place.encode(), name.encode())
        return Answer(done.returncode, done.stdout, err)

    @contextlib.contextmanager
    def output(
        self, *words: str, texts: Mapping[str, str | bytes] | None = None, done: Collection[int] = (Status.DONE,)
    ) -> Iterator[IO[bytes]]:
        """The output of a command while it is written; words are as for `ask`. The command is ended where it is not read to
        its end. NotAnswered where it ends with a status that is not in `done`."""
        with contextlib.ExitStack() as room:
            files = {name: room.enter_context(_in_memory(text)) for name, text in (texts or {}).items()}
            places = {name: f"/proc/self/fd/{file.fileno()}" for name, file in files.items()}
            told = room.enter_context(_in_memory(b""))
            process = subprocess.Popen(
                [*self._start(), *with_places(words, places)],
                stdin=subprocess.DEVNULL,
                stdout=subprocess.PIPE,
                stderr=told,
                pass_fds=[file.fileno() for file in files.values()],
            )
            room.enter_context(process)
            room.enter_context(of_this_thread().holding(process.kill))
            room.callback(process.kill)
            assert process.stdout
            # (the program goes on while this process has other things to do)
            with contextlib.suppress(OSError):
                fcntl.fcntl(process.stdout, fcntl.F_SETPIPE_SZ, LARGE_PIPE)
            yield process.stdout
            # (where it is not read to its end, nobody waits for more of it)
            os.set_blocking(process.stdout.fileno(), False)
            if process.stdout.read(1) == b"" and process.wait() not in done:
                told.seek(0)
                raise NotAnswered(Answer(process.returncode, b"", without_notices(told.read())), " ".join(words[:1]))

    def done(self, *words: str, texts: Mapping[str, str | bytes] | None = None) -> str:
        """The output of a command that must end with Done; else NotAnswered."""
        answer = self.ask(*words, texts=texts)
        if answer.status != Status.DONE:
            raise NotAnswered(answer, words[0])
        return answer.text

    def refusal(self, text: str | bytes) -> Refusal | None:
        """The refusal of a text by `classes`, or none where it is read. NotAnswered where the program could not judge."""
        answer = self.ask("classes", "F", texts={"F": text})
        if answer.status == Status.DONE:
            return None
        found = refusal_of(answer)
        if found is None:
            raise NotAnswered(answer, "classes")
        return found

    def classes(self, text: str | bytes) -> list[Class]:
        """The classes of a text."""
        return classes_of(self.done("classes", "F", texts={"F": text}))

    def groups(self, text: str | bytes, number: int) -> list[Group]:
        """The groups of a class."""
        return groups_of(self.done("groups", "F", str(number), texts={"F": text}))

    def compress(self, text: str | bytes, number: int) -> str:
        """The text of the compressed network of a class."""
        return self.done("compress", "F", str(number), texts={"F": text})

    def size(self, text: str | bytes, number: int) -> Size:
        """The sizes of a class."""
        first, _, _ = self.done("report", "F", str(number), texts={"F": text}).partition("\n")
        return sizes_of(first)[0]

    def summary(self, text: str | bytes) -> list[Size]:
        """The sizes of all classes."""
        return sizes_of(self.done("summary", "F", texts={"F": text}))


@functools.cache
def named(name: str) -> Program:
    """The program of a name, which is found once, and not by each thread that asks it."""
    made = Program(name=name)
    if not made.path:
        raise NoProgram(f"no program {name}")
    return made


def identities(*names: str) -> dict[str, Identity]:
    """Which programs of these names answer."""
    return dict(zip(names, side_by_side(lambda name: named(name).identity, names)))


def with_places(words: Iterable[str], places: Mapping[str, str]) -> list[str]:
    """The words with the place of each text in the place of its key. Only the first word that is a key is it: in all
    programs the files stand before whatever has the name of a router."""
    made, left = [], dict(places)
    for word in words:
        made.append(left.pop(word, word))
    return made


def _in_memory(text: str | bytes) -> BinaryIO:
    """A file without a place on disk, so that nothing stays where a tool is killed. Its number is none of a standard stream,
    be that closed."""
    first = os.memfd_create("bonsai")
    try:
        file = os.fdopen(fcntl.fcntl(first, fcntl.F_DUPFD_CLOEXEC, LOWEST), "w+b")
    finally:
        os.close(first)
    file.write(bytes_of(text) if isinstance(text, str) else text)
    file.flush()
    return file


def bytes_of(text: str) -> bytes:
    """The bytes of a text: those that were read where it was read from a file, and some that no text has for what is none."""
    try:
        return text.encode("utf-8", "surrogateescape")
    except UnicodeEncodeError:
        return text.encode("utf-8", "surrogatepass")


def refusal_of(answer: Answer) -> Refusal | None:
    """The refusal of a text, if an answer is one."""
    found = re.fullmatch(r"refused: (?:line (\d+): )?(\w+)", answer.reason)
    if not found or answer.status != Status.REFUSED:
        return None
    return Refusal(int(found[1]) if found[1] else None, found[2])


def classes_of(text: str) -> list[Class]:
    """The classes that `classes` wrote."""
    found = []
    for line in text.splitlines():
        words = line.split()
        at = words.index("origins")
        origins = (word.partition(":") for word in words[at + 1 :])
        found.append(
            Class(
                int(words[1]),
                tuple(words[3:at]),
                tuple((name, int(cost) if cost else None) for name, _, cost in origins),
            )
        )
    return found


def groups_of(text: str) -> list[Group]:
    """The groups that `groups` wrote."""
    found = []
    for line in text.splitlines():
        head, _, members = line.partition(":")
        marks = head.split()[2:]
        found.append(
            Group(int(head.split()[1]), "origin" in marks, "lone" in marks, tuple(map(sys.intern, members.split())))
        )
    return found


def report_of(text: str) -> tuple[Size, list[Group]]:
    """The sizes and the groups of a class that `report` wrote. The neighbours without a session stand behind them."""
    first, _, rest = text.partition("\n")
    groups = "".join(takewhile(lambda line: line.startswith("group "), rest.splitlines(keepends=True)))
    return sizes_of(first)[0], groups_of(groups)


def sizes_of(text: str) -> list[Size]:
    """The sizes that `summary` or `trial` wrote. ValueError where a line is of no form."""
    form = re.compile(r"class (\d+): (\d+) routers (\d+) links (\d+) groups (\d+) links")
    found = [form.fullmatch(line) for line in text.splitlines()]
    if not all(found):
        raise ValueError("a line has no sizes")
    return [Size(*map(int, of_class.groups())) for of_class in found if of_class]
