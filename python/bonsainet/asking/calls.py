"""Calls of `bonsai-ask` over one file: its words taken apart, its files read, and its answers."""
from __future__ import annotations

import dataclasses
import os
from collections.abc import Iterator

from bonsainet.ask.program import ASK, IS_DONE, Answer, NotAnswered, Program, Status
from bonsainet.asking.reports import Report, reports_of
from bonsainet.cli.command_line import name_of, read_input

FORWARDS, SOLUTIONS, QUESTIONS = "forwards", "solutions", "questions"
# The words that name the texts of a call.
TEXT, LIST = "F", "S"


@dataclasses.dataclass(frozen=True)
class Call:
    """The words of a call: the file, the word for the classes, what is down, and the task. Words of no form give a call
    too, which the program refuses."""

    file: str
    classes: str
    down: tuple[str, ...]
    task: tuple[str, ...]

    @classmethod
    def of(cls, words: list[str]) -> Call:
        """The call of these words."""
        file, classes, *rest = [*words, "", ""][: max(2, len(words))]
        at = 2 if rest[:1] == ["without"] and classes != QUESTIONS else 0
        return cls(file, classes, tuple(rest[:at]), tuple(rest[at:]))

    @property
    def asked_in(self) -> str | None:
        """The file of questions, if the words name one."""
        return self.task[0] if self.classes == QUESTIONS and self.task else None

    @property
    def routers_down(self) -> list[str]:
        """The routers that are down."""
        return [item for word in self.down[1:] for item in word.split(",") if ":" not in item]

    def words(self, task: tuple[str, ...], classes: str | None = None) -> list[str]:
        """The words of a call over the same texts with the same things down."""
        named = (LIST, *task[1:]) if self.asked_in is not None else task
        return [TEXT, classes or self.classes, *self.down, *named]


@dataclasses.dataclass(frozen=True)
class Asked:
    """The program, and the texts of a call, each read once: a file may be a pipe, which has its bytes for one reader."""

    program: Program
    call: Call
    text: bytes = b""
    questions: bytes = b""

    @classmethod
    def of(cls, program: Program, call: Call) -> Asked:
        """Reads the files of a call. What is at fault is found in the order of the program: words, F, its text, S.
        NotAnswered with what the program says to it, and for a file that cannot be read with what it says then."""
        made = cls(program, call)
        made.expect_no(Status.USAGE)
        made = dataclasses.replace(made, text=_read(call.file))
        if call.asked_in is None:
            return made
        if not (os.path.isfile(call.asked_in) and os.access(call.asked_in, os.R_OK)):
            made.expect_no(Status.REFUSED)
        return dataclasses.replace(made, questions=_read(call.asked_in))

    def expect_no(self, status: Status) -> None:
        """NotAnswered where the program ends with this status over these texts."""
        answer = self.ask(self.call.words(self.call.task))
        if answer.status == status:
            raise NotAnswered(answer, self.call.classes)

    def ask(self, words: list[str]) -> Answer:
        """The answer of the program to words of this call."""
        return self.program.ask(*words, texts={TEXT: self.text, LIST: self.questions})

    @property
    def name(self) -> str:
        """What F is called."""
        return name_of(self.call.file)

    def done(self, words: list[str]) -> tuple[int, str]:
        """The status and the output of a call whose work was done; else NotAnswered."""
        answer = self.ask(words)
        if answer.status not in IS_DONE:
            raise NotAnswered(answer, " ".join(words[1:2]), ASK)
        return answer.status, answer.text

    def reports(self, words: list[str]) -> Iterator[Report]:
        """The reports of a call."""
        yield from reports_of(self.done(words)[1])


def _read(file: str) -> bytes:
    """The bytes of a file, or of standard input where it is `-`. NotAnswered as the program ends where it cannot read it."""
    try:
        return read_input(file)
    except OSError as fault:
        told = f"read fault: {'standard input' if file == '-' else file}\n"
        if isinstance(fault, IsADirectoryError):
            told = f"bonsai-ask: a folder is no text: bonsai-import makes one text of it\n{told}"
        answer = Answer(Status.READ_FAULT, b"", told.encode("utf-8", "surrogateescape"))
        raise NotAnswered(answer, file) from None
