"""The programs, and their calls over a text."""
from __future__ import annotations

import contextlib
from collections.abc import Callable, Collection, Iterator
from typing import TypeVar

from bonsainet.ask.program import ASK, BONSAI, Answer, NotAnswered, Program, Status, named
from bonsainet.ask.where import NoProgram
from bonsainet.library.errors import LONGEST_SHOWN, ProgramFailed, WordsRefused, error_of

__all__ = ["ASK", "BONSAI", "call", "errors_of", "must_be_words", "program", "read", "reading"]

DONE: Collection[int] = (Status.DONE,)
# (the most that Linux takes as one word of a process, with the byte behind it)
LONGEST_WORD = 131_072
Made = TypeVar("Made")


@contextlib.contextmanager
def errors_of(title: str, text: str, more: str = "", words: Collection[str] = ()) -> Iterator[None]:
    """Makes errors of the library of what goes wrong where programs are asked these words of a text of this name, and of
    `more`."""
    try:
        yield
    except NotAnswered as fault:
        raise error_of(fault.answer, title, text, more, " ".join(words)) from fault
    except (NoProgram, OSError) as fault:
        raise ProgramFailed(Status.NO_PROGRAM, str(fault)) from fault


def program(name: str) -> Program:
    """The program of a name. ProgramFailed where there is none."""
    with errors_of("", ""):
        return named(name)


def call(
    name: str, words: list[str], text: str, title: str, more: str | None = None, done: Collection[int] = DONE
) -> Answer:
    """Runs a program. The word `F` of `words` names the text, and `S` the text `more`. BonsaiError where it ends with a
    status that is not in `done`, or within a line."""
    must_be_words(words)
    texts: dict[str, str | bytes] = {"F": text}
    if more is not None:
        texts["S"] = more
    with errors_of(title, text, more or "", words[1:]):
        answer = program(name).ask(*words, texts=texts)
        if answer.status not in done:
            raise NotAnswered(answer, words[0], name)
    if answer.out and not answer.out.endswith(b"\n"):
        raise ProgramFailed(answer.status, f"{name} ended within a line")
    return answer


@contextlib.contextmanager
def reading(answer: Answer) -> Iterator[None]:
    """ProgramFailed where what a program wrote is not of the form in which the context reads it."""
    try:
        yield
    except (IndexError, KeyError, ValueError) as fault:
        raise ProgramFailed(answer.status, f"the program wrote what is of no known form: {fault}") from fault


def read(reader: Callable[[str], Made], answer: Answer) -> Made:
    """What a reader makes of what a program wrote."""
    with reading(answer):
        return reader(answer.text)


def must_be_words(words: Collection[str]) -> None:
    """WordsRefused where one of these cannot be a word of a process."""
    for word in words:
        if "\0" in word or any("\ud800" <= letter <= "\udfff" for letter in word):
            raise WordsRefused(f"no word of a process: {word[:LONGEST_SHOWN]!r}")
        if len(word.encode()) >= LONGEST_WORD:
            raise WordsRefused(f"a word of {len(word)} letters is too long for a process: a file of questions takes it")
