"""What can go wrong, as exceptions that carry what a caller needs. All of them are BonsaiError."""
from __future__ import annotations

import re
import signal
from typing import TYPE_CHECKING

from bonsainet.ask.program import Answer, Status, refusal_of
from bonsainet.cli.command_line import printable, shown

if TYPE_CHECKING:
    from bonsainet.importing.report import Report

LONGEST_SHOWN = 200
USAGE = "usage: bonsai-ask "
# What the program says of a line of a file of questions, or of labels.
OF_LINE = re.compile(r"(?:questions|solution) line (\d+): (\w+)")
OF_FILE = re.compile(r"(?:questions|solution) (\w+)")
OF_NAME = re.compile(r"(UnknownRouter|NoLink) \S+")
NO_CANON = re.compile(r"(NoCanon) \S+ \S+")
NO_CLASS = re.compile(r"NoClass (\S+)")
NOT_STABLE = re.compile(r"not stable: (\S+) (\S+)")


class BonsaiError(Exception):
    """The base of all errors of this library."""

    def __reduce__(self) -> tuple[object, ...]:
        """An error can be copied, and handed from one process to another."""
        return _again, (type(self), str(self), vars(self))


def _again(kind: type[BonsaiError], message: str, has: dict[str, object]) -> BonsaiError:
    """An error as it was."""
    made = kind.__new__(kind)
    made.args = (message,)
    vars(made).update(has)
    return made


class TextRefused(BonsaiError):
    """The program refuses a text, or what it was to make of it. `kind` is the kind of the fault, `line` its line from 1,
    and `text` that line, in which a byte that is not ASCII is `\\xff`. Where the text as a whole is refused, as one that is
    too long, `line` is none and `text` empty."""

    def __init__(self, name: str, kind: str, line: int | None, text: str, reason: str = "") -> None:
        message = f"line {line}: {kind}: {printable(text[:LONGEST_SHOWN])}" if line is not None else reason or kind
        super().__init__(f"{printable(name)}: {message}")
        self.kind, self.line, self.text = kind, line, text


class ImportRefused(BonsaiError):
    """The import of a folder leaves lines to a person. `report` says which, and why each."""

    def __init__(self, name: str, report: Report) -> None:
        first, count = report.refused[0], len(report.refused)
        lines = f"{count} lines are refused, the first" if count > 1 else "a line is refused"
        super().__init__(printable(f"{name}: {lines} at {first.place}: {first.reason}"))
        self.report = report


class FolderRefused(BonsaiError):
    """A folder, its decisions or its stubs cannot be read. `reason` says which and why, and `details` has a line for each
    file, where there are several."""

    def __init__(self, reason: str, details: tuple[str, ...] = ()) -> None:
        super().__init__(printable(reason))
        self.reason, self.details = shown(reason), details


class ClassNotFound(BonsaiError):
    """No class has the number, the prefix or the address `wanted`."""

    def __init__(self, wanted: object) -> None:
        super().__init__(printable(f"no class {wanted}"))
        self.wanted = wanted


class WordsRefused(BonsaiError):
    """A router, link, number or community of a question or of labels is not of its form, or the network does not have it.
    `reason` is what the program says, and `kind` the kind of the fault, `Usage` where the words are of no form. `line` is
    the line of a file of questions, or of labels as the program reads them, from 1, and `text` that line; none and empty
    where no such line is at fault."""

    def __init__(
        self, reason: str, kind: str = "Usage", line: int | None = None, text: str = "", words: str = ""
    ) -> None:
        told = f"of no form: {words[:LONGEST_SHOWN]}; {reason}" if words else reason
        super().__init__(printable(f"{told}: {text[:LONGEST_SHOWN]}" if text else told))
        self.reason, self.kind, self.line, self.text = reason, kind, line, text


class NotStable(BonsaiError):
    """Labels are not a stable solution. `router` is the first at which they are not, and `reason` says why:
    `wrong-origin`, `not-a-candidate`, `better-candidate` or `none-with-candidate`."""

    def __init__(self, router: str, reason: str) -> None:
        super().__init__(f"not stable: {router} {reason}")
        self.router, self.reason = router, reason


class ProgramFailed(BonsaiError):
    """A program crashed, is not there, ran out of memory, or did not write what it should. `status` is its exit status,
    negative for a signal, and 9 where it could not be started. `reason` says what is known."""

    def __init__(self, status: int, reason: str) -> None:
        self.status, self.reason = int(status), printable(reason) or _ended(status)
        super().__init__(self.reason)


def _ended(status: int) -> str:
    """How a program ended that said nothing."""
    try:
        return f"the program was ended by {signal.Signals(-status).name}"
    except ValueError:
        return f"the program ended with status {status}"


def error_of(answer: Answer, name: str, text: str, more: str = "", words: str = "") -> BonsaiError:
    """The error of a call with these words that was not done, over a text of this name. `more` is the second text, of
    questions or labels."""
    reason = answer.reason
    if answer.status == Status.REFUSED and reason.startswith("refused: "):
        return _refused(answer, name, text, more) or ProgramFailed(answer.status, reason)
    if answer.status == Status.USAGE and reason.startswith(USAGE):
        return WordsRefused(reason, words=words)
    if answer.status == Status.NOT_STABLE and (found := NOT_STABLE.fullmatch(reason)):
        return NotStable(found[1], found[2])
    return ProgramFailed(answer.status, reason)


def _refused(answer: Answer, name: str, text: str, more: str) -> BonsaiError | None:
    """The error of what the program refused, if it is one that the program knows."""
    refusal, reason = refusal_of(answer), answer.reason.removeprefix("refused: ")
    if refusal:
        return TextRefused(name, refusal.kind, refusal.line, _line_of(text, refusal.line))
    if found := NO_CANON.fullmatch(reason):
        return TextRefused(name, found[1], None, "", reason)
    if found := NO_CLASS.fullmatch(reason):
        return ClassNotFound(found[1])
    if found := OF_LINE.fullmatch(reason):
        return WordsRefused(reason, found[2], int(found[1]), _line_of(more, int(found[1])))
    found = OF_FILE.fullmatch(reason) or OF_NAME.fullmatch(reason)
    return WordsRefused(reason, found[1]) if found else None


def _line_of(text: str, number: int | None) -> str:
    """The line of a number in a text, empty where it has none."""
    lines = text.split("\n")
    return shown(lines[number - 1].removesuffix("\r")) if number and number <= len(lines) else ""
