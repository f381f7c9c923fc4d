"""What a person decides about lines that no rule can write: a file of decisions, each with its reason.

A line of the file is one of

    drop [at FILE] "PATTERN" because REASON
    drop! [at FILE] "PATTERN" because REASON
    bandwidth [at FILE] "INTERFACE" KBITS because REASON
    cost [at FILE] "INTERFACE" COST because REASON
    undefined [at FILE] "NAME" permit|deny because REASON
    own-as ROUTER.. because REASON

PATTERN is a line of the folder, its words separated by one blank, where `*` stands for anything. A pattern that is a top
line takes its whole stanza, and one that opens a family or a template takes all lines of it. Lines that begin with `#`
are comments. A line that the import can write, or that Bonsai reads, is dropped by `drop!` alone (guard.py).
"""
from __future__ import annotations

import dataclasses
import re
import shlex
from collections import deque
from collections.abc import Iterator

from bonsainet.cli.command_line import Refused
from bonsainet.importing.cleaning import CHARACTERS
from bonsainet.importing.folder import Dialect, Folder, Source
from bonsainet.importing.rule import rule
from bonsainet.configs.text import Line, Place, Stanza

DECIDED = rule("decision", "a person decided so, for the reason that the report gives", "the decisions file")
PROTECTED = "protected"
GUARDED = "guarded"
DROPS = ("drop", "drop!")
OWN_AS = "own-as"
LONGEST_DECISIONS = 16_777_216
VERBS = (*DROPS, "bandwidth", "cost", "undefined", OWN_AS)
LARGEST = {"bandwidth": 4_294_967_295, "cost": 65_535}
OPENING = {
    "address-family": ("exit-address-family",),
    "template": ("exit-peer-session", "exit-peer-policy"),
}
TABLE = (["vrf", "forwarding"], ["ip", "vrf", "forwarding"], ["vrf", "member"])


@dataclasses.dataclass
class Decision:
    """One decision: what to do with what matches, and why."""

    line: int
    verb: str
    file: str
    pattern: str
    value: str
    reason: str
    is_used: bool = False

    def covers(self, line: Line, text: str) -> bool:
        """Whether the decision is about a text at a line."""
        if not _fits(line.place.file, self.file) or not _fits(" ".join(text.split()), self.pattern):
            return False
        self.is_used = True
        return True


def _fits(text: str, pattern: str) -> bool:
    """Whether a pattern is the whole text, where `*` stands for anything. Each piece is looked for once, from the left."""
    first, *rest = pattern.split("*")
    if not rest:
        return text == pattern
    *middle, last = rest
    at, end = len(first), len(text) - len(last)
    if at > end or not text.startswith(first) or not text.endswith(last):
        return False
    for piece in middle:
        at = text.find(piece, at, end)
        if at < 0:
            return False
        at += len(piece)
    return True


@dataclasses.dataclass
class Decisions:
    """All decisions, in the order of the file."""

    all: list[Decision] = dataclasses.field(default_factory=list)

    def find(self, verb: str, line: Line, text: str) -> Decision | None:
        """The first decision of a verb about a text at a line."""
        return next((found for found in self.all if found.verb == verb and found.covers(line, text)), None)

    def drop_of(self, line: Line) -> Decision | None:
        """The first decision that drops a line, or the stanza that it opens."""
        if line.is_blank:
            return None
        return next((found for found in self.all if is_drop(found.verb) and found.covers(line, line.text)), None)

    @property
    def has_drops(self) -> bool:
        """Whether a decision drops lines."""
        return any(is_drop(found.verb) for found in self.all)

    def own_as(self) -> dict[str, Decision]:
        """The routers that decisions about `--own-as` name, each with its decision."""
        return {name: found for found in self.all if found.verb == OWN_AS for name in found.pattern.split()}

    @property
    def unused(self) -> list[Decision]:
        """The decisions that nothing matched."""
        return [found for found in self.all if not found.is_used]


def decisions_in(name: str) -> Decisions:
    """The decisions of a file, by its name. Refused at the first line that is none."""
    with open(name, encoding="utf-8", errors="replace") as file:
        text = file.read(LONGEST_DECISIONS + 1)
    if len(text) > LONGEST_DECISIONS:
        raise Refused(f"{name}: has more than {LONGEST_DECISIONS} characters")
    return read_decisions(text, name)


def read_decisions(text: str, name: str) -> Decisions:
    """The decisions of a file. Refused at the first line that is none."""
    found = Decisions()
    for number, line in enumerate(text.splitlines(), 1):
        if line.strip() and not line.lstrip().startswith("#"):
            found.all.append(_decision(line, number, name))
    return found


def _decision(line: str, number: int, name: str) -> Decision:
    head, because, reason = line.partition(" because ")
    try:
        words = shlex.split(head)
    except ValueError as fault:
        raise Refused(f"{name}:{number}: {fault}") from fault
    if not because or not reason.strip():
        raise Refused(f"{name}:{number}: a decision ends with `because` and a reason")
    verb, words = (words[0], words[1:]) if words else ("", [])
    file = "*"
    if words[:1] == ["at"] and len(words) > 2:
        file, words = words[1], words[2:]
    is_form = len(words) == (1 if verb in DROPS else 2) or (verb == OWN_AS and words and file == "*")
    if verb not in VERBS or not is_form:
        raise Refused(
            f'{name}:{number}: not of the form `drop [at FILE] "PATTERN" because REASON`, or `drop!`, or `bandwidth`, `cost` or `undefined` with a value, or `own-as` with routers'
        )
    if verb == OWN_AS:
        return Decision(number, verb, file, " ".join(words), "", _unquoted(reason.strip()))
    value = words[1] if len(words) > 1 else ""
    if (verb in LARGEST and not _is_number(value, LARGEST[verb])) or (
        verb == "undefined" and value not in ("permit", "deny")
    ):
        raise Refused(f"{name}:{number}: {value!r} is no value for `{verb}`")
    return Decision(number, verb, file, " ".join(words[0].split()), value, _unquoted(reason.strip()))


def _is_number(word: str, largest: int) -> bool:
    return re.fullmatch("0*[0-9]{1,10}", word) is not None and 1 <= int(word) <= largest


def _unquoted(text: str) -> str:
    return text[1:-1] if len(text) > 1 and text[0] == text[-1] == '"' else text


@dataclasses.dataclass(frozen=True)
class Unit:
    """Lines that a decision drops together: a stanza, a family or a template, or one line."""

    router: Source
    stanza: Stanza
    lines: list[Line]


def is_drop(verb: str) -> bool:
    """Whether a decision of this verb leaves lines out."""
    return verb in DROPS


def units(folder: Folder) -> Iterator[Unit]:
    """What the decisions drop, unit by unit."""
    decisions = folder.decisions or Decisions()
    if not decisions.has_drops:
        return
    for router in folder.routers:
        for stanza in router.stanzas:
            if decisions.drop_of(stanza.head):
                yield Unit(router, stanza, stanza.lines)
                continue
            for lines, found in _pieces(decisions, router, stanza):
                if found:
                    yield Unit(router, stanza, lines)


def apply_drops(folder: Folder, guarded: dict[Place, str]) -> None:
    """Leaves out what the decisions drop, and keeps a note of it in the text. `guarded` says of which lines the drop
    makes another network."""
    if not folder.own_decisions.has_drops:
        return
    for router in folder.routers:
        kept = []
        for stanza in router.stanzas:
            found = folder.own_decisions.drop_of(stanza.head)
            if found and stanza.starts("hostname"):
                folder.log.refuse(
                    stanza.head, PROTECTED, "without its name a router is none: leave its file out of the folder"
                )
                kept.append(stanza)
            elif found and _may_drop(folder, stanza.head, found, guarded):
                folder.log.cut(stanza.lines, DECIDED)
                folder.log.assume(stanza.head, found.reason)
                kept.append(Stanza(note(stanza.head, found.reason, "")))
            elif found:
                kept.append(stanza)
            else:
                stanza.body = list(_body(folder, router, stanza, guarded))
                kept.append(stanza)
        router.stanzas = kept
    folder.log.take_back(CHARACTERS.name, DECIDED)


def _may_drop(folder: Folder, line: Line, found: Decision, guarded: dict[Place, str]) -> bool:
    """Whether a line may be dropped: one that has a bearing by `drop!` alone, which the report says at its end."""
    why = guarded.get(line.place)
    if why is None:
        return True
    if found.verb == "drop":
        folder.log.refuse(
            line,
            GUARDED,
            f"{why}: without it this is another network. `drop!` drops it nonetheless, and the report says so",
        )
        return False
    folder.log.warnings.append(
        f"{line.place}: `{' '.join(line.words)}` is dropped by `drop!`, and without it this is another network: {found.reason}"
    )
    return True


def _pieces(decisions: Decisions, router: Source, stanza: Stanza) -> Iterator[tuple[list[Line], Decision | None]]:
    """The lines of a body one by one, with the decision that drops each; a dropped line that opens a family or a
    template comes with all lines of it."""
    rest = deque(stanza.body)
    while rest:
        line = rest.popleft()
        found = decisions.drop_of(line)
        lines = [line]
        if found and line.words[0] in OPENING:
            while rest and not _is_behind(router, rest[0], line):
                lines.append(rest.popleft())
                if _closes(lines[-1], line):
                    break
        yield lines, found


def _is_behind(router: Source, line: Line, opening: Line) -> bool:
    """Whether a line is behind a family or template that another line opened."""
    return (
        router.dialect is Dialect.IOS
        and not line.is_blank
        and _depth(line) <= _depth(opening)
        and not _closes(line, opening)
    )


def _body(folder: Folder, router: Source, stanza: Stanza, guarded: dict[Place, str]) -> Iterator[Line]:
    """The lines of a body, where a line that opens a family or a template is dropped with all lines of it."""
    for lines, found in _pieces(folder.decisions or Decisions(), router, stanza):
        if found is None or _is_protected(folder, stanza, lines[0]) or not _may_drop(folder, lines[0], found, guarded):
            yield from lines
            continue
        folder.log.cut(lines, DECIDED)
        folder.log.assume(lines[0], found.reason)
        yield note(lines[0], found.reason, " ")


def _closes(line: Line, opening: Line) -> bool:
    return line.words[:1] != [] and line.words[0] in OPENING[opening.words[0]]


def _depth(line: Line) -> int:
    return len(line.text) - len(line.text.lstrip())


def _is_protected(folder: Folder, stanza: Stanza, line: Line) -> bool:
    """Whether a line may not be dropped by itself, which is refused."""
    is_part = line.words[:1] == ["match"] or line.words[:2] == ["ip", "address"]
    if not is_part and all(line.words[: len(head)] != head for head in TABLE):
        return False
    whole = "entry" if line.words[0] == "match" else "interface"
    folder.log.refuse(
        line,
        PROTECTED,
        f"without this line its {whole} says something else: the whole {whole} can be dropped, `{' '.join(stanza.head.words)}`",
    )
    return True


def note(line: Line, reason: str, indent: str) -> Line:
    """The comment that names an assumption in the text."""
    text = f"{indent}! assumed: {' '.join(line.words)} ({line.place}): {reason}"
    return line.with_text("".join(letter if 0x20 <= ord(letter) < 0x7F else "?" for letter in text)[:1000])
