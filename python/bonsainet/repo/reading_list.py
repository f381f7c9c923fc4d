"""`dev/reading-list`: what a reader has to believe of `run`.

A clause of the top call cites definitions of specs/, which cite others; these speak of types of src/, and of definitions of the kit.
"""
from __future__ import annotations

import argparse
import dataclasses
import functools
import re
from collections.abc import Iterable, Iterator
from pathlib import Path

from bonsainet.ask.program import TOP
from bonsainet.cli.command_line import Refused, parser
from bonsainet.repo.definitions import File, Place, cited_by, file_of, imports_of, words_of
from bonsainet.repo.rust_types import RustType, types_named

CRATES = TOP / "crates"
START = CRATES / "bonsai_top" / "src" / "top.rt"
ENDS = CRATES / "io_kit" / "src" / "ends.rt"
OUTCOMES = CRATES / "bonsai_top" / "specs" / "Outcomes.antt"
BY_COMMAND = ("IsOnNetwork", "IsOnClass", "IsOnSecond", "IsAnswerTo")
WITHOUT_FILES = "IsOutcomeWithoutFiles"
COMMAND = re.compile(r"Is\w+ (?:on_\w+\.|\(command\.(?!On))(\w+)")
NAMES_A_LINE = 12


def clauses(text: str, wanted: str | None = None) -> str:
    """The clauses of a source file, or those of one name."""
    found: list[str] = []
    depth, is_wanted = 0, False
    for line in text.splitlines():
        match = re.match(r"\s*(?:requires|ensures)\b\s*(\w*)", line)
        if not depth and match:
            is_wanted = wanted in (None, match[1])
        if depth or match:
            if is_wanted:
                found.append(line)
            depth += line.count("{") - line.count("}")
    return "\n".join(found)


def reach(start: Iterable[Place], seen: set[Place], stops: Iterable[Place] = ()) -> list[Place]:
    """The definitions that these reach and that were not seen, in the order in which they are met."""
    order: list[Place] = []
    waiting = [place for place in dict.fromkeys(start) if place not in seen]
    seen.update(waiting)
    kept = set(stops)
    while waiting:
        place = waiting.pop(0)
        here = file_of(place.file)
        if place.name not in here.definitions:
            continue
        order.append(place)
        if place in kept:
            continue
        for to in here.cited(place.name):
            if to not in seen:
                seen.add(to)
                waiting.append(to)
    return order


def shown(order: Iterable[Place], with_source: bool, more: Iterable[str] = ()) -> list[str]:
    """The lines that list these definitions, file by file."""
    files: dict[Path, list[str]] = {}
    for place in order:
        files.setdefault(place.file, []).append(place.name)
    out, total = list(more), 0
    for file, names in files.items():
        lines = sum(len(file_of(file).definitions[name]) for name in names)
        total += lines
        out.append(f"{lines:5}  {file.relative_to(CRATES)}: {' '.join(name.strip('◌') for name in names)}")
        if with_source:
            out += ["       " + line for name in names for line in file_of(file).definitions[name]]
    out.append(f"{total:5}  lines of definitions in {len(files)} files")
    return out


@dataclasses.dataclass(frozen=True)
class Beside:
    """What a clause rests on beside definitions of specs/: types of src/, clauses, and names of the kit."""

    types: list[RustType]
    own_lines: int
    trait_lines: int
    of_kit: list[str]

    @property
    def lines(self) -> int:
        """The lines of types and clauses."""
        return sum(found.count for found in self.types) + self.own_lines + self.trait_lines

    def shown(self, clause: str, definitions: int) -> Iterator[str]:
        """The lines that list it."""
        by_file: dict[Path, list[RustType]] = {}
        for found in self.types:
            by_file.setdefault(found.file, []).append(found)
        for file, types in by_file.items():
            count = sum(found.count for found in types)
            yield f"{count:5}  {file.relative_to(CRATES)}: {' '.join(found.name for found in types)}"
        yield f"{self.own_lines:5}  {START.relative_to(CRATES)}: the clause {clause}"
        if self.trait_lines:
            yield f"{self.trait_lines:5}  {ENDS.relative_to(CRATES)}: the clauses of Source and Sink, of which it cites contents and taken"
        yield f"{definitions + self.lines:5}  lines in all, with {len(self.types)} types"
        names = sorted(self.of_kit)
        yield f"       of the kit's specs, {len(names)} names:"
        yield from in_lines(names)


def in_lines(names: list[str]) -> Iterator[str]:
    """Names in lines, so many in each."""
    return ("       " + " ".join(names[start : start + NAMES_A_LINE]) for start in range(0, len(names), NAMES_A_LINE))


@dataclasses.dataclass
class KitNames:
    """The names of the kit's specs that a reader has met."""

    met: set[str]

    def beyond(self, words: Iterable[tuple[File, Iterable[str]]]) -> list[str]:
        """The line that lists those of these words of files that were not met before, if there are any."""
        new = sorted(of_kit(words) - self.met)
        self.met.update(new)
        return ["       of the kit's specs, beyond these:", *in_lines(new)] if new else []


def of_kit(words: Iterable[tuple[File, Iterable[str]]]) -> set[str]:
    """The names of the kit's specs among words of files."""
    return {here.of_kit[word].strip("◌") for here, used in words for word in used if word in here.of_kit}


def words_at(order: Iterable[Place]) -> list[tuple[File, Iterable[str]]]:
    """The words of definitions, with their files."""
    return [(file_of(place.file), file_of(place.file).words(place.name)) for place in order]


def beside(clause: str, order: list[Place]) -> Beside:
    """What a clause of `run` rests on beside the definitions that it reaches."""
    wanted = clauses(top_text(), clause)
    used = [(File.of(START), words_of(wanted)), *words_at(order)]
    ends = clauses(ends_text()) if cites_ends(wanted) else ""
    used += [(File.of(ENDS), words_of(ends))] if ends else []
    declared = {here.declared[word] for here, words in used for word in words if word in here.declared}
    return Beside(types_named(sorted(declared)), len(wanted.splitlines()), len(ends.splitlines()), sorted(of_kit(used)))


def cites_ends(clause: str) -> bool:
    """Whether a clause cites what the sources and sinks of `run` hold, by one of its type parameters."""
    return any(word in ("S", "O", "E") for word in re.findall(r"\b([A-Z])\.", clause))


def starts_of(clause: str) -> list[Place]:
    """What the text of a clause of `run` cites itself, and what the clauses of the sources and sinks cite where it cites
    these."""
    own = cited_by(clause, imports_of(top_text()))
    return own + cited_by(clauses(ends_text()), imports_of(ends_text())) if cites_ends(clause) else own


@functools.cache
def top_text() -> str:
    """The source of the top call."""
    return START.read_text("utf-8")


@functools.cache
def ends_text() -> str:
    """The source of the traits through which `run` meets the outside."""
    return ENDS.read_text("utf-8")


def of_clause(clause: str, with_source: bool, seen: set[Place] | None = None) -> list[str]:
    """What one clause reaches. Refused where `run` has no such clause."""
    wanted = clauses(top_text(), clause)
    if not wanted:
        raise Refused(f"run has no clause {clause}")
    order = reach(starts_of(wanted), set() if seen is None else seen)
    lines = sum(len(file_of(place.file).definitions[place.name]) for place in order)
    return [*shown(order, with_source), *beside(clause, order).shown(clause, lines)]


def command_starts() -> dict[str, list[Place]]:
    """For each command the definitions of its answer."""
    here = file_of(OUTCOMES)
    lines = [line for name in BY_COMMAND for line in here.definitions[name]]
    return {
        match[1]: cited_by(line.partition("=")[2], here.imports) for line in lines if (match := COMMAND.match(line))
    }


def shared_starts() -> list[Place]:
    """What the answers of all commands on a network or a class are defined by."""
    here = file_of(OUTCOMES)
    lines = [line for line in here.definitions["IsAnswerTo"] if not COMMAND.match(line)]
    return cited_by("\n".join(lines), here.imports) + [Place(OUTCOMES, name) for name in BY_COMMAND]


def of_all(with_source: bool) -> list[str]:
    """What all clauses reach: `headline` first, then the others beyond it, then what each command adds."""
    seen: set[Place] = set()
    out = ["the clause headline", *of_clause("headline", with_source, seen)]
    own, imports = File.of(START), imports_of(top_text())
    kit = KitNames(of_kit([(own, words_of(clauses(top_text(), "headline"))), *words_at(seen)]))
    traits = [f"{len(clauses(ends_text()).splitlines()):5}  io_kit/src/ends.rt: the clauses of Source and Sink"]
    rest = (
        cited_by(clauses(top_text()), imports)
        + cited_by(clauses(ends_text()), imports_of(ends_text()))
        + shared_starts()
    )
    stops = [Place(OUTCOMES, name) for name in (*BY_COMMAND, WITHOUT_FILES)]
    order = reach(rest, seen, stops)
    cited = [(own, words_of(clauses(top_text()))), (File.of(ENDS), words_of(clauses(ends_text())))]
    out += [
        "",
        "the other clauses, beyond it",
        *shown(order, with_source, traits),
        *kit.beyond([*cited, *words_at(order)]),
    ]
    for command, start in command_starts().items():
        if order := reach(start, seen):
            of_command = [*shown(order, with_source), *kit.beyond(words_at(order))]
            out += ["", f"the command {command.lower()}, beyond these", *of_command]
    known = {place for place in seen if place.name in file_of(place.file).definitions}
    total = sum(len(file_of(place.file).definitions[place.name]) for place in known)
    return [*out, "", f"{total:5}  lines of definitions in all, in {len({place.file for place in known})} files"]


def twice() -> Iterator[str]:
    """The names that more than one file of definitions has, with these files."""
    found: dict[str, list[str]] = {}
    for file in sorted(CRATES.glob("*/specs/**/*.antt")):
        for name in file_of(file).definitions:
            found.setdefault(name.strip("◌"), []).append(str(file.relative_to(CRATES)))
    return (f"{name}: {' '.join(files)}" for name, files in sorted(found.items()) if len(files) > 1)


def words() -> argparse.ArgumentParser:
    """The words of the command line."""
    made = parser(
        "reading-list",
        "Prints the definitions that the clauses of `bonsai_top::run` reach, file by file: first what the clauses cite themselves,\n"
        "then what those definitions cite, and so on. Of each file it gives the lines of these definitions, without comments, and\n"
        "their names. Behind the definitions of a clause stand the types of src/ that they are made of (lines of fields, variants\n"
        "and models), the lines of the clause itself and of the traits' clauses that it cites, and the names of the kit.",
    )
    made.add_argument("clause", metavar="CLAUSE", nargs="?", help="one clause alone; without it all, `headline` first")
    made.add_argument("--source", action="store_true", help="print the definitions themselves")
    made.add_argument("--twice", action="store_true", help="print each name that more than one file of specs/ defines")
    return made


def main(argv: list[str] | None = None) -> None:
    """The command line of dev/reading-list."""
    asked = words().parse_args(argv)
    if asked.twice:
        lines: Iterable[str] = twice()
    elif asked.clause:
        lines = of_clause(asked.clause, asked.source)
    else:
        lines = of_all(asked.source)
    print("\n".join(lines))
