"""Folders of configurations that were changed at random, with decisions and words, through the import."""
from __future__ import annotations

import json
import random
from collections import Counter
from collections.abc import Iterator
from pathlib import Path

from bonsainet.ask.program import TOP, Program
from bonsainet.cli.command_line import Refused
from bonsainet.configs.text import text_of
from bonsainet.importing.decisions import Decisions, read_decisions
from bonsainet.importing.read import read_folder
from bonsainet.importing.report import Report, Silent
from bonsainet.importing.rules.options import Options
from bonsainet.importing.tool import imported

FOLDERS = sorted(path.parent for path in (TOP / "examples" / "folders").glob("*/configs"))
WORDS = ("x", "0", "10.0.0.1", "255.255.255.0", "99999999999", "-1", "a/b", "1.2.3.4/40", "::1", "*", "no", "end")
ODD = (
    "\x1b[2J\x1b]0;title\x07",
    "\x9b31m",
    "\x00",
    "\u202e",
    "Zürich",
    "<" + "-" * 3000,
    "--More--\b\b\b",
    "r1#show running-config",
    "banner motd ^C",
    "!" * 200,
    " " * 300 + "x",
    "certificate self-signed 01",
    "ip route 0.0.0.0 0.0.0.0 Null0 name Zürich",
    "vrf definition X",
    " standby 1 authentication word",
    "end",
    "hostname other",
)
PATTERNS = ('drop "*" because "all"\n', 'drop at "*" "ip route *" because "x"\n', 'drop "*a*b*c*" because \x1b[1m\n')
NAMES = ("odd name.cfg", "\x1b[31m.cfg", "new\nline.cfg", "inventory.txt", ".hidden", "a.old")


def attack(chance: random.Random, room: Path, program: Program) -> list[str]:
    """What fails where a folder is imported, in words."""
    example = chance.choice(FOLDERS)
    _write(chance, example, room / "configs")
    try:
        decisions = _decisions(chance, example)
        report = imported(read_folder(str(room / "configs")), program, decisions, Options(chance.random() < 0.3))
    except Silent as silent:
        return [f"a line changed in silence: {silent}"]
    except Refused:
        return []
    return [*faults_of_report(report), *faults_of_text(report, program)]


def faults_of_report(report: Report) -> Iterator[str]:
    """What is wrong with what the import tells."""
    if not all(letter == "\n" or letter.isprintable() for letter in report.text):
        yield "the report has what a terminal obeys"
    told = json.loads(report.json)
    if len(told["refused"]) != len(report.refused) or len(told["lines"]) != len(report.changes):
        yield "the report as JSON has other lines"


def faults_of_text(report: Report, program: Program) -> Iterator[str]:
    """What is wrong with the text that the import writes: the program refuses it, or a line is lost of which nothing is told."""
    if report.folder.log.refusals:
        return
    text = text_of(report.folder.routers)
    refusal = program.refusal(text)
    if refusal:
        yield f"the text is refused: {refusal}"
    told = {change.place for change in report.changes}
    wanted = Counter(" ".join(raw.split()) for place, raw in report.folder.raw.items() if place not in told)
    found = Counter(" ".join(line.split()) for line in text.splitlines())
    for line, count in (wanted - found).items():
        if line and line[0] not in "!#" and line != "end":
            yield f"lost without a word, {count} times: {line}"


def _write(chance: random.Random, example: Path, folder: Path) -> None:
    """Some files of an example, changed."""
    folder.mkdir()
    files = sorted((example / "configs").iterdir())
    everything = [line for file in files for line in file.read_text("latin-1").splitlines()]
    rate = chance.choice((0.0, 0.003, 0.02, 0.1))
    for file in chance.sample(files, chance.randint(1, len(files))):
        lines = file.read_text("latin-1").splitlines()
        changed = [part for line in lines for part in _changed(chance, line, everything, rate)]
        if chance.random() < 0.1:
            changed = changed[: chance.randint(0, len(changed))]
        name = chance.choice(NAMES) if chance.random() < 0.05 else file.name
        end = chance.choice(("\n", "\n", "\n", "\r\n", "\r"))
        coding = chance.choice(("utf-8", "utf-8", "utf-16", "latin-1"))
        (folder / name).write_bytes(end.join(changed).encode(coding, "replace"))


def _changed(chance: random.Random, line: str, everything: list[str], rate: float) -> list[str]:
    """A line as it stands, or cut, doubled, left out, with another word, or with one of another file before it."""
    if chance.random() >= rate:
        return [line]
    words = line.split(" ")
    match chance.randrange(6):
        case 0:
            return [" ".join(words[: chance.randint(0, len(words))])]
        case 1:
            return [line, line]
        case 2:
            return []
        case 3:
            words[chance.randrange(len(words))] = chance.choice(WORDS)
            return [" ".join(words)]
        case 4:
            return [chance.choice(everything), line]
        case _:
            return [chance.choice(("", " ")) + chance.choice(ODD), line]


def _decisions(chance: random.Random, example: Path) -> Decisions:
    """The decisions of an example, or some of them, or others."""
    place = example / "decisions"
    lines = place.read_text("utf-8").splitlines(keepends=True) if place.exists() else list(PATTERNS[:2])
    kept = [line for line in lines if chance.random() < 0.8]
    if chance.random() < 0.2:
        kept.append(chance.choice(PATTERNS))
    if chance.random() < 0.1:
        kept.append(chance.choice(lines)[: chance.randint(0, 40)])
    return read_decisions("".join(kept) if chance.random() < 0.9 else "", "decisions")
