"""`examples/check`: the program answers the examples as kept, and the pages' command lines as shown.

A line of scripts/commands is the name of an answer, and then the words; files are those of inputs/. The answer NAME is
answers/NAME.out, with NAME.err and NAME.status where these are not empty and 0. scripts/questions has such lines for
bonsai-ask, scripts/frames for bonsai-all. Checks of several commands:

  twice      a network that `compress` wrote has one class, and compressed again it is the same except for the names of members
  canonical  `canon` of what `compress` wrote is `canon` of the text except for the names of members, and so is `canon` of what `canon` wrote
  round      what `fold` writes is stable in the network that `compress` wrote, and what `lift` makes of it is stable in the text
  reaching   `run` of the order that `reach` writes rests in labels that have the keys of the solution
  certified  `verify` accepts what `certify` writes, for each class of the text
  json       `jq` reads what `json` writes, as it stands
  page       each command line of a page writes what the page shows
  code       the code that a page quotes from a file stands there
  picture    the picture of README is what bonsai-draw draws
  definitions  docs/inside/PROVED.md lists the definitions that dev/reading-list prints, each name once
  names      no name is defined by more than one file of definitions, except those of scripts/doubled-names, which only shrinks
  crates     docs/inside/ARCHITECTURE.md has the table that dev/architecture makes
"""
from __future__ import annotations

import argparse
import concurrent.futures
import dataclasses
import functools
import os
import re
import shutil
import subprocess
import sys
import tempfile
from collections.abc import Callable, Iterator
from pathlib import Path

from bonsainet.cli import command_line
from bonsainet.cli.command_line import Refused
from bonsainet.repo.pages import Room, pages, quoted_in, run_shown, shown_in
from bonsainet.ask.program import TOP, Answer, variable_of
from bonsainet.ask.where import without_notices

EXAMPLES = TOP / "examples"
INPUTS, ANSWERS, SCRIPTS = EXAMPLES / "inputs", EXAMPLES / "answers", EXAMPLES / "scripts"
DOUBLED_NAMES = SCRIPTS / "doubled-names"
# The program that answers the lines of a script.
PROGRAMS = {"commands": "bonsai", "questions": "bonsai-ask", "frames": "bonsai-all"}
AT_ONCE = 3
MOST_SHOWN = 2000


def differences(wanted: Answer, found: Answer) -> list[str]:
    """What differs in an answer from the one that is wanted, in words."""
    pairs = ((name, getattr(wanted, name), getattr(found, name)) for name in ("out", "err", "status"))
    return [
        f"{name}: wanted {str(one)[:MOST_SHOWN]}, got {str(other)[:MOST_SHOWN]}"
        for name, one, other in pairs
        if one != other
    ]


STABLE, YES = Answer(0, b"stable\n", b""), Answer(0, b"yes\n", b"")


@dataclasses.dataclass(frozen=True)
class Check:
    """A check: its name, what is said of it, and what finds its faults. A fault that begins with `left out` is none."""

    name: str
    told: str
    faults: Callable[[], list[str]]


def lines_of(script: str) -> list[list[str]]:
    """The words of a script's lines, without comments."""
    lines = (SCRIPTS / script).read_text("utf-8").splitlines()
    return [line.split() for line in lines if line.split() and not line.startswith("#")]


class Asked:
    """The programs, each by its name, and what they answer. Checks of several commands are of `bonsai`."""

    def __init__(self, programs: dict[str, str]) -> None:
        self.programs = programs
        self.program = programs["bonsai"]

    def answer(self, *words: str, of: str = "bonsai") -> Answer:
        """Asks a program from the folder of inputs."""
        ran = subprocess.run(
            [self.programs[of], *words], cwd=INPUTS, stdin=subprocess.DEVNULL, capture_output=True, check=False
        )
        return Answer(ran.returncode, ran.stdout, without_notices(ran.stderr))

    def written(self, folder: str, name: str, *words: str) -> str:
        """The file that has what these words write."""
        place = os.path.join(folder, name)
        Path(place).write_bytes(self.answer(*words).out)
        return place

    def command(self, name: str, *words: str, of: str) -> list[str]:
        """An answer is as kept."""
        return differences(kept(name), self.answer(*words, of=of))

    def twice(self, text: str, number: str) -> list[str]:
        """Compressing again changes nothing."""
        once = self.answer("compress", text, number)
        if once.status or not once.out:
            return [f"not compressed: {once.err[:MOST_SHOWN]!r}"]
        with tempfile.TemporaryDirectory() as folder:
            Path(folder, "small.cfg").write_bytes(once.out)
            again = self.answer("compress", f"{folder}/small.cfg", "1")
        return differences(without_members(once), without_members(again))

    def canonical(self, text: str, number: str) -> list[str]:
        """Canonical maps do not depend on how maps were written."""
        once = self.answer("canon", text, number)
        if once.status or not once.out:
            return [f"not written: {once.err[:MOST_SHOWN]!r}"]
        faults: list[str] = []
        with tempfile.TemporaryDirectory() as folder:
            for command in ("compress", "canon"):
                small = self.written(folder, command, command, text, number)
                faults += differences(without_members(once), without_members(self.answer("canon", small, "1")))
        return faults

    def round(self, text: str, number: str, solution: str) -> list[str]:
        """A solution is carried to the groups and back."""
        with tempfile.TemporaryDirectory() as folder:
            small = self.written(folder, "small.cfg", "compress", text, number)
            folded = self.written(folder, "folded", "fold", text, number, solution)
            lifted = self.written(folder, "lifted", "lift", text, number, folded)
            return differences(STABLE, self.answer("check", small, "1", folded)) + differences(
                STABLE, self.answer("check", text, number, lifted)
            )

    def reaching(self, text: str, number: str, solution: str) -> list[str]:
        """A solution is reached from no labels."""
        with tempfile.TemporaryDirectory() as folder:
            order = self.written(folder, "order", "reach", text, number, solution)
            first, _, labels = self.answer("run", text, number, order).out.partition(b"\n")
        if first != b"rest":
            return [f"not at rest: {first!r}"]
        return (
            []
            if keys_of(labels) == keys_of((INPUTS / solution).read_bytes())
            else [f"other keys: {labels[:MOST_SHOWN]!r}"]
        )

    def certified(self, text: str) -> list[str]:
        """The certificate of each class is accepted."""
        faults: list[str] = []
        with tempfile.TemporaryDirectory() as folder:
            for number in range(1, self.answer("classes", text).out.count(b"\n") + 1):
                certificate = self.written(folder, "certificate", "certify", text, str(number))
                faults += differences(YES, self.answer("verify", text, str(number), certificate))
        return faults

    def json(self, text: str, number: str) -> list[str]:
        """The line of JSON is read as it stands, with its keys in order."""
        if not shutil.which("jq"):
            return ["left out: no jq here"]
        line = self.answer("json", text, number).out
        read = subprocess.run(["jq", "-cS", "."], input=line, stdout=subprocess.PIPE, check=False)
        return [] if read.returncode == 0 and read.stdout == line else [f"jq reads it as {read.stdout[:MOST_SHOWN]!r}"]

    def page(self, name: str) -> list[str]:
        """The command lines of a page write what it shows."""
        faults: list[str] = []
        with tempfile.TemporaryDirectory(prefix="bonsai-page-") as folder:
            room = Room.of(Path(folder))
            for shown in shown_in(name, (TOP / name).read_text("utf-8")):
                kind, said = run_shown(shown, room, self.program)
                if kind != "ok":
                    faults += [f"{kind}: line {shown.line}: {shown.command}", *(f"{kind}:   {line}" for line in said)]
        return faults


def kept(name: str) -> Answer:
    """The answer that is kept under a name."""

    def part(ending: str, default: bytes) -> bytes:
        path = ANSWERS / f"{name}.{ending}"
        return path.read_bytes() if path.exists() else default

    return Answer(int(part("status", b"0")), part("out", b""), part("err", b""))


def keep(name: str, found: Answer) -> None:
    """Keeps an answer under a name."""
    for ending, data, default in (
        ("out", found.out, b""),
        ("err", found.err, b""),
        ("status", b"%d\n" % found.status, b"0\n"),
    ):
        path = ANSWERS / f"{name}.{ending}"
        if data == default:
            path.unlink(missing_ok=True)
        else:
            path.write_bytes(data)


def without_members(text: Answer) -> Answer:
    """An answer without the lines that name members."""
    return dataclasses.replace(
        text, out=b"".join(line for line in text.out.splitlines(keepends=True) if not line.startswith(b"! member "))
    )


def key_of(words: list[str]) -> list[str]:
    """Of a label's words the name with what routes are compared by, except for the names of lone routers."""
    if words[1] != "bgp":
        return words
    path = words[4 : words.index("comms")]
    length = sum(int(number.partition("*")[2] or 1) for number in path)
    return [*words[:3], str(length), *words[words.index("comms") :]]


def keys_of(labels: bytes) -> list[list[str]]:
    """The keys of labels, by the names of the routers."""
    return sorted(key_of(line.split()) for line in labels.decode("ascii").splitlines())


def faults_of_picture() -> list[str]:
    """The picture of README is what bonsai-draw draws, except for the places that a version of Graphviz chooses."""
    if not shutil.which("dot"):
        return ["left out: no dot here"]
    drawn = subprocess.run(
        [TOP / "tools" / "bonsai-draw", INPUTS / "fat-tree-4.cfg", "1"], capture_output=True, check=False
    )
    if drawn.returncode:
        return [drawn.stderr.decode("utf-8", "replace").strip()]
    same = said_in(drawn.stdout) == said_in((TOP / "docs" / "data" / "fat-tree-4.svg").read_bytes())
    return (
        [] if same else ["tools/bonsai-draw examples/inputs/fat-tree-4.cfg 1 -o docs/data/fat-tree-4.svg draws it anew"]
    )


def said_in(picture: bytes) -> list[bytes]:
    """The words and colours of a picture, in any order."""
    return sorted(re.findall(rb">([^<>\n]+)<|fill=\"([^\"]*)\"", picture))


def faults_of_definitions() -> list[str]:
    """The page of what is proved lists the definitions that a reader has to believe, and each name is defined once."""
    listed = subprocess.run([sys.executable, TOP / "dev" / "reading-list"], stdout=subprocess.PIPE, check=False)
    page = (TOP / "docs" / "inside" / "PROVED.md").read_bytes()
    if listed.returncode != 0 or b"```\n%s```\n" % listed.stdout not in page:
        return ["docs/inside/PROVED.md has not what dev/reading-list prints"]
    names = [name for line in listed.stdout.decode().splitlines() for name in line.partition(".antt: ")[2].split()]
    return [f"{name} is defined twice" for name in sorted(set(names)) if names.count(name) > 1]


def faults_of_names() -> list[str]:
    """No name is defined by several files, except those of a list that only shrinks."""
    listed = subprocess.run(
        [sys.executable, TOP / "dev" / "reading-list", "--twice"], stdout=subprocess.PIPE, check=False
    )
    if listed.returncode != 0:
        return ["dev/reading-list --twice fails"]
    lines = listed.stdout.decode().splitlines()
    doubled, kept_names = [line.partition(":")[0] for line in lines], set(DOUBLED_NAMES.read_text("utf-8").split())
    new = [f"dev/reading-list --twice: {line}" for line, name in zip(lines, doubled) if name not in kept_names]
    gone = [f"{name}: no two files define it now; take it off {DOUBLED_NAMES.name}" for name in kept_names - {*doubled}]
    return new + sorted(gone)


def faults_of_code() -> list[str]:
    """The code of pages stands in the files that they name."""
    quoted = [it for name in pages() for it in quoted_in(name, (TOP / name).read_text("utf-8"))]
    return [f"{it.page}: {fault}" for it in quoted if (fault := it.fault(TOP))]


def faults_of_crates() -> list[str]:
    """The table of crates is current."""
    told = subprocess.run(
        [sys.executable, TOP / "dev" / "architecture", "--check"], capture_output=True, text=True, check=False
    )
    return told.stderr.splitlines() if told.returncode else []


def checks(asked: Asked) -> Iterator[Check]:
    """All checks, in order."""
    for script, of in PROGRAMS.items():
        for name, *words in lines_of(script):
            told = " ".join(words) if of == "bonsai" else " ".join([of, *words])
            yield Check(name, told, functools.partial(asked.command, name, *words, of=of))
    kinds = (
        ("twice", "twice", "compress twice"),
        ("canonical", "canonical", "canon of compress and of canon"),
        ("round", "round", "fold, lift and check"),
        ("round", "reaching", "reach and run"),
    )
    for script, kind, told in (
        *kinds,
        ("certified", "certified", "certify and verify"),
        ("twice", "json", "jq reads json"),
    ):
        for words in lines_of(script):
            yield Check(kind, f"{told} {' '.join(words)}", functools.partial(getattr(asked, kind), *words))
    for name in pages():
        if shown_in(name, (TOP / name).read_text("utf-8")):
            yield Check(name, f"the command lines of {name}", functools.partial(asked.page, name))
    yield Check("code", "the code that pages quote", faults_of_code)
    yield Check("picture", "the picture of README.md", faults_of_picture)
    yield Check("definitions", "the list of definitions in docs/inside/PROVED.md", faults_of_definitions)
    yield Check("names", "the names that several files define", faults_of_names)
    yield Check("crates", "the table of crates in docs/inside/ARCHITECTURE.md", faults_of_crates)


def run(chosen: list[Check]) -> int:
    """Runs checks side by side, reports each in order, and returns 1 where one finds a fault."""
    failed = 0
    with concurrent.futures.ThreadPoolExecutor(AT_ONCE) as pool:
        for check, faults in zip(chosen, pool.map(lambda check: check.faults(), chosen)):
            is_well = all(fault.startswith("left out") for fault in faults)
            failed += not is_well
            print(f"{'ok' if is_well else 'not as kept'}: {check.told}")
            print("".join(f"  {fault}\n" for fault in faults), end="", flush=True)
    print(f"examples: {len(chosen) - failed} as kept, {failed} not")
    return 1 if failed else 0


def main(words: list[str] | None = None) -> int:
    """The command line of examples/check."""
    given = command_line.parser("check", __doc__ or "")
    given.add_argument(
        "--program",
        metavar="PATH",
        help="the program to ask in place of bonsai (default: $BONSAI_PROGRAM, or ./bonsai)",
    )
    given.add_argument(
        "--keep", action="store_true", help="keep the answers of the commands NAME.. instead of comparing them"
    )
    given.add_argument(
        "names", nargs="*", metavar="NAME", help="names of answers, kinds of checks or pages (default: all)"
    )
    asked = given.parse_args(words)
    return carry_out(asked)


def carry_out(given: argparse.Namespace) -> int:
    """Checks, or keeps answers."""
    asked = Asked({name: program_of(name, given.program if name == "bonsai" else None) for name in PROGRAMS.values()})
    every = list(checks(asked))
    unknown = sorted(set(given.names) - {check.name for check in every})
    if unknown:
        raise Refused(f"{unknown[0]}: no answer, kind of check or page has this name")
    if not given.keep:
        return run([check for check in every if not given.names or check.name in given.names])
    commands = {name: (of, words) for script, of in PROGRAMS.items() for name, *words in lines_of(script)}
    if not given.names or set(given.names) - set(commands):
        raise Refused(f"--keep takes names of {', '.join(f'scripts/{script}' for script in PROGRAMS)}")
    for name in given.names:
        of, words = commands[name]
        keep(name, asked.answer(*words, of=of))
        print(f"kept: {name}")
    return 0


def program_of(name: str, given: str | None) -> str:
    """The file to run for a program: the one that is given, or that the environment names, or the launcher of the repository."""
    wanted = given or os.environ.get(variable_of(name)) or TOP / name
    found = shutil.which(wanted)
    if not found:
        raise Refused(f"{wanted}: there is no such program")
    return os.path.abspath(found)
