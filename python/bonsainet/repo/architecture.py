"""The layers of the crates: the table and the picture in docs/, and a check that no crate depends on a higher layer.

crates.txt has the crates by layer, the lowest first. The line `# == NAME: WHAT IT IS FOR` begins a layer; crates under
`# == beside` belong to none. What a crate promises is the first sentence at the head of its src/lib.rt or src/main.rt.
"""

from __future__ import annotations

import argparse
import dataclasses
import hashlib
import html
import re
import shutil
import subprocess
from pathlib import Path

from bonsainet.ask.program import TOP
from bonsainet.cli.command_line import Refused
from bonsainet.repo.proving import uses_of

CRATES = TOP / "crates.txt"
PAGE = TOP / "docs" / "inside" / "ARCHITECTURE.md"
PICTURE = TOP / "docs" / "data" / "crates.svg"
BEGIN, END = "<!-- dev/architecture: begin -->\n", "<!-- dev/architecture: end -->\n"
HEADING = re.compile(r"# == (?P<name>[a-z ]+): (?P<about>.+)")
CRATES_IN_A_ROW = 5


@dataclasses.dataclass(frozen=True)
class Layer:
    """A layer: its name, what it is for, and its crates in the order of crates.txt."""

    name: str
    about: str
    crates: tuple[str, ...]


def layers_of(crates_txt: str) -> list[Layer]:
    """The layers, the lowest first. Refused where a crate stands above the first heading."""
    found: list[Layer] = []
    for line in crates_txt.splitlines():
        if heading := HEADING.fullmatch(line):
            found.append(Layer(heading["name"], heading["about"], ()))
            continue
        name = line.partition("#")[0].partition(":")[0].split()
        if not name:
            continue
        if not found:
            raise Refused(f"crates.txt: {name[0]} stands under no heading `# == LAYER: ..`")
        found[-1] = dataclasses.replace(found[-1], crates=(*found[-1].crates, name[0]))
    return found


def against_the_order(layers: list[Layer], uses: dict[str, list[str]]) -> list[str]:
    """The dependencies that lead from a layer to a higher one, one line each."""
    place = {crate: number for number, layer in enumerate(layers) for crate in layer.crates}
    return [
        f"{crate} ({layers[place[crate]].name}) depends on {below} ({layers[place[below]].name})"
        for crate, all_below in uses.items()
        for below in all_below
        if place[below] > place[crate]
    ]


def levels(uses: dict[str, list[str]]) -> dict[str, int]:
    """The level of each crate, from 1: one above the highest crate that it depends on."""
    found: dict[str, int] = {}

    def level(name: str) -> int:
        if name not in found:
            found[name] = 1 + max(map(level, uses[name]), default=0)
        return found[name]

    for name in uses:
        level(name)
    return found


def root_of(name: str, top: Path = TOP) -> Path:
    """The root file of a crate."""
    folder = top / "crates" / name / "src"
    return folder / "main.rt" if (folder / "main.rt").is_file() else folder / "lib.rt"


def kind(name: str, top: Path = TOP) -> str:
    """What a crate is: code, laws, lemmas, program, tests or examples."""
    if root_of(name, top).name == "main.rt":
        return "program"
    if name.endswith("_tests"):
        return "tests"
    if name.endswith("_uses"):
        return "examples"
    folder = root_of(name, top).parent
    text = "".join(path.read_text() for path in folder.glob("**/*.rt") if path.name != "tests.rt")
    calls = re.findall(r"^\s*pub(?:\(crate\))? fn \w+(?:<[^>]*>)?\(\s*(\)?)", text, re.M)
    if not calls:
        return "lemmas" if "struct" not in text and "enum" not in text else "code"
    return "laws" if all(calls) else "code"


def promise(name: str, top: Path = TOP) -> str:
    """The first sentence at the head of the crate's root."""
    head: list[str] = []
    for line in root_of(name, top).read_text().splitlines():
        if not line.startswith("//!") or (head and not line[3:].strip()):
            break
        head.append(line[3:].strip())
    return re.split(r"(?<=[.:])\s", " ".join(head))[0].rstrip(":.")


def table(layers: list[Layer], uses: dict[str, list[str]]) -> str:
    """The crates by layer, the lowest first, with level, kind and promise."""
    level = levels(uses)
    rows = ["| layer | crate | level | is | promise |", "|---|---|---:|---|---|"]
    for layer in layers:
        for place, crate in enumerate(layer.crates):
            name = f"*{crate}*" if kind(crate) == "laws" else crate
            head = f"**{layer.name}**" if place == 0 else ""
            rows.append(f"| {head} | {name} | {level[crate]} | {kind(crate)} | {promise(crate)} |")
    return "\n".join(rows) + "\n"


def drawing(layers: list[Layer], uses: dict[str, list[str]]) -> str:
    """The picture in the language of Graphviz: a box for each layer, above those that it depends on."""
    place = {crate: number for number, layer in enumerate(layers) for crate in layer.crates}
    arrows = {(place[crate], place[below]) for crate, all_below in uses.items() for below in all_below}
    lines = ["digraph layers {", "rankdir=TB; node [shape=plain fontname=Helvetica fontsize=11]; edge [color=gray40];"]
    lines += [f"layer{number} [label=<{_box(layer)}>];" for number, layer in enumerate(layers)]
    lines += [f"layer{high} -> layer{low};" for high, low in sorted(arrows) if high != low]
    return "\n".join([*lines, "}"]) + "\n"


def _box(layer: Layer) -> str:
    names = [f"<i>{crate}</i>" if kind(crate) == "laws" else crate for crate in layer.crates]
    rows = [names[at : at + CRATES_IN_A_ROW] for at in range(0, len(names), CRATES_IN_A_ROW)]
    cells = "".join("<tr>" + "".join(f"<td>{name}</td>" for name in row) + "</tr>" for row in rows)
    head = f"<b>{html.escape(layer.name)}</b>: {html.escape(layer.about)}"
    return (
        '<table border="1" cellborder="0" cellspacing="2" bgcolor="white">'
        f'<tr><td colspan="{CRATES_IN_A_ROW}" bgcolor="lightblue" align="left">{head}</td></tr>{cells}</table>'
    )


def mark_of(source: str) -> str:
    """The line by which a picture says which drawing it was made of."""
    return f"<!-- dev/architecture: {hashlib.sha256(source.encode()).hexdigest()} -->\n"


def draw(source: str) -> None:
    """Writes the picture, without arrows that follow from others."""
    reduced = subprocess.run(["tred"], input=source, capture_output=True, text=True, check=True).stdout
    made = subprocess.run(["dot", "-Tsvg"], input=reduced, capture_output=True, text=True, check=True).stdout
    PICTURE.write_text(made + mark_of(source))


def main(words: list[str] | None = None) -> int:
    """The command line of dev/architecture."""
    parser = argparse.ArgumentParser(prog="dev/architecture", description=(__doc__ or "").strip())
    parser.add_argument("--check", action="store_true", help="write nothing; 1 where table or picture is not current")
    given = parser.parse_args(words)
    crates_txt = CRATES.read_text()
    layers, uses = layers_of(crates_txt), uses_of(crates_txt)
    wrong = against_the_order(layers, uses)
    if wrong:
        raise Refused(f"crates.txt: {len(wrong)} dependencies against the order of the layers: {wrong[0]}", wrong)
    page = PAGE.read_text()
    before, begins, rest = page.partition(BEGIN)
    _, ends, after = rest.partition(END)
    if not begins or not ends:
        raise Refused("docs/inside/ARCHITECTURE.md lacks the marks of dev/architecture")
    wanted, source = before + BEGIN + table(layers, uses) + END + after, drawing(layers, uses)
    if given.check:
        stale = [
            name
            for name, is_stale in (
                ("docs/inside/ARCHITECTURE.md", page != wanted),
                ("docs/data/crates.svg", not _is_drawn(source)),
            )
            if is_stale
        ]
        if stale:
            raise Refused(f"{' and '.join(stale)}: not what dev/architecture writes")
        return 0
    PAGE.write_text(wanted)
    if not (shutil.which("dot") and shutil.which("tred")):
        raise Refused("docs/data/crates.svg is left as it was: Graphviz is not there")
    draw(source)
    return 0


def _is_drawn(source: str) -> bool:
    return PICTURE.is_file() and PICTURE.read_text().endswith(mark_of(source))
