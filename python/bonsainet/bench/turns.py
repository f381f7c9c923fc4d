"""bench/turns: the processor seconds, or the memory, of one or more programs over networks that grow, each program in
turn, the least of several runs.

So two states of the program are compared in one run of the machine. With --keep the rows go to a file of
bench/measured, and rows that are kept there are not measured again. With --questions the other two programs are
measured, which are found beside the one that is named (`questions.py`).
"""
from __future__ import annotations

import argparse
import dataclasses
import itertools
import os
import shutil
import sys
import tempfile
from collections.abc import Iterable, Iterator
from pathlib import Path

from bonsainet.bench import questions
from bonsainet.bench.inputs import READ_BY, ROUNDS, output, second_files
from bonsainet.bench.kept import Row, Table
from bonsainet.bench.measures import INSTRUCTIONS, MEMORY, SECONDS, Measure, in_turn
from bonsainet.bench.paper import TIME
from bonsainet.bench.shapes import SHAPES
from bonsainet.bench.states import add_named, names_of, program_at, told_of
from bonsainet.cli.command_line import Refused, parser
from bonsainet.nets import fat_tree

OF_TEXT = ("classes", "summary")
OF_CLASS = ("groups", "compress", "canon", "report", "json", "certify")
MAY_CHOOSE = ("certify",)
COMMANDS = (*OF_TEXT, *OF_CLASS, *READ_BY, "trial")
FAT_TREE = "fat-tree"
SIZES = (1024, 2048, 4096)
# (in OSPF each link has a class, and all classes together take about the square of the time of one)
SUMMARY_SIZES = (128, 256, 512)
LOOPBACKS_SIZES = (512, 1024)
TRIALS = (8, 12, 20)
MEMORY_COMMANDS = ("classes", "groups", "compress")
COUNTED_SIZES = (256,)
MOST_BYTES = 16777216
Planned = tuple[str, str, tuple[int, ...]]


@dataclasses.dataclass(frozen=True)
class Network:
    """A network of a shape, with its text and the second files of commands; `trial` makes its own."""

    shape: str
    size: int
    routers: int
    links: int
    classes: int
    file: Path | None
    seconds: dict[str, Path]


def words() -> argparse.ArgumentParser:
    """The words of the command line."""
    made = parser("turns", "Measures programs in turn over networks that grow, and prints a table.")
    made.add_argument(
        "programs", nargs="+", type=Path, metavar="PROGRAM", help="a program, as crates/bonsai/out/bonsai"
    )
    made.add_argument("--command", action="append", choices=COMMANDS, help="only this command (may be repeated)")
    made.add_argument("--shape", action="append", choices=[*SHAPES, FAT_TREE], help="only this shape (may be repeated)")
    usual = f"default: {SIZES}; of `summary` in OSPF {SUMMARY_SIZES}, with loopbacks {LOOPBACKS_SIZES}"
    made.add_argument(
        "--sizes", metavar="N,N..", help=f"numbers of routers, ascending ({usual}); `trial` takes its own"
    )
    made.add_argument(
        "--memory", action="store_true", help="measure the most memory that is resident, in MiB, and no time"
    )
    made.add_argument(
        "--instructions",
        action="store_true",
        help="count instructions, in millions, by one run of each program under valgrind, and measure no time; with --keep on networks of 256 routers",
    )
    made.add_argument(
        "--runs",
        type=int,
        default=5,
        help="turns of the programs, of which the least figures count (default: %(default)s; short runs more, long ones fewer)",
    )
    made.add_argument(
        "--keep",
        action="store_true",
        help="keep the rows in bench/measured (turns.csv, memory.csv or instructions.csv), and measure only what is not kept there of these programs",
    )
    made.add_argument(
        "--anew", action="store_true", help="with --keep: measure again what is kept of these commands and shapes"
    )
    made.add_argument(
        "--questions",
        action="store_true",
        help="measure `bonsai-ask` and `bonsai-all` instead, which are found beside PROGRAM, against `groups` of one class;"
        " takes one program, and with --keep one name",
    )
    add_named(made)
    return made


def main(argv: list[str] | None = None) -> None:
    """Runs the tool."""
    work(words().parse_args(argv))


def work(arguments: argparse.Namespace) -> None:
    """Measures and prints, row by row."""
    if arguments.questions:
        measure_questions(arguments)
        return
    if arguments.anew and not arguments.keep:
        raise Refused("--anew is for what is kept: it needs --keep")
    programs = [program_at(program) for program in arguments.programs]
    if arguments.memory and not os.access(TIME, os.X_OK):
        raise Refused("the program time is not there: install the package time")
    if arguments.instructions and (arguments.memory or not shutil.which("valgrind")):
        raise Refused("--instructions goes without --memory, and needs the package valgrind")
    measure = MEMORY if arguments.memory else INSTRUCTIONS if arguments.instructions else SECONDS
    commands = tuple(arguments.command or (MEMORY_COMMANDS if arguments.memory and arguments.keep else COMMANDS))
    shapes = arguments.shape or [*SHAPES, FAT_TREE]
    sizes = numbers(arguments.sizes) if arguments.sizes else kept_sizes(measure) if arguments.keep else None
    table = None
    if arguments.keep:
        told = told_of(programs, names_of(arguments.named, programs))
        table = Table.opened(
            measure, told, lambda row: arguments.anew and row.shape in shapes and row.command in commands
        )
    print(head(len(programs), measure))
    before: dict[tuple[str, str], float] = {}
    for row in measured(
        programs,
        plan(shapes, commands, sizes, table.keys() if table else frozenset()),
        1 if arguments.instructions else arguments.runs,
        measure,
    ):
        print(line(row, before.get((row.shape, row.command)), measure), flush=True)
        before[row.shape, row.command] = row.least[-1][0]
        if table:
            table.append(row)


def measure_questions(arguments: argparse.Namespace) -> None:
    """Measures the other programs of one state, all rows anew."""
    others = (
        arguments.command,
        arguments.shape,
        arguments.sizes,
        arguments.memory,
        arguments.instructions,
        arguments.anew,
    )
    if any(others) or len(arguments.programs) != 1:
        raise Refused("--questions takes one program, --runs, --keep and --named alone")
    questions.work(program_at(arguments.programs[0]), arguments.runs, arguments.keep, arguments.named)


def kept_sizes(measure: Measure) -> tuple[int, ...] | None:
    """The sizes of the rows that are kept of a measure; of seconds the usual ones of each command."""
    return {MEMORY.name: SIZES[-1:], INSTRUCTIONS.name: COUNTED_SIZES}.get(measure.name)


def numbers(text: str) -> tuple[int, ...]:
    """The sizes of the command line."""
    try:
        return tuple(int(word) for word in text.split(","))
    except ValueError:
        raise Refused(f"--sizes {text}: no numbers") from None


def plan(
    shapes: Iterable[str],
    commands: tuple[str, ...],
    sizes: tuple[int, ...] | None,
    kept: frozenset[tuple[str, int, str]],
) -> list[Planned]:
    """Which commands are measured on which networks: those that are not kept."""
    found = []
    for shape in shapes:
        for command in commands:
            if (command == "trial") == (shape == FAT_TREE):
                usual = sizes_of(shape, command) if shape == FAT_TREE or not sizes else sizes
                found.append((shape, command, tuple(size for size in usual if (shape, size, command) not in kept)))
    return [it for it in found if it[2]]


def sizes_of(shape: str, command: str) -> tuple[int, ...]:
    """The usual sizes of a command on a shape."""
    if shape == FAT_TREE:
        return TRIALS
    if command != "summary" or not shape.startswith("ospf"):
        return SIZES
    return LOOPBACKS_SIZES if shape == "ospf-loopbacks" else SUMMARY_SIZES


def measured(programs: list[Path], planned: list[Planned], runs: int, measure: Measure) -> Iterator[Row]:
    """Each command on each network that fits into a text."""
    for shape, of_shape in itertools.groupby(planned, key=lambda it: it[0]):
        series = list(of_shape)
        with tempfile.TemporaryDirectory(prefix="bonsai-") as room:
            sizes = sorted({size for _, _, sizes in series for size in sizes})
            networks = [
                made
                for size in sizes
                if (made := network(programs[0], Path(room), shape, size, [command for _, command, _ in series]))
            ]
            for _, command, wanted in series:
                yield from in_series(programs, command, [it for it in networks if it.size in wanted], runs, measure)


def network(program: Path, room: Path, shape: str, size: int, commands: list[str]) -> Network | None:
    """A network with its files, or none where its text is too long."""
    if shape == FAT_TREE:
        counts = (len(fat_tree.names_of(size)), len(fat_tree.links_of(size)), size * size // 2)
        return Network(shape, size, *counts, None, {})
    graph = SHAPES[shape].graph(size)
    text = SHAPES[shape].text(size)
    if len(text) > MOST_BYTES:
        return None
    file = room / str(size) / "F"
    file.parent.mkdir()
    file.write_text(text, "ascii")
    classes = output(program, ["classes", str(file)]).count(b"\n")
    return Network(
        shape,
        size,
        len(graph[0]),
        len(graph[1]),
        classes,
        file,
        second_files(program, file.parent, file, graph, commands),
    )


def in_series(
    programs: list[Path], command: str, networks: list[Network], runs: int, measure: Measure
) -> Iterator[Row]:
    """A command on networks that grow, which take turns too. What needs labels is left out, and said, where no schedule
    comes to rest."""
    able = [it for it in networks if READ_BY.get(command) in (None, *it.seconds)]
    for it in networks:
        if it not in able:
            print(
                f"turns: {it.shape} {it.size}: no file for {command}: {ROUNDS} rounds do not come to rest",
                file=sys.stderr,
            )
    files = [
        [it.file, *([it.seconds[READ_BY[command]]] if command in READ_BY else [])] if it.file else [] for it in able
    ]
    asked = [words_of(command, it, of_network) for it, of_network in zip(able, files, strict=True)]
    lengths = []
    for it, of_network, ask in zip(able, files, asked, strict=True):
        answers = [output(program, ask) for program in programs]
        lengths.append(sum(file.stat().st_size for file in of_network) + len(answers[-1]))
        if len(set(answers)) > 1 and command not in MAY_CHOOSE:
            print(f"turns: {it.shape} {it.size} {command}: the programs write different answers", file=sys.stderr)
    for it, length, (least, turns) in zip(able, lengths, in_turn(programs, asked, runs, measure), strict=True):
        yield Row(
            it.size, command, it.routers, it.links, it.classes, length, turns, os.getloadavg()[0], it.shape, least
        )


def words_of(command: str, on: Network, files: list[Path]) -> list[str]:
    """The words of a command: on a text, on its first class, or that and a second file."""
    if not on.file:
        return [command, str(on.size)]
    first, *second = map(str, files)
    return [command, first, *(["1"] if command not in OF_TEXT else []), *second]


def head(count: int, measure: Measure) -> str:
    """The head of the table."""
    names = [f"{measure.unit}, program {place + 1}" for place in range(count)]
    columns = ["network", "routers", "command", *names, *(["last to first"] if count > 1 else []), "growth of the last"]
    return "| " + " | ".join(columns) + " |\n|---|---:|---|" + "---:|" * (len(columns) - 3)


def line(row: Row, before: float | None, measure: Measure) -> str:
    """A row: the growth is the figure of the last program over its figure at the size before, where that is large
    enough to say something."""
    first, last = row.least[0][0], row.least[-1][0]
    cells = [row.shape, f"{row.routers:,}", f"`{row.command}`", *(f"{it[0]:{measure.form}}" for it in row.least)]
    if len(row.least) > 1:
        cells.append(f"{last / first:.2f}" if first >= measure.compared_from else "")
    cells.append(f"{last / before:.1f}" if before is not None and before >= measure.compared_from else "")
    return "| " + " | ".join(cells) + " |"
