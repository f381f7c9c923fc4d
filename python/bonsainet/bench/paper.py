"""bench/paper: fat trees, rings and full meshes, their sizes before and after, and the time for each class.

These are the synthetic networks of the evaluation in Beckett, Gupta, Mahajan and Walker, Control Plane Compression,
SIGCOMM 2018, from memory: the paper was not at hand, so none of its figures is here. The groups that a shape must
have are counted by hand.
"""
from __future__ import annotations

import argparse
import csv
import dataclasses
import os
import subprocess
import sys
import tempfile
from collections.abc import Callable, Iterable
from pathlib import Path
from typing import Any

from bonsainet.nets import synthetic
from bonsainet.bench.states import in_ascii, kind, program_at
from bonsainet.cli.command_line import Refused, parser
from bonsainet.nets.fat_tree import fat_tree_text
from bonsainet.ask.native import native
from bonsainet.ask.program import TOP, Answer, NotAnswered, Program, sizes_of

TIME = "/usr/bin/time"
KEPT = TOP / "bench" / "measured" / "paper.csv"


@dataclasses.dataclass(frozen=True)
class Family:
    """Networks of one shape: how their text is made, the sizes that are measured, and the groups that the shape has,
    counted by hand.

    Seen from an edge router of a fat tree there are six sorts: it, the other edge routers and the aggregation of its
    pod, the core, and both of the other pods. In a ring routers are distinguished by their distance, in a full mesh the
    originator from the others.
    """

    name: str
    text: Callable[[int], str]
    sizes: tuple[int, ...]
    groups: Callable[[int], int]


FAMILIES = (
    Family("fat tree", fat_tree_text, (4, 8, 12, 20, 30, 40), lambda _size: 6),
    Family("ring", synthetic.ring, (100, 500, 1000, 2000, 4000), lambda size: size // 2 + 1),
    Family("full mesh", synthetic.mesh, (50, 150, 250, 362), lambda _size: 2),
)


@dataclasses.dataclass(frozen=True)
class Row:
    """What one network came to. Times are seconds of user and system; memory is the most that was resident, in MiB."""

    family: str
    size: int
    bytes: int
    routers: int
    links: int
    classes: int
    groups: int
    links_after: int
    classes_seconds: float
    class_seconds: float
    compress_seconds: float
    memory: float
    groups_by_hand: int


def words() -> argparse.ArgumentParser:
    """The words of the command line."""
    made = parser("paper", "Measures fat trees, rings and full meshes, and prints the table.")
    made.add_argument("--small", action="store_true", help="only networks up to 200 routers")
    made.add_argument(
        "--keep",
        action="store_true",
        help="write the measurements to bench/measured/paper.csv, with the load of the machine",
    )
    made.add_argument("--program", type=Path, help="the program that is measured (default: that of the repository)")
    made.add_argument("--named", metavar="STATE", help="with --keep: what its state is called on the page, as a commit")
    made.add_argument(
        "--kept", action="store_true", help="print the table of the kept measurements, and measure nothing"
    )
    return made


def main(argv: list[str] | None = None) -> None:
    """Runs the tool."""
    work(words().parse_args(argv))


def work(arguments: argparse.Namespace) -> None:
    """Measures, or reads what is kept, and prints."""
    if arguments.kept:
        print(table(read(KEPT)), end="")
        return
    if not os.access(TIME, os.X_OK):
        raise Refused("the program time is not there: install the package time")
    program = program_at(arguments.program) if arguments.program else native(Program())
    before = os.getloadavg()[0]
    rows = []
    for family in FAMILIES:
        for size in family.sizes:
            if not arguments.small or size <= (12 if family.name == "fat tree" else 200):
                rows.append(measured(program, family, size))
                print(f"paper: {family.name} {size}", file=sys.stderr)
    print(table(rows), end="")
    if arguments.keep:
        state = in_ascii(f"{arguments.named}, {kind(program)}" if arguments.named else kind(program))
        keep(
            rows,
            f"load {before:.1f} before and {os.getloadavg()[0]:.1f} after, {os.cpu_count()} processors; program: {state}",
        )


def measured(program: Path, family: Family, size: int) -> Row:
    """Asks the program for classes, all sizes (or those of the first classes, one by one), and one compressed
    network."""
    text = family.text(size)
    with tempfile.TemporaryDirectory(prefix="bonsai-") as room:
        file = os.path.join(room, "F")
        Path(file).write_text(text)
        classes, seconds, memory = asked(program, "classes", file)
        count = classes.count("\n")
        first = [asked(program, "compress", file, str(number)) for number in spread(count)]
        # summary reads once for all classes, so it gives the time of a class alone
        sizes, all_seconds, most = asked(program, "summary", file)
    told = sizes_of(sizes)
    if len({(found.groups, found.links_after) for found in told}) != 1:
        raise Refused(f"{family.name} {size}: its classes differ in size, and one row cannot tell them")
    compress = max(took for _, took, _ in first)
    memory = max(memory, most, *(used for _, _, used in first))
    after = told[0]
    return Row(
        family.name, size, len(text), after.routers, after.links, count, after.groups, after.links_after,
        round(seconds, 3), round((all_seconds - seconds) / count, 5), round(compress, 3), round(memory, 1), family.groups(size),
    )  # fmt: skip


def spread(count: int) -> list[int]:
    """At most a few class numbers: the first, the last, and some between."""
    return sorted({1, count, *range(1, count + 1, max(1, count // 3))})


def asked(program: Path, *words: str) -> tuple[str, float, float]:
    """The output of a command, its seconds of user and system time, and its peak memory in MiB.

    Memory is measured by the program time, since a child that Python starts counts Python's own memory as its peak.
    """
    with tempfile.TemporaryFile() as out, tempfile.NamedTemporaryFile() as told:
        started = subprocess.Popen(
            [TIME, "-o", told.name, "-f", "%M", program, *words],
            stdin=subprocess.DEVNULL,
            stdout=out,
            stderr=subprocess.PIPE,
        )
        assert started.stderr is not None, "it is a pipe"
        err = started.stderr.read()
        _, status, used = os.wait4(started.pid, 0)
        started.returncode = os.waitstatus_to_exitcode(status)
        started.stderr.close()
        out.seek(0)
        answer = Answer(started.returncode, out.read(), err)
        if answer.status:
            raise NotAnswered(answer, words[0])
        return answer.text, used.ru_utime + used.ru_stime, int(told.read()) / 1024


def table(rows: Iterable[Row]) -> str:
    """The table as Markdown."""
    lines = [
        "| network | routers | links | groups | links after | groups counted by hand | classes | s, read and classes | s, each class | s, `compress` | MiB |"
    ]
    lines.append("|---|" + "---:|" * 10)
    for row in rows:
        name = f"{row.family} {row.size}" if row.family == "fat tree" else row.family
        lines.append(
            f"| {name} | {row.routers:,} | {row.links:,} | {row.groups:,} | {row.links_after:,} | {row.groups_by_hand:,} | {row.classes:,} "
            f"| {row.classes_seconds:.2f} | {row.class_seconds:.4f} | {row.compress_seconds:.2f} | {row.memory:.0f} |"
        )
    return "\n".join(lines) + "\n"


def keep(rows: list[Row], told: str) -> None:
    """Writes the measurements; the first line says how they were made."""
    with open(KEPT, "w", newline="", encoding="ascii") as file:
        file.write(f"# {told}\n")
        out = csv.DictWriter(file, [field.name for field in dataclasses.fields(Row)], lineterminator="\n")
        out.writeheader()
        out.writerows(dataclasses.asdict(row) for row in rows)


KINDS: dict[str, Any] = {"str": str, "int": int, "float": float}


def read(place: Path) -> list[Row]:
    """The kept measurements."""
    with open(place, newline="", encoding="ascii") as file:
        found = csv.DictReader(line for line in file if not line.startswith("#"))
        kinds = {field.name: KINDS[str(field.type)] for field in dataclasses.fields(Row)}
        return [Row(**{name: kinds[name](value) for name, value in row.items()}) for row in found]
