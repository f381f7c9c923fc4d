"""bench/turns --questions: the processor seconds and the memory of `bonsai-ask` and `bonsai-all`, beside `groups` of one
class, over networks that grow.

The programs are found beside the one that is named. The least of several runs counts; all commands on a network take
turns, so that they meet the same load.
"""
from __future__ import annotations

import csv
import dataclasses
import os
import subprocess
import sys
import tempfile
from collections.abc import Callable, Iterable, Iterator
from pathlib import Path

from bonsainet.ask.program import TOP
from bonsainet.bench.measures import Run
from bonsainet.bench.paper import TIME
from bonsainet.bench.shapes import SHAPES
from bonsainet.bench.states import in_ascii, machine, program_at, programs_told
from bonsainet.bench.tables import growth
from bonsainet.cli.command_line import Refused
from bonsainet.nets import preferring, synthetic
from bonsainet.nets.campus import campus_text
from bonsainet.nets.fat_tree import fat_tree_text

KEPT = TOP / "bench" / "measured" / "questions.csv"
MASK_OF_LINK = " 255.255.255.254\n"
ACCESS = 8
SEED = 1
NOT_ALL_YES = 8
LONG = 5.0
COMPARED_FROM = 0.005
MUCH_LARGER = 1.5
CRATES = ("bonsai", "bonsai_ask", "bonsai_all")


@dataclasses.dataclass(frozen=True)
class Command:
    """What a program is asked of a text: its name in the tables, the crate of the program, the words before the text and
    those behind."""

    name: str
    crate: str
    before: tuple[str, ...]
    behind: tuple[str, ...]

    def words(self, file: Path) -> list[str]:
        """The words of a run on a file."""
        return [*self.before, str(file), *self.behind]


GROUPS = Command("groups", "bonsai", ("groups",), ("1",))
COUNT = Command("count", "bonsai_ask", (), ("1", "count"))
ROUTE = Command("route '*'", "bonsai_ask", (), ("1", "route", "*"))
ROUTE_OF_ALL = Command("'*' route '*'", "bonsai_ask", (), ("*", "route", "*"))
LINKS = Command("failing links route '*'", "bonsai_ask", (), ("1", "failing", "links", "route", "*"))
LINKS_OF_ALL = Command("'*' failing links route '*'", "bonsai_ask", (), ("*", "failing", "links", "route", "*"))
ROUTERS = Command("failing routers route '*'", "bonsai_ask", (), ("1", "failing", "routers", "route", "*"))
COMPRESS = Command("compress", "bonsai", ("compress",), ("1",))
COMPRESS_ALL = Command("bonsai-all compress", "bonsai_all", (), ("compress",))


@dataclasses.dataclass(frozen=True)
class Plan:
    """Commands on networks of one rule: the text of a size, and the sizes that are measured."""

    network: str
    text: Callable[[int], str]
    sizes: tuple[int, ...]
    commands: tuple[Command, ...]


def internet_of(size: int) -> str:
    """An internet of so many ASes, made from one seed."""
    return preferring.internet_text(SEED, size)


def pairs_around(count: int) -> str:
    """So many pairs around the origin."""
    return preferring.pairs_text(*preferring.around(count))


def pairs_in_a_row(count: int) -> str:
    """So many pairs in a row."""
    return preferring.pairs_text(*preferring.in_a_row(count))


def campus_of(blocks: int) -> str:
    """A campus of so many blocks."""
    return campus_text(blocks, ACCESS)


PLANS = (
    Plan(
        "fat-tree",
        fat_tree_text,
        (12, 20),
        (GROUPS, COUNT, ROUTE, ROUTE_OF_ALL, LINKS, ROUTERS, COMPRESS, COMPRESS_ALL),
    ),
    Plan("fat-tree", fat_tree_text, (40,), (GROUPS, COUNT, ROUTE, ROUTE_OF_ALL, COMPRESS, COMPRESS_ALL)),
    Plan("ring", synthetic.ring, (500, 1000), (GROUPS, COUNT, ROUTE, ROUTE_OF_ALL, COMPRESS, COMPRESS_ALL)),
    *(Plan(name, shape.text, (1024, 2048, 4096), (GROUPS, COUNT)) for name, shape in SHAPES.items()),
    Plan("bgp-leaf-spine", SHAPES["bgp-leaf-spine"].text, (512, 1024, 2048), (LINKS,)),
    Plan("campus", campus_of, (50, 100), (GROUPS, COUNT, LINKS)),
    Plan(f"internet-seed-{SEED}", internet_of, (100, 200, 400), (GROUPS, COUNT, ROUTE, ROUTERS)),
    Plan("pairs-around-origin", pairs_around, (10, 11, 12), (GROUPS, COUNT)),
    Plan("pairs-in-a-row", pairs_in_a_row, (10, 11, 12), (GROUPS, COUNT)),
)


@dataclasses.dataclass(frozen=True)
class Row(Run):
    """What a command on a network came to. Seconds are of user and system; memory is the most that was resident, in MiB."""

    network: str
    seconds: float
    user: float
    memory: float


KINDS = {field.name: {"str": str, "int": int, "float": float}[str(field.type)] for field in dataclasses.fields(Row)}
COLUMNS = ("network", *(name for name in KINDS if name != "network"))


def programs_of(program: Path) -> dict[str, Path]:
    """The programs of all crates that are there. Which one is not is said; without any but `bonsai` it is refused."""
    found = {crate: place for crate in CRATES if (place := beside(program, crate))}
    missing = [crate for crate in CRATES if crate not in found]
    if missing == list(CRATES[1:]):
        raise Refused(f"{' and '.join(missing)} are not there beside {program}")
    for crate in missing:
        print(f"turns: {crate} is not there beside {program}: its commands are left out", file=sys.stderr)
    return found


def beside(program: Path, crate: str) -> Path | None:
    """The program of a crate beside that of `bonsai`: in the folder of its own crate, or in the same folder, also by the name
    that it has where it is installed."""
    if crate == CRATES[0]:
        return program
    names = (crate, crate.replace("_", "-"))
    places = (program.parent.parent.parent / crate / "out" / crate, *map(program.with_name, names))
    return next((program_at(place) for place in places if place.is_file()), None)


def work(program: Path, runs: int, keeps: bool, named: str | None) -> None:
    """Measures and prints, row by row. What is kept grows with each network."""
    if not os.access(TIME, os.X_OK):
        raise Refused("the program time is not there: install the package time")
    programs = programs_of(program)
    told = told_of(programs, named)
    rows: list[Row] = []
    for plan in PLANS:
        for size in plan.sizes:
            for row in measured(programs, plan, size, runs):
                rows.append(row)
                print(f"{row.network} {row.size} {row.command}: {row.seconds:.4f} s, {row.memory:.0f} MiB", flush=True)
            if keeps:
                write(rows, told)


def told_of(programs: dict[str, Path], named: str | None) -> str:
    """Which programs of which state were measured, on which machine."""
    told = programs_told(programs)
    return in_ascii(f"{named}: {told}; {machine()}" if named else f"{told}; {machine()}")


def measured(programs: dict[str, Path], plan: Plan, size: int, runs: int) -> Iterator[Row]:
    """The commands of a plan on the network of a size, in turn; a command that takes long has few turns."""
    text = plan.text(size)
    with tempfile.TemporaryDirectory(prefix="bonsai-") as room:
        file = Path(room) / "F"
        file.write_text(text, "ascii")
        classes = output(programs["bonsai"], ["classes", str(file)]).count(b"\n")
        able = [command for command in plan.commands if command.crate in programs]
        asked = [(programs[command.crate], command.words(file)) for command in able]
        first = [resident(*words) for words in asked]
        found = [[(it.seconds, it.user)] for it in first]
        for _ in range(runs - 1):
            for place, words in enumerate(asked):
                if sum(taken for taken, _ in found[place]) < LONG:
                    found[place].append(seconds(*words))
        for command, one, turns in zip(able, first, found, strict=True):
            yield Row(
                network=plan.network,
                size=size,
                command=command.name,
                routers=text.count("hostname "),
                links=text.count(MASK_OF_LINK) // 2,
                classes=classes,
                bytes=len(text) + one.bytes,
                turns=len(turns),
                load=round(os.getloadavg()[0], 1),
                seconds=round(min(taken for taken, _ in turns), 6),
                user=round(min(user for _, user in turns), 6),
                memory=round(one.memory, 1),
            )


@dataclasses.dataclass(frozen=True)
class First:
    """What a first run came to: its seconds, those of the user, the most MiB that were resident, the bytes written."""

    seconds: float
    user: float
    memory: float
    bytes: int


def is_answered(status: int) -> bool:
    """Whether a run ended with an answer: all is yes, or not all is."""
    return status in (0, NOT_ALL_YES)


def output(program: Path, words: list[str]) -> bytes:
    """What the program writes. Refused where it gives no answer."""
    ran = subprocess.run([program, *words], stdin=subprocess.DEVNULL, capture_output=True, check=False)
    if not is_answered(ran.returncode):
        raise Refused(f"{program} {' '.join(words)}: status {ran.returncode}", ran.stderr.decode().splitlines())
    return ran.stdout


def seconds(program: Path, words: list[str]) -> tuple[float, float]:
    """The processor seconds of one run, and those that the kernel books to the user."""
    with open(os.devnull, "wb") as sink:
        run = subprocess.Popen([program, *words], stdin=subprocess.DEVNULL, stdout=sink, stderr=sink)
        return used_by(run, program, words)


def resident(program: Path, words: list[str]) -> First:
    """A run under the program time, which reports the most memory that was resident."""
    with tempfile.TemporaryFile() as out, tempfile.NamedTemporaryFile() as told:
        timed: list[str | Path] = [TIME, "-q", "-o", told.name, "-f", "%M", program, *words]
        run = subprocess.Popen(timed, stdin=subprocess.DEVNULL, stdout=out, stderr=subprocess.DEVNULL)
        taken, user = used_by(run, program, words)
        return First(taken, user, int(told.read()) / 1024, os.fstat(out.fileno()).st_size)


def used_by(run: subprocess.Popen[bytes], program: Path, words: list[str]) -> tuple[float, float]:
    """The processor seconds of a run, and those of the user. Refused where it gives no answer."""
    _, status, used = os.wait4(run.pid, 0)
    run.returncode = os.waitstatus_to_exitcode(status)
    if not is_answered(run.returncode):
        raise Refused(f"{program} {' '.join(words)}: status {run.returncode}")
    return used.ru_utime + used.ru_stime, used.ru_utime


def write(rows: Iterable[Row], told: str, place: Path = KEPT) -> None:
    """Keeps the rows; the first line says which programs were measured on which machine."""
    with open(place, "w", newline="", encoding="ascii") as file:
        file.write(f"# {told}\n")
        out = csv.DictWriter(file, COLUMNS, lineterminator="\n")
        out.writeheader()
        out.writerows(dataclasses.asdict(row) for row in rows)


def read(place: Path = KEPT) -> tuple[str, list[Row]]:
    """What is kept: which programs were measured on which machine, and the rows."""
    first, *lines = place.read_text("ascii").splitlines()
    found = [Row(**{name: KINDS[name](value) for name, value in row.items()}) for row in csv.DictReader(lines)]
    return first.removeprefix("# "), found


def questions_text(told: str, rows: list[Row]) -> str:
    """The table: of each command on each network the row of the largest size."""
    lines = [
        "| network | routers | links | classes | asked | s | s a class | to `groups` | growth | MiB |",
        "|---|---:|---:|---:|---|" + "---:|" * 5,
    ]
    for of_command in series(rows):
        last = of_command[-1]
        sizes = f"{last.network} | {last.routers:,} | {last.links:,} | {last.classes:,}"
        cells = [f"{last.seconds:.3f}", each(last), to_groups(last, rows), grown(of_command), f"{last.memory:.0f}"]
        lines.append(f"| {sizes} | `{last.command}` | {' | '.join(cells)} |")
    turns, loads = [row.turns for row in rows], [row.load for row in rows]
    made = (
        f"Made with: {told}, in {min(turns)} to {max(turns)} turns, at a load of {min(loads):.1f} to {max(loads):.1f}."
    )
    return "\n".join([*lines, "", made]) + "\n"


def series(rows: list[Row]) -> list[list[Row]]:
    """The rows of each command on each network, by size."""
    found: dict[tuple[str, str], list[Row]] = {}
    for row in rows:
        found.setdefault((row.network, row.command), []).append(row)
    return [sorted(of_command, key=lambda row: row.size) for of_command in found.values()]


def each(row: Row) -> str:
    """The seconds a class of a command that answers for all classes."""
    is_of_all = row.command in (ROUTE_OF_ALL.name, LINKS_OF_ALL.name, COMPRESS_ALL.name)
    return f"{row.seconds / row.classes:.4f}" if is_of_all else ""


def to_groups(row: Row, rows: list[Row]) -> str:
    """How many times as long the command takes as `groups` on the same network, for one class, where `groups` takes long
    enough."""
    groups = [it.seconds for it in rows if (it.network, it.size, it.command) == (row.network, row.size, GROUPS.name)]
    is_of_one = row.command in (COUNT.name, ROUTE.name)
    return f"{row.seconds / groups[0]:.2f}" if groups and groups[0] >= COMPARED_FROM and is_of_one else ""


def grown(rows: list[Row]) -> str:
    """By which factor the seconds grow while the links of the network double, where the smaller network takes long
    enough and is much smaller."""
    if len(rows) < 2 or rows[-2].seconds < COMPARED_FROM or rows[-1].links < MUCH_LARGER * rows[-2].links:
        return ""
    return f"{growth(rows[-1], rows[-2], lambda row: row.seconds):.1f}"
