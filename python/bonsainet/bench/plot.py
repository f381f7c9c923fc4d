"""bench/plot: time and memory against the size of networks, and the tables of pages, from the measurements that are
kept."""
from __future__ import annotations

import argparse
from collections.abc import Callable
from pathlib import Path

from bonsainet.bench import profile, questions, tool_rows
from bonsainet.bench.kept import Table
from bonsainet.bench.measures import INSTRUCTIONS, MEMORY, SECONDS
from bonsainet.bench.paper import KEPT, Row, read, table
from bonsainet.bench.tables import instructions_text, memory_text, turns_text
from bonsainet.cli.command_line import Refused, parser
from bonsainet.ask.program import TOP
from bonsainet.repo.marks import with_measured

PICTURES = TOP / "docs" / "data"
PAGES = (TOP / "README.md", TOP / "docs" / "inside" / "MEASURED.md")
SHOWN = {("fat tree", 40), ("ring", 4000), ("full mesh", 362)}
MARKS = {"fat tree": ("o", "#1b7837"), "ring": ("s", "#762a83"), "full mesh": ("^", "#b35806")}
PLOTS = (
    ("time.svg", "seconds", "Time for one class more (filled), and to read and find all classes (hollow)"),
    ("memory.svg", "MiB", "Memory at most, of all commands"),
)


def words() -> argparse.ArgumentParser:
    """The words of the command line."""
    made = parser(
        "plot",
        "Draws time and memory against size from bench/measured/paper.csv, and writes the tables of README.md and docs/inside/MEASURED.md from all files there.",
    )
    made.add_argument(
        "--into",
        metavar="DIR",
        type=Path,
        help="draw into this folder, and leave the pages alone (default: docs/data)",
    )
    return made


def main(argv: list[str] | None = None) -> None:
    """Runs the tool."""
    work(words().parse_args(argv))


def work(arguments: argparse.Namespace) -> None:
    """Draws both plots and writes the tables."""
    draw(arguments.into or PICTURES)
    for page in () if arguments.into else PAGES:
        page.write_text(with_tables(page.read_text("utf-8")), "utf-8")


def with_tables(page: str) -> str:
    """A page with the tables of the kept measurements between its marks."""
    for name, text in texts().items():
        page = with_measured(page, name, text)
    return page


def texts() -> dict[str, str]:
    """The tables by the names of their marks, of what is kept."""
    rows = read(KEPT)
    told = KEPT.read_text("ascii").partition("\n")[0].removeprefix("# ")
    made = {"all": table(rows) + f"\nMade with: {told}.\n", "some": short_table(rows)}
    for measure, text in ((SECONDS, turns_text), (MEMORY, memory_text), (INSTRUCTIONS, instructions_text)):
        kept = Table.read(measure)
        if kept.rows:
            made[measure.name] = text(kept)
    if questions.KEPT.is_file():
        made["questions"] = questions.questions_text(*questions.read())
    if profile.KEPT.is_file():
        made["profile"] = profile.profile_text()
    if tool_rows.KEPT.is_file():
        made["tools"] = tool_rows.tools_text(*tool_rows.read(tool_rows.KEPT))
    return made


def short_table(rows: list[Row]) -> str:
    """The table of README: the larger networks, and the columns that a newcomer asks for."""
    lines = [
        "| network | routers | links | groups | read, and all classes found | one class more | `compress` | memory |",
        "|---|" + "---:|" * 7,
    ]
    for row in rows:
        if (row.family, row.size) in SHOWN:
            sizes = f"{row.routers:,} | {row.links:,} | {row.groups:,}"
            lines.append(
                f"| {row.family} | {sizes} | {row.classes_seconds:.2f} s | {row.class_seconds:.4f} s | {row.compress_seconds:.2f} s | {row.memory:.0f} MiB |"
            )
    return "\n".join(lines) + "\n"


def draw(into: Path) -> None:
    """Draws both plots into a folder."""
    try:
        import matplotlib
    except ImportError:
        raise Refused("the package python3-matplotlib is not there") from None
    matplotlib.use("svg")
    # the same measurements give the same bytes
    matplotlib.rcParams.update({"svg.hashsalt": "bonsai", "font.size": 10, "svg.fonttype": "none"})
    rows = read(KEPT)
    into.mkdir(parents=True, exist_ok=True)
    for (name, unit, title), lines in zip(PLOTS, (_times, _memory)):
        _draw(into / name, unit, title, rows, lines)


def _times(row: Row) -> tuple[tuple[float, bool], ...]:
    return (row.class_seconds, True), (row.classes_seconds, False)


def _memory(row: Row) -> tuple[tuple[float, bool], ...]:
    return ((row.memory, True),)


Values = Callable[[Row], tuple[tuple[float, bool], ...]]
"""The figures of a row, each with whether its mark is filled."""


def _draw(place: Path, unit: str, title: str, rows: list[Row], values: Values) -> None:
    import matplotlib.pyplot as plt

    figure, axes = plt.subplots(figsize=(6.4, 4))
    for family, (mark, color) in MARKS.items():
        found = [row for row in rows if row.family == family]
        for number in range(len(values(found[0])) if found else 0):
            is_filled = values(found[0])[number][1]
            axes.plot(
                [row.links for row in found], [values(row)[number][0] for row in found],
                marker=mark, color=color, linewidth=1, linestyle="-" if is_filled else ":", fillstyle="full" if is_filled else "none",
                label=family if is_filled else None,
            )  # fmt: skip
    axes.set(xscale="log", yscale="log", xlabel="links of the network", ylabel=unit)
    axes.set_title(title, fontsize=10)
    axes.grid(True, which="major", color="#dddddd")
    axes.legend(frameon=False)
    figure.tight_layout()
    figure.savefig(place, metadata={"Date": None, "Creator": None})
    plt.close(figure)
