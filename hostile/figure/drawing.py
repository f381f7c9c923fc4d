"""The table of the figure, and its plot with both axes logarithmic."""

from __future__ import annotations

import math
from pathlib import Path

from bonsainet.ask.program import TOP
from bonsainet.cli.command_line import Refused
from bonsainet.repo.marks import with_measured
from hostile.figure.measuring import Row

PAGE = TOP / "docs" / "inside" / "MEASURED.md"
README = TOP / "README.md"
PICTURE = TOP / "docs" / "data" / "asked.svg"
LEAST = 0.001
TOP_OF_PLOT = 100.0
SERIES = (
    ("solver", "Z3, large", "#b2182b", "-"),
    ("solver_after", "Z3, small", "#b2182b", ":"),
    ("ask", "bonsai-ask, large", "#2166ac", "-"),
    ("ask_after", "bonsai-ask, small", "#2166ac", ":"),
    ("frr", "FRR, large", "#4d9221", "-"),
    ("frr_after", "FRR, small", "#4d9221", ":"),
    ("compress", "compress", "#666666", "--"),
)


def seconds(value: float | None) -> str:
    """Seconds as the table has them: to a few digits; `given up` where it was, nothing where it was not tried."""
    if value is None:
        return ""
    digits = 3 if value < 0.1 else 2 if value < 10 else 0
    return "given up" if math.isinf(value) else f"{value:.{digits}f}"


def table(rows: list[Row]) -> str:
    """The table as Markdown."""
    lines = [
        "| network | routers | links | groups | links after | `compress` | Z3, large | Z3, small | `bonsai-ask`, large | `bonsai-ask`, small | FRR, large | FRR, small |",
        "|---|" + "---:|" * 11,
    ]
    for row in rows:
        sizes = f"{row.routers:,} | {row.links:,} | {row.groups:,} | {row.links_after:,}"
        told = [row.compress, row.solver, row.solver_after, row.ask, row.ask_after, row.frr, row.frr_after]
        lines.append(f"| {row.family} | {sizes} | {' | '.join(map(seconds, told))} |")
    return "\n".join(lines) + "\n"


def short(rows: list[Row], name: str = "fat tree") -> str:
    """The largest network of a family about which the solver gave an answer, as a table of one row."""
    row = max((one for one in rows if one.family == name and is_answered(one.solver)), key=lambda one: one.size)
    told = (f"{row.routers:,}", *(f"{seconds(one)} s" for one in (row.solver, row.solver_after, row.ask)))
    return (
        "| `route '*'` | routers | Z3 | Z3, compressed | `bonsai-ask` |\n|---|---:|---:|---:|---:|\n"
        f"| {row.family} | {' | '.join(told)} |\n"
    )


def is_answered(value: float | None) -> bool:
    """Whether there are seconds of an answer: it was tried, and not given up."""
    return value is not None and not math.isinf(value)


def write(rows: list[Row], told: str) -> None:
    """Draws the plot, and writes the table between its marks of the page, and one row between those of README."""
    draw(rows, PICTURE)
    put(PAGE, f"{table(rows)}\nMade with: {told}.\n")
    put(README, short(rows))


def put(page: Path, made: str) -> None:
    """Writes between the marks of a page."""
    page.write_text(with_measured(page.read_text("utf-8"), "asked", made), "utf-8")


def draw(rows: list[Row], place: Path) -> None:
    """A plot for each family. The same rows give the same bytes."""
    try:
        import matplotlib
    except ImportError:
        raise Refused("the package python3-matplotlib is not there") from None
    matplotlib.use("svg")
    matplotlib.rcParams.update({"svg.hashsalt": "bonsai", "font.size": 9, "svg.fonttype": "none"})
    import matplotlib.pyplot as plt

    names = list(dict.fromkeys(row.family for row in rows))
    figure, grid = plt.subplots((len(names) + 2) // 3, 3, figsize=(10, 3.1 * ((len(names) + 2) // 3)), squeeze=False)
    for axes in grid.flat[len(names) :]:
        axes.axis("off")
    for axes, name in zip(grid.flat, names):
        found = [row for row in rows if row.family == name]
        for field, label, color, line in SERIES:
            points = [(row.routers, getattr(row, field)) for row in found]
            shown = [(x, max(y, LEAST)) for x, y in points if y is not None and is_answered(y)]
            axes.plot(
                [x for x, _ in shown], [y for _, y in shown], line, color=color, marker="o", markersize=3, label=label
            )
            given_up = [x for x, y in points if y is not None and math.isinf(y)]
            axes.plot(given_up, [TOP_OF_PLOT] * len(given_up), "x", color=color)
        axes.set(
            xscale="log",
            yscale="log",
            xlabel="routers",
            ylabel="processor seconds",
            ylim=(LEAST, 2 * TOP_OF_PLOT),
            title=name,
        )
        axes.grid(True, which="major", color="#dddddd")
    grid.flat[0].legend(frameon=False, fontsize=7)
    figure.tight_layout()
    figure.savefig(place, metadata={"Date": None, "Creator": None})
    plt.close(figure)
