"""The rows of `bench/turns` as they are kept in bench/measured, one file for each measure.

The first line says which programs were measured on which machine. Rows are added while they are measured, so that a
run which ends early can go on.
"""
from __future__ import annotations

import csv
import dataclasses
import io
import sys
from collections.abc import Callable
from pathlib import Path
from typing import IO, Any

from bonsainet.bench.measures import INSTRUCTIONS, MEMORY, SECONDS, Measure, Run
from bonsainet.cli.command_line import write_output
from bonsainet.ask.program import TOP

FOLDER = TOP / "bench" / "measured"
KEYS = ("shape", "size", "command", "routers", "links", "classes", "bytes", "turns", "load")
FIGURES = {
    SECONDS.name: ("before", "user_before", "after", "user_after"),
    MEMORY.name: ("before", "after"),
    INSTRUCTIONS.name: ("before", "after"),
}
KINDS = {"shape": str, "command": str, "load": float}


@dataclasses.dataclass(frozen=True)
class Row(Run):
    """One command on one network of a shape. `least` has the least figures of each program, in order."""

    shape: str
    least: tuple[tuple[float, ...], ...]

    @property
    def before(self) -> float:
        """The figure of the first program."""
        return self.least[0][0]

    @property
    def after(self) -> float:
        """The figure of the last program."""
        return self.least[-1][0]


@dataclasses.dataclass
class Table:
    """The kept rows of one measure, and the file that has them."""

    measure: Measure
    place: Path
    told: str
    rows: list[Row]

    @classmethod
    def read(cls, measure: Measure) -> Table:
        """What is kept: nothing where there is no file. A last line that is cut, as by a run that was ended while it
        wrote, is no row."""
        place = FOLDER / f"{measure.name}.csv"
        if not place.is_file():
            return cls(measure, place, "", [])
        first, *lines = place.read_bytes().decode("ascii", "backslashreplace").rpartition("\n")[0].split("\n")
        return cls(measure, place, first.removeprefix("# "), [_row(found, measure) for found in csv.DictReader(lines)])

    @classmethod
    def opened(cls, measure: Measure, told: str, forget: Callable[[Row], bool] = lambda _row: False) -> Table:
        """A table to which rows of these programs can be added, without those to forget: it begins anew, and says so,
        where it has those of others."""
        found = cls.read(measure)
        if found.rows and found.told != told:
            print(
                f"{found.place.name}: {len(found.rows)} rows of other programs are dropped ({found.told})",
                file=sys.stderr,
            )
        made = cls(measure, found.place, told, [row for row in found.rows if found.told == told and not forget(row)])
        write_output(str(made.place), made._text().encode("ascii", "backslashreplace"))
        return made

    def keys(self) -> frozenset[tuple[str, int, str]]:
        """What is kept."""
        return frozenset((row.shape, row.size, row.command) for row in self.rows)

    def append(self, row: Row) -> None:
        """Adds a row."""
        self.rows.append(row)
        with open(self.place, "a", newline="", encoding="ascii") as file:
            self._writer(file).writerow(self._cells(row))

    def _text(self) -> str:
        """The whole file."""
        made = io.StringIO()
        made.write(f"# {self.told}\n")
        out = self._writer(made)
        out.writeheader()
        out.writerows(map(self._cells, self.rows))
        return made.getvalue()

    def _cells(self, row: Row) -> dict[str, object]:
        figures = [f"{it:.6f}" if self.measure is SECONDS else f"{it:.1f}" for figures in row.least for it in figures]
        keys = {name: getattr(row, name) for name in KEYS} | {"load": f"{row.load:.1f}"}
        return keys | dict(zip(FIGURES[self.measure.name], figures, strict=True))

    def _writer(self, file: IO[str]) -> csv.DictWriter:
        return csv.DictWriter(file, [*KEYS, *FIGURES[self.measure.name]], lineterminator="\n")


def _row(found: dict[str, str], measure: Measure) -> Row:
    figures = [float(found[name]) for name in FIGURES[measure.name]]
    half = len(figures) // 2
    keys: dict[str, Any] = {name: KINDS.get(name, int)(found[name]) for name in KEYS}
    return Row(**keys, least=(tuple(figures[:half]), tuple(figures[half:])))
