"""Texts made against the hash tables of the program: the kit's hasher has a fixed seed, so names can be picked that
meet where it takes no key."""
from __future__ import annotations

import dataclasses
import functools
import subprocess
import tempfile
from pathlib import Path

SOURCE = Path(__file__).with_name("collide.c")
LOAD = 9
"""How many entries a table has for each of its places, at most."""


@functools.cache
def _tool() -> tuple[tempfile.TemporaryDirectory[str], Path]:
    folder = tempfile.TemporaryDirectory(prefix="collide-")
    tool = Path(folder.name) / "collide"
    subprocess.run(["gcc", "-O2", "-Wall", "-Werror", "-o", str(tool), str(SOURCE)], check=True)
    return folder, tool


def keys(kind: str, count: int) -> list[str]:
    """This many keys of a kind, of one tag and of the first 200th of the places. CalledProcessError without gcc."""
    places = 1
    while LOAD * places < count:
        places *= 2
    words = [str(_tool()[1]), kind, str(count), str(places), str(max(1, places * LOAD // 200))]
    return subprocess.run(words, capture_output=True, text=True, check=True).stdout.split()


@dataclasses.dataclass(frozen=True)
class Named:
    """What a text names many of: the lines before the names, a line for a name `{}`, and the lines behind them. At most
    `most` of them stand in one router, and a text has at most `bound` of them."""

    name: str
    before: str
    line: str
    behind: str
    most: int | None = None
    bound: int = 1_000_000

    def text(self, names: list[str]) -> bytes:
        """A text with these names, in as many routers as it takes. Where there are several, each has the same names."""
        most = self.most or len(names)
        lines = []
        for number in range(-(-len(names) // most)):
            some = names[:most] if self.most else names
            lines += [self.before.format(number), *(self.line.format(name) for name in some), self.behind]
        return "".join(f"{line}\n" for line in lines if line).encode()


DELETION = "ip community-list standard {0} permit 1:1\nroute-map {0} permit 10\n set comm-list {0} delete"
NAMED = (
    Named("interfaces", "hostname r{}", "interface {}", "end"),
    Named("interfaces, 12 in each router", "hostname r{}", "interface {}", "end", 12, 49_152),
    Named("routers", "", "hostname {}\nend", "", None, 4096),
    Named("prefix lists", "hostname r{}", "ip prefix-list {} seq 5 permit 10.0.0.0/8", "end"),
    Named("community lists", "hostname r{}", "ip community-list standard {} permit 1:1", "end"),
    Named("route maps", "hostname r{}", "route-map {} permit 10", "end"),
    Named("passive interfaces", "hostname r{}\nrouter ospf 1", " passive-interface {}", "end"),
    Named("lists to delete by", "hostname r{}", DELETION, "end"),
)
"""What a text can name many of."""


def with_names(named: Named, count: int) -> bytes:
    """A text with so many names that meet in a table of names."""
    names = keys("names", named.most or count)
    return named.text(names * (count // len(names)))


def plain_names(named: Named, count: int) -> bytes:
    """As many names that do not meet."""
    return named.text([f"a{number:06d}0" for number in range(count)])
