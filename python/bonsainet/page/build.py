"""What the page shows, as plain data for its template."""
from __future__ import annotations

import dataclasses
from collections.abc import Callable, Mapping, Sequence
from typing import Any

from bonsainet.ask.where import Identity
from bonsainet.cli.command_line import printable
from bonsainet.cli.words import counted
from bonsainet.configs.compressed import Asked, Compressed
from bonsainet.document.build import unmatched
from bonsainet.doubts.ties import Tied, Unasked
from bonsainet.drawing.layout import CLOSED, color_of
from bonsainet.page.answers import Said
from bonsainet.page.members import Numbers, folded
from bonsainet.page.pictures import Pictures, large_picture

TiesOf = Callable[[list[Compressed]], dict[int, list[Tied] | Unasked]]
SaidOf = Callable[[list[Compressed]], dict[int, Said]]


@dataclasses.dataclass(frozen=True)
class Row:
    """Classes that are alike except for their prefixes, as one row of the table, with the picture of the compressed
    network or why there is none, with the groups that hold a tied route, or why these were not asked, and with what
    bonsai-ask says of the first class, where it was asked."""

    classes: list[Compressed]
    picture: str
    left_out: str
    ties: list[Tied] | Unasked | None = None
    said: Said | None = None

    @property
    def first(self) -> Compressed:
        """The class whose picture and counts are shown."""
        return self.classes[0]

    @property
    def numbers(self) -> str:
        """The numbers of the classes."""
        return " ".join(str(found.number) for found in self.classes)

    @property
    def prefixes(self) -> list[str]:
        """The prefixes of all classes."""
        return [prefix for found in self.classes for prefix in found.found.prefixes]

    @property
    def origins(self) -> list[str]:
        """The routers that originate one of the classes."""
        return list(dict.fromkeys(router for found in self.classes for router, _ in found.found.origins))

    @property
    def lone(self) -> list[str]:
        """The lone routers."""
        return [group.members[0] for group in self.first.groups if group.is_lone]

    @property
    def tied(self) -> str:
        """How many routers hold a tied route: a number, `?` where that was not asked, or nothing."""
        if isinstance(self.ties, Unasked):
            return "?"
        return str(sum(len(tied.members) for tied in self.ties)) if self.ties else ""

    @property
    def unasked(self) -> str:
        """Why the tied routes were not asked, or nothing."""
        return self.ties.told if isinstance(self.ties, Unasked) else ""

    @property
    def has_tie(self) -> bool:
        """Whether routers hold a tied route, as far as is known."""
        return self.ties.tie is not None if isinstance(self.ties, Unasked) else bool(self.ties)

    @property
    def ratio(self) -> str:
        """How many times fewer routers there are."""
        return f"{self.first.size.routers / self.first.size.groups:.1f}"

    @property
    def colors(self) -> dict[int, str]:
        """The colour of each group, for the picture of the large network."""
        return color_of(self.first.groups)


class Rows:
    """The rows of the table, in the order of their first classes. They hold texts, groups and pictures, and no network of a
    class: of a large network few classes are in memory as a whole."""

    def __init__(self, text: Asked) -> None:
        self.pictures = Pictures(text)
        self.of_shape: dict[bytes, Row] = {}

    def add(self, found: Sequence[Compressed], ties_of: TiesOf, said_of: SaidOf = lambda new: {}) -> None:
        """Takes some classes. The ties, and what bonsai-ask says, are asked of the first class of a row."""
        first = {each.shape_sum: each for each in reversed(found) if each.shape_sum not in self.of_shape}
        new = sorted(first.values(), key=lambda each: each.number)
        tied, said = ties_of(new), said_of(new)
        for each, (made, left_out) in zip(new, self.pictures.each(new)):
            self.of_shape[each.shape_sum] = Row([], made, left_out, tied.get(each.number), said.get(each.number))
        for each in found:
            self.of_shape[each.shape_sum].classes.append(each.without_network())

    @property
    def all(self) -> list[Row]:
        """The rows."""
        return list(self.of_shape.values())


def rows(text: Asked, found: Sequence[Compressed], ties: dict[int, list[Tied] | Unasked] | None = None) -> list[Row]:
    """The rows of some classes."""
    made = Rows(text)
    made.add(found, lambda _: ties or {})
    return made.all


def everything(
    text: Asked,
    shown: list[Row],
    told_by_import: dict[str, Any] | None,
    programs: Mapping[str, Identity],
    has_ties: bool = False,
    late: str | None = None,
) -> dict[str, Any]:
    """All that the template is given. `late` says which classes bonsai-ask did not answer in its time."""
    numbers = Numbers(text.network.by_name)
    return {
        "names": numbers.names,
        "runs": numbers.runs,
        "folded": folded,
        "programs": programs,
        "name": printable(text.name).rpartition("/")[2],
        "protocol": {"bgp": "BGP", "ospf": "OSPF", None: "no protocol"}[text.network.protocol],
        "routers": len(text.network.devices),
        "links": len(text.network.links),
        "classes": len(text.classes),
        "rows": shown,
        "with_ties": sum(len(row.classes) for row in shown if row.has_tie),
        "late": late,
        "has_answers": any(row.said for row in shown),
        "asked_ties": has_ties and text.network.protocol == "bgp",
        "large": large_picture(text, shown[0].first if shown else None),
        "unmatched": unmatched(text.network),
        "told_by_import": told_by_import,
        "closed": CLOSED,
        "counted": counted,
    }
