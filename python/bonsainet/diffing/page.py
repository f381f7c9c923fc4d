"""A difference as one page, with pictures of both sides."""
from __future__ import annotations

import dataclasses

import jinja2

from bonsainet.ask.where import Identity
from bonsainet.cli.command_line import printable, version
from bonsainet.cli.words import counted
from bonsainet.diffing.pictures import COLORS, GONE, NEW, Drawer, Pictures
from bonsainet.diffing.reason_words import reason_lines
from bonsainet.diffing.reasons import Reasons
from bonsainet.diffing.words import head_lines, listed, prefix_lines
from bonsainet.library import Difference
from bonsainet.library.pairs import Pair

CHANGES_DRAWN = 20


@dataclasses.dataclass(frozen=True)
class Section:
    """Prefixes that change alike, as the page shows them."""

    title: str
    lines: list[str]
    pictures: Pictures


def page(both: Pair, found: Difference, reasons: Reasons, program: Identity) -> str:
    """The page. It draws the first changes, and names all."""
    drawer = Drawer(both)
    sections = []
    for number, change in enumerate(found.changed):
        made = (
            drawer.draw(change)
            if number < CHANGES_DRAWN
            else Pictures(left_out=f"pictures are those of the first {CHANGES_DRAWN}")
        )
        sections.append(Section(listed(change.prefixes, False, " "), list(prefix_lines(change)), made))
    room = jinja2.Environment(
        loader=jinja2.PackageLoader("bonsainet.diffing", "templates"),
        autoescape=True,
        trim_blocks=True,
        lstrip_blocks=True,
        undefined=jinja2.StrictUndefined,
    )
    return room.get_template("diff.html").render(
        version=version(),
        old=printable(both.old.name),
        new=printable(both.new.name),
        head=list(head_lines(found)),
        changed=counted(sum(len(one.prefixes) for one in found.changed), "prefix changes", "prefixes change"),
        same=found.same,
        sections=sections,
        reasons=list(reason_lines(reasons)),
        program=program,
        colors={kind.value: color for kind, color in COLORS.items()},
        gone=GONE,
        came=NEW,
    )
