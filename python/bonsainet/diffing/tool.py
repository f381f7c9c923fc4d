"""bonsai-diff OLD NEW: what changes in routing, by prefix, in every stable solution of two networks."""
from __future__ import annotations

import argparse
import json

from bonsainet.ask.shares import meanwhile
from bonsainet.cli.command_line import parser, write_output
from bonsainet.diffing.documents import document
from bonsainet.diffing.reason_words import reason_lines
from bonsainet.diffing.reasons import Reasons, reasons_of
from bonsainet.diffing.shown import show
from bonsainet.diffing.sides import beside, networks_at, places, refusing, say_changes
from bonsainet.diffing.words import lines
from bonsainet.library import Difference
from bonsainet.library.calls import ASK, program
from bonsainet.library.changes import difference
from bonsainet.library.pairs import Pair

NAME = "bonsai-diff"
DIFFERS = 8
PURPOSE = """Says which routes change from one network to another, by prefix, with what each router may hold before and after,
and how the networks differ.

OLD and NEW are folders of running configurations, or texts that Bonsai reads. REVISION:PATH is a folder or a text that a Git
repository has at a revision; OLD..NEW are two revisions, and FOLDER is then a folder below the one in which you are. With
OLD...NEW the first is the commit at which the two parted. Nothing of the repository's work tree is read or touched.

The routes are those of every stable solution, as the proved programs give them; an edit that changes no route is not among
them. Below the routes are the differences of the networks: links, costs, origins and numbers, edits of policies by the acts
that they change, and compressed networks of another form."""


def words() -> argparse.ArgumentParser:
    """The words of the command line."""
    made = parser(NAME, PURPOSE, ((str(DIFFERS), "Routes change."),))
    made.usage = "bonsai-diff [OPTION..] OLD NEW, or bonsai-diff [OPTION..] OLD..NEW [FOLDER]"
    made.add_argument("old", metavar="OLD", help="the network before: a folder, a text, REVISION:PATH, or OLD..NEW")
    made.add_argument(
        "new", metavar="NEW", nargs="?", help="the network after; - for standard input. With OLD..NEW a folder"
    )
    made.add_argument(
        "--decisions",
        metavar="FILE",
        help="the decisions for the import of NEW, and of OLD where it has no others: a file, or REVISION:FILE. With OLD..NEW "
        "a relative name is a file of each revision",
    )
    made.add_argument("--old-decisions", metavar="FILE", help="the decisions for the import of OLD")
    made.add_argument(
        "--own-as", action="store_true", help="give each router of a shared AS number a number of its own"
    )
    made.add_argument(
        "--long", action="store_true", help="name all routers, prefixes and changes, however many they are"
    )
    made.add_argument("--json", action="store_true", help="write the difference as one JSON document")
    made.add_argument(
        "--html",
        metavar="FILE",
        help="also write one page with pictures of both sides, in which what changes is coloured",
    )
    return made


def main(argv: list[str] | None = None) -> int:
    """Runs the tool: 0 where no route changes, 8 where one does."""
    made = words()
    given = made.parse_args(argv)
    sides = places(given.old, given.new)
    if sides is None:
        made.error("NEW is missing: give two networks, or two revisions as OLD..NEW")
    if all(side.revision is None and side.path == "-" for side in sides):
        made.error("- names standard input, and can stand for one network only")
    if given.html == "-":
        made.error("--html takes a file: the answer is on standard output")
    decisions = given.old_decisions or given.decisions, given.decisions
    if any(decisions) and all(side.is_text for side in sides):
        made.error("decisions are for folders, and both networks are texts")
    with refusing():
        first, second = (beside(word, side) for side, word in zip(sides, decisions))
        old, new = networks_at(sides, (first, second), given.own_as)
        say_changes(NAME, old)
        say_changes(NAME, new)
        both = Pair(old, new)
        found, reasons = compared(both)
    if given.html:
        from bonsainet.diffing.page import page

        made_page = page(both, found, reasons, program(ASK).identity).encode()
        read = [place.path for place in (*sides, first, second) if place and place.revision is None]
        write_output(given.html, made_page, *read)
    if given.json:
        print(json.dumps(document(found, reasons, program(ASK).identity), indent=1))
    else:
        show([*lines(found, given.long), *reason_lines(reasons, given.long)])
    return DIFFERS if found else 0


def compared(both: Pair) -> tuple[Difference, Reasons]:
    """What changes, and how the networks differ. The programs work while the lines of both sides are read."""
    if both.old.text == both.new.text:
        return difference(both), reasons_of(both)
    with meanwhile(lambda: both.states, lambda: both.canons):
        assert all(network.links is not None for network in both.around)
    return difference(both), reasons_of(both)
