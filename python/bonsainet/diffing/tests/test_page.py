"""The page of a difference: both sides drawn, each router in one place, and what changes coloured."""
from __future__ import annotations

import re
import xml.etree.ElementTree as ElementTree

import bonsainet
from bonsainet.ask.program import TOP
from bonsainet.diffing.page import page
from bonsainet.diffing.pictures import COLORS, GONE, NEW, Drawer
from bonsainet.diffing.reasons import reasons_of
from bonsainet.library.calls import ASK, program
from bonsainet.library.changes import Kind, difference
from bonsainet.library.pairs import Pair

CAMPUS = (TOP / "examples" / "inputs" / "campus.cfg").read_text()
SVG = "{http://www.w3.org/2000/svg}"


def texts_of(svg: str) -> dict[str, tuple[str | None, str | None]]:
    """Where each router is written."""
    return {text.text or "": (text.get("x"), text.get("y")) for text in ElementTree.fromstring(svg).iter(f"{SVG}text")}


def test_each_router_keeps_its_place() -> None:
    other = CAMPUS.replace(" ip ospf cost 5\n", " shutdown\n", 1).replace("hostname core2\n", "hostname core9\n")
    old, new = bonsainet.Network.from_text(CAMPUS), bonsainet.Network.from_text(other)
    found = bonsainet.diff(old, new)
    drawer = Drawer(Pair(old, new))
    for change in found.changed[:3]:
        made = drawer.draw(change)
        before, after = texts_of(made.before), texts_of(made.after)
        assert set(before) == set(old.routers) and set(after) == set(new.routers)
        assert all(before[name] == after[name] for name in before if name in after)
        sizes = [re.search(r'viewBox="([^"]*)"', svg) for svg in (made.before, made.after)]
        assert sizes[0] and sizes[1] and sizes[0][1] == sizes[1][1]
        assert GONE in made.before and NEW in made.after


def test_the_page() -> None:
    old, new = bonsainet.Network.from_text(CAMPUS, "old"), bonsainet.Network.from_text(
        CAMPUS.replace(" ip ospf cost 5\n", " ip ospf cost 7\n"), "<new>"
    )
    both = Pair(old, new)
    made = page(both, difference(both), reasons_of(both), program(ASK).identity)
    assert made.count("<svg") == 4 and COLORS[Kind.CHANGED] in made
    assert "changed core1, core2, dist1: cost 6 -&gt; 8" in made
    assert "&lt;new&gt;" in made and "<new>" not in made
    assert "http://" not in re.sub(r'xmlns="[^"]*"', "", made) and "<script" not in made
    nothing = Pair(old, old)
    made = page(nothing, difference(nothing), reasons_of(nothing), program(ASK).identity)
    assert "0 prefixes change, 19 stay as they are." in made and "<svg" not in made
