"""docs/use/LINES.md has the kinds and heads of the sources, and the program refuses each example with its kind at its
line."""
from __future__ import annotations

import re

import pytest

from bonsainet.importing.ignored import heads_of
from bonsainet.lines.examples import LARGE, TEXTS, text_for
from bonsainet.lines.heads import head_of, remedy_of, scope_under
from bonsainet.lines.kinds import KINDS
from bonsainet.lines.page import PAGE, with_tables
from bonsainet.lines.remedies import OTHER, REFUSED, UNKNOWN
from bonsainet.configs.profile import DEFAULT_COSTS
from bonsainet.ask.program import TOP, Program, Refusal

SOURCE = TOP / "crates/cfg_ast/src/refusal.rt"
HEADS = TOP / "crates/cfg_ast/specs/text/Heads.antt"
TABLES = {"top": "top", "interface": "interface", "bgp": "router bgp", "ospf": "router ospf", "entry": "route-map"}
OPENERS = {
    "top": "",
    "interface": "interface Serial0/0\n",
    "router bgp": "router bgp 1\n",
    "router ospf": "router ospf 1\n",
    "route-map": "route-map M permit 10\n",
}


def refused_in_sources() -> dict[str, set[str]]:
    """The refused heads of the definitions, by scope."""
    text = HEADS.read_text("utf-8")
    found = {}
    for name, scope in TABLES.items():
        table = re.search(rf"^{name}_heads =(.*?)^$", text, re.M | re.S)
        assert table is not None, name
        found[scope] = {
            head for heads in re.findall(r'rows Refused \(codes "([^"]+)"', table[1]) for head in heads.split(", ")
        }
    return found


def under(scope: str, line: str) -> tuple[str, int]:
    """A text with a line in a scope, and the number of the line."""
    text = f"hostname a\n{OPENERS[scope]}{' ' if OPENERS[scope] else ''}{line}\n"
    return f"{text}end\n", text.count("\n")


def test_kinds_are_those_of_the_source() -> None:
    kinds = re.search(r"pub enum Kind \{\n(.*?)\n\}", SOURCE.read_text("utf-8"), re.S)
    assert kinds and [kind.name for kind in KINDS] == re.findall(r"\w+", kinds[1])


@pytest.mark.parametrize("kind", KINDS, ids=lambda kind: kind.name)
def test_the_program_refuses_each_example(kind) -> None:
    text = text_for(kind.name)
    found = Program().refusal(text)
    assert found is not None and found.kind == kind.name and found.line is not None
    line = text.split("\n")[found.line - 1]
    assert line.startswith(kind.example.removesuffix("xxx..")) if kind.name == "LineTooLong" else line == kind.example


def test_every_kind_has_a_text() -> None:
    assert {*TEXTS, *LARGE} == {kind.name for kind in KINDS}


def test_refused_heads_are_those_of_the_source() -> None:
    told: dict[str, list[str]] = {scope: [] for scope in TABLES.values()}
    for remedy in REFUSED:
        told[remedy.scope] += remedy.heads
    assert {scope: set(heads) for scope, heads in told.items()} == refused_in_sources()
    assert all(len(heads) == len(set(heads)) for heads in told.values())
    on_page = heads_of("Refused lines, and what to do with them")
    assert {len(heads) for heads in on_page.values()} == {len(heads) for heads in told.values()}


@pytest.mark.parametrize("remedy", REFUSED, ids=lambda remedy: f"{remedy.scope}: {remedy.heads[0]}")
def test_the_program_refuses_each_head(remedy) -> None:
    for head in remedy.heads:
        line = head.replace("100-500", "100")
        text, number = under(remedy.scope, line)
        assert Program().refusal(text) == Refusal(number, "Unsupported")
        assert head_of("Unsupported", remedy.scope, line.split()) == head
        assert remedy_of("Unsupported", remedy.scope, line.split()) == remedy.told


@pytest.mark.parametrize("remedy", UNKNOWN, ids=lambda remedy: f"{remedy.scope}: {remedy.heads[0]}")
def test_the_program_does_not_know_the_unknown_heads(remedy) -> None:
    for head in remedy.heads:
        text, number = under(remedy.scope, head)
        assert Program().refusal(text) == Refusal(number, "UnknownLine")


def test_any_other_unknown_line() -> None:
    assert remedy_of("UnknownLine", "top", ["frobnicate", "9"]) == OTHER
    assert head_of("UnknownLine", "top", ["frobnicate", "9"]) == "frobnicate"
    assert head_of("UnknownLine", "interface", ["no", "ipv6", "nd"]) == "no ipv6"


def test_scopes() -> None:
    assert [
        scope_under(line) for line in (None, "interface A1", "router bgp 1", "router ospf 1", "route-map M permit 10")
    ] == [
        "top",
        "interface",
        "router bgp",
        "router ospf",
        "route-map",
    ]


@pytest.mark.parametrize("kind", [*DEFAULT_COSTS, "Tunnel"])
def test_default_costs_are_those_of_the_program(kind: str) -> None:
    mask = "255.255.255.255" if kind == "Loopback" else "255.255.255.0"
    text = f"hostname a\ninterface {kind}1\n ip address 10.0.0.1 {mask}\nrouter ospf 1\n network 10.0.0.0 0.0.0.255 area 0\nend\n"
    if kind == "Tunnel":
        assert Program().refusal(text) == Refusal(3, "NoCost")
    else:
        assert Program().classes(text)[0].origins == (("a", DEFAULT_COSTS[kind]),)


def test_the_page_has_the_tables() -> None:
    page = PAGE.read_text("utf-8")
    assert page == with_tables(page), "dev/lines-page writes the tables"
    assert all(f"| {kind.name} |" in page for kind in KINDS)
