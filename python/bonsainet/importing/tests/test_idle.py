"""Lines without bearing: each head of the tables is taken out, or passed over by the program, and nothing else
changes."""
from __future__ import annotations

from pathlib import Path

import pytest

from bonsainet.importing.rules.idle_heads import SUBJECTS
from bonsainet.importing.tests.test_refusals import A_BGP, A_OSPF, B_BGP, B_OSPF, report
from bonsainet.ask.program import Program
from bonsainet.configs.text import text_of

SCOPES = ("top", "interface", "bgp", "ospf")
CASES = [(subject, scope) for subject in SUBJECTS for scope in SCOPES if subject.heads(scope)]
MAP = " neighbor 172.16.0.2 route-map M in\nroute-map M permit 10\n"


def with_lines(text: str, scope: str, heads: tuple[str, ...]) -> str:
    """The text with a line of each head in a scope."""
    filled = [
        head.replace("*", "172.16.0.2" if head.startswith(("neighbor", "no neighbor")) else "0") for head in heads
    ]
    if scope == "top":
        return text + "".join(f"{head} one two\n" for head in filled)
    inside = "".join(f" {head}\n" for head in filled)
    return text.replace("interface Vlan1\n", f"interface Vlan1\n{inside}") if scope == "interface" else text + inside


def answers(program: Program, text: str) -> list[tuple[object, ...]]:
    """The classes of a text with their groups."""
    return [(one, program.groups(text, one.number)) for one in program.classes(text)]


@pytest.mark.parametrize("case", CASES, ids=lambda case: f"{case[0].rule.name}-{case[1]}")
def test_nothing_else_changes(case: tuple, tmp_path: Path, program: Program) -> None:
    subject, scope = case
    one, other = (A_OSPF, B_OSPF) if scope == "ospf" else (A_BGP, B_BGP)
    heads = tuple(head for head in subject.heads(scope) if head != "banner")
    found = report(tmp_path, program, (with_lines(one, scope, heads), other))
    assert not found.folder.log.refusals, found.text
    assert answers(program, text_of(found.folder.routers)) == answers(program, f"{one}end\n{other}end\n")
