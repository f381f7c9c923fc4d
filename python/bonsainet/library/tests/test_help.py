"""Whoever has `help(bonsainet)` alone can ask what the page ASKING asks: no other name is needed, and the answers are those
of the page."""
from __future__ import annotations

import ast
import builtins
import pydoc
import re

import pytest

import bonsainet
import bonsainet.library
from bonsainet.ask.program import TOP

# (each command of the page has its lines here: those that ask, and the last one, which gives what the page shows)
SCRIPT = """
campus = bonsainet.Network.from_file("examples/inputs/campus.cfg")
disagree = bonsainet.Network.from_file("examples/inputs/asking/disagree.cfg")
tied = bonsainet.Network.from_file("examples/inputs/asking/tags-tied.cfg")
access = campus.class_of("10.10.0.0/24")
first = disagree.class_of(1)

answer = access.ask.route("*")
(answer.number, answer.verdict) == (10, "yes")

first.ask.count() == 2

answer = first.ask.hops(1, "x")
answer.verdict == "no" and answer.counterexample["x"].path == (65003, 65001)

labels = first.ask.hops(1, "x").counterexample
first.check(labels)

answer = tied.class_of(1).ask.route("far")
(answer.verdict, answer.tied.router, answer.tied.by) == ("yes", "leaf", "communities")

answer = access.failing("routers").route(["dist1", "dist2"])
answer.verdict == "yes" and [loss.routers for loss in answer.losses] == [("access1",)] and answer.tried == 6

intent = "! all reach it\\n10.10.0.0/24 route *\\n! no core cuts anybody off\\n10.10.0.0/24 without core1 route core2,dist1,dist2\\n"
[(reply.line, reply.answers[0].verdict) for reply in campus.replies(intent)] == [(2, "yes"), (4, "yes")]

intent = [access.ask.route("*"), access.without("core1").route(["core2", "dist1", "dist2"])]
[answer.verdict for answer in intent] == ["yes", "yes"]

way = access.ask.ways("access2")[0]
way["access2"] == {"dist1": ("GigabitEthernet0/1 > GigabitEthernet2/2",)} and way["access1"] == {}

verdicts = [answer.verdict for answer in campus.ask.route("*")]
verdicts == ["yes"] * 16
"""
OF_DATA = {"append", "join", "split"}


@pytest.fixture(name="told", scope="module")
def told_fixture() -> str:
    """What help(bonsainet) shows."""
    return pydoc.plain(pydoc.render_doc(bonsainet))


def test_no_other_name_is_needed(told: str) -> None:
    tree = ast.parse(SCRIPT)
    own = {node.id for node in ast.walk(tree) if isinstance(node, ast.Name) and isinstance(node.ctx, ast.Store)}
    used = {node.id for node in ast.walk(tree) if isinstance(node, ast.Name)} - own - set(dir(builtins))
    used |= {node.attr for node in ast.walk(tree) if isinstance(node, ast.Attribute)}
    used |= {word.arg for node in ast.walk(tree) if isinstance(node, ast.Call) for word in node.keywords if word.arg}
    assert {name for name in used - OF_DATA if not re.search(rf"\b{name}\b", told)} == set()


def test_the_answers_are_those_of_the_page(monkeypatch: pytest.MonkeyPatch) -> None:
    monkeypatch.chdir(TOP)
    names: dict[str, object] = {"bonsainet": bonsainet}
    parts = [part for part in SCRIPT.split("\n\n") if part.strip()]
    exec(parts[0], names)  # noqa: S102
    for part in parts[1:]:
        *asking, last = part.strip().split("\n")
        exec("\n".join(asking), names)  # noqa: S102
        assert eval(last, names), part  # noqa: S307


def test_each_command_of_the_page_is_asked() -> None:
    """The page has as many commands as the script has parts, except the one that writes a file of questions and for that of
    all classes."""
    shown = re.findall(r"^\$ bonsai", (TOP / "docs/use/ASKING.md").read_text("utf-8"), re.M)
    assert len(shown) == len([part for part in SCRIPT.split("\n\n") if part.strip()]) - 3 + 1


@pytest.mark.parametrize("name", bonsainet.library.__all__)
def test_each_name_has_words(name: str) -> None:
    found = getattr(bonsainet, name)
    assert found.__doc__ and not found.__doc__.startswith(f"{name}(")
    for each, value in vars(found).items():
        if callable(value) and not each.startswith("_"):
            assert value.__doc__, f"{name}.{each}"
