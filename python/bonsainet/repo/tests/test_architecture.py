"""Layers of crates: headings, order, and a picture that is current."""

from __future__ import annotations

import re

import pytest

from bonsainet.ask.program import TOP
from bonsainet.cli.command_line import Refused
from bonsainet.repo import architecture

TEXT = "# == low: numbers\na:\nb: a\n\n# == high: programs\nc: a b\n"
USES = {"a": [], "b": ["a"], "c": ["a", "b"]}


def test_headings_begin_layers():
    layers = architecture.layers_of(TEXT)
    assert [(layer.name, layer.about, layer.crates) for layer in layers] == [
        ("low", "numbers", ("a", "b")),
        ("high", "programs", ("c",)),
    ]


def test_a_crate_under_no_heading_is_refused():
    with pytest.raises(Refused, match="a stands under no heading"):
        architecture.layers_of("a:\n# == low: numbers\n")


def test_a_dependency_on_a_higher_layer_is_named():
    layers = architecture.layers_of(TEXT)
    assert architecture.against_the_order(layers, USES) == []
    assert architecture.against_the_order(layers, {**USES, "b": ["c"]}) == ["b (low) depends on c (high)"]


def test_levels_count_from_one():
    assert architecture.levels(USES) == {"a": 1, "b": 2, "c": 3}


def test_a_drawing_has_a_box_for_each_layer_and_arrows_downward(monkeypatch):
    monkeypatch.setattr(architecture, "kind", lambda crate: "laws" if crate == "b" else "code")
    made = architecture.drawing(architecture.layers_of(TEXT), USES)
    assert "layer1 -> layer0;" in made and "layer0 -> layer1;" not in made
    assert "<i>b</i>" in made and "<td>c</td>" in made


def test_the_mark_of_a_picture_depends_on_its_drawing():
    assert architecture.mark_of("one") != architecture.mark_of("two")


def taken(crate: str, of: str) -> set[str]:
    """What the code of a crate takes from another one by its `use` lines."""
    names: set[str] = set()
    for file in (TOP / "crates" / crate / "src").rglob("*.rt"):
        if "tests" not in file.stem:
            for found in re.findall(rf"^use {of}::(?:\{{([^}}]*)\}}|(\w+));", file.read_text("utf-8"), re.M | re.S):
                names |= {name.strip() for name in (found[0] or found[1]).split(",")}
    return names


def test_the_picture_names_functions_that_its_crates_call() -> None:
    picture = (TOP / "docs/inside/ARCHITECTURE.md").read_text("utf-8").split("```")[1]
    steps = [
        (caller[1], crate, name)
        for line in picture.splitlines()
        if (caller := re.search(r"\[(\w+)\]", line))
        for crate, name in re.findall(r"(\w+)::(\w+)", line)
    ]
    assert len(steps) > 15
    assert [step for step in steps if step[2] not in taken(step[0], step[1])] == []
