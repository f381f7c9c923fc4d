"""The prose of the pages has one sentence a line, and no line over 160 columns; `dev/sentences --write` keeps the words."""
from __future__ import annotations

import pytest

from bonsainet.ask.program import TOP
from bonsainet.repo.marks import with_measured
from bonsainet.repo.sentences import WIDTH, every, faults, formed, sentences


@pytest.mark.parametrize("name", every())
def test_a_page(name: str) -> None:
    assert faults(name, (TOP / name).read_text("utf-8")) == []


@pytest.mark.parametrize(
    ("text", "parts"),
    [
        ("One. Two.", ["One.", "Two."]),
        ("It is `a. B`. `c` is next.", ["It is `a. B`.", "`c` is next."]),
        ("Words .. Others stay.", ["Words .. Others stay."]),
        ("**1. Import.** The import rewrites.", ["**1. Import.** The import rewrites."]),
        ("See [this](a.md). That is all.", ["See [this](a.md).", "That is all."]),
        ("A length of 1.5 and 3 of 4. Then more.", ["A length of 1.5 and 3 of 4.", "Then more."]),
    ],
)
def test_sentences(text: str, parts: list[str]) -> None:
    assert sentences(text) == parts


def test_a_page_keeps_its_words_tables_and_code() -> None:
    long = "word, " * 40 + "end."
    page = f"# Head. Line\n\nOne. Two\nthree. {long}\n\n- item. Second\n  goes on.\n\n| a. B | {long} |\n\n```\nx. Y {long}\n```\n"
    made = formed(page)
    assert made.split() == page.split() and faults("P", made) == [] and formed(made) == made
    assert f"| a. B | {long} |" in made and f"x. Y {long}\n" in made and "\n- item.\n  Second goes on.\n" in made
    assert [len(line) <= WIDTH for line in made.splitlines() if line.startswith(("One", "Two", "word"))]


def test_each_fault_is_named() -> None:
    assert faults("P", "One. Two.\n") == ["P:1: more than one sentence in a line"]
    assert faults("P", "x" * 161 + "\n") == ["P:1: 161 columns, and 160 is the most"]


def test_what_a_measurement_writes_is_within_the_columns() -> None:
    page = "Before.\n<!-- measured: speed; bench/x writes this table -->\nold\n<!-- measured: end -->\nAfter.\n"
    long = "; ".join(["a figure of a row"] * 20)
    made = with_measured(page, "speed", f"| a | b |\n|---|---|\n| {long} | 1 |\n\nMade with: {long}.\n")
    assert faults("P", made) == [] and f"| {long} | 1 |\n" in made and "old" not in made
    assert with_measured(page, "memory", "new\n") == page
