"""A class is named by its number, a prefix of it, or an address in it."""
from __future__ import annotations

import argparse
import json

import pytest

from bonsainet.ask.accepted import a_class, class_of
from bonsainet.ask.program import Class
from bonsainet.cli.command_line import Refused
from bonsainet.tests.asking import place_of, tool

CLASSES = [
    Class(1, ("10.0.0.0/8",), (("a", None),)),
    Class(2, ("10.1.0.0/16", "10.2.0.0/16"), (("b", None),)),
    Class(3, ("10.1.1.1/32",), (("c", None),)),
]


@pytest.mark.parametrize(
    "word, number",
    [
        ("2", 2),
        ("10.2.0.0/16", 2),
        ("10.0.0.0/8", 1),
        ("10.2.3.4", 2),
        ("10.9.9.9", 1),
        ("10.1.1.1", 3),
        ("10.1.1.1/32", 3),
    ],
)
def test_a_class_by_its_word(word: str, number: int) -> None:
    assert class_of(CLASSES, a_class(word), "F").number == number


@pytest.mark.parametrize(
    "word, told",
    [
        ("4", "F: no class 4: the classes are 1 to 3"),
        ("10.1.0.0/17", "F: no class has the prefix 10.1.0.0/17"),
        ("192.0.2.1", "F: no class has a prefix around 192.0.2.1"),
    ],
)
def test_no_such_class(word: str, told: str) -> None:
    with pytest.raises(Refused, match=told):
        class_of(CLASSES, a_class(word), "F")


@pytest.mark.parametrize("word", ["x", "10.1.0.1/16", "-1", "1.5", "\u00b2"])
def test_a_word_that_names_no_class(word: str) -> None:
    with pytest.raises(argparse.ArgumentTypeError, match="neither a number, a prefix nor an address"):
        a_class(word)


def test_tools_take_prefixes() -> None:
    found = json.loads(tool("bonsai-json", place_of("campus.cfg"), "--class", "10.20.0.0/24", "--class", 10).stdout)
    assert [one["class"] for one in found["classes"]] == [10]
    drawn = tool("bonsai-draw", place_of("campus.cfg"), "10.20.0.7", "-f", "dot", "--part", "after").stdout
    assert b"class 10" in drawn and b"10.20.0.0/24" in drawn
    ran = tool("bonsai-doubts", place_of("campus.cfg"), "--class", "10.77.0.0/24")
    assert (ran.returncode, ran.stderr) == (
        1,
        f"bonsai-doubts: {place_of('campus.cfg')}: no class has the prefix 10.77.0.0/24\n".encode(),
    )
