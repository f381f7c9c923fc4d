"""The program `bonsai-ask` by its launcher: answers over an example, and what it refuses."""

from __future__ import annotations

import os
import subprocess
from pathlib import Path

import pytest

from bonsainet.ask.program import TOP
from bonsainet.ask.where import without_notices
from bonsainet.bench.shapes import SHAPES, bgp

FABRIC = str(TOP / "examples" / "inputs" / "fabric.cfg")
USAGE = (
    b"usage: bonsai-ask F questions S, or F N [without DOWN] count | solutions | forwards | [failing links|routers] QUESTION; "
    b"QUESTION: route R, isolated R, hops H R, through W R, avoids W R, carries C R, lacks C R\n"
)
End = tuple[int, bytes, bytes]


def asked(*words: str, data: bytes = b"") -> End:
    """The status, the output and the line on standard error."""
    ran = subprocess.run([TOP / "bonsai-ask", *words], input=data, capture_output=True, check=False)
    return ran.returncode, ran.stdout, without_notices(ran.stderr)


def test_the_launcher_is_a_link() -> None:
    assert os.readlink(TOP / "bonsai-ask") == "bonsai"


def test_answers_that_are_yes_and_one_that_is_not() -> None:
    assert asked(FABRIC, "*", "route", "*") == (0, b"class 1 yes\nclass 2 yes\n", b"")
    assert asked(FABRIC, "1-1", "hops", "1", "leaf2") == (8, b"class 1 no\n", b"")
    status, out, err = asked(FABRIC, "1", "hops", "1", "leaf2")
    assert (status, err) == (8, b"") and out.startswith(b"class 1 no\nspine1 bgp ")


def test_what_is_down_and_what_fails() -> None:
    assert asked(FABRIC, "1", "without", "spine1", "route", "leaf2") == (0, b"class 1 yes\n", b"")
    assert asked(FABRIC, "1-1", "without", "spine1,spine2", "route", "leaf2") == (8, b"class 1 no\n", b"")
    assert asked(FABRIC, "1", "failing", "links", "route", "leaf2") == (
        0,
        b"class 1 yes\nclass 1 failing 0 of 8\n",
        b"",
    )


def test_ties_where_links_fail() -> None:
    two = bgp((["x", "a", "b", "o"], [("x", "a"), ("x", "b"), ("a", "o"), ("b", "o")]), 1, True)
    assert failing_links(two, "x") == (0, b"class 1 yes tied x communities\nclass 1 failing 0 of 4\n", b"")
    status, out, err = failing_links(SHAPES["bgp-leaf-spine"].text(16), "*")
    assert (status, err) == (0, b"") and out.endswith(b"class 1 failing 0 of 28 tied 28\n")
    status, out, err = failing_links(SHAPES["bgp-leaf-spine"].text(160), "*")
    assert (status, err) == (8, b"") and out.endswith(b"class 1 failing 1200 of 1200\n")


def failing_links(text: str, routers: str) -> End:
    """The answers of the first class: have the routers a route, also without each link?"""
    return asked("-", "1", "failing", "links", "route", routers, data=text.encode())


def test_a_file_of_questions_on_standard_input(tmp_path: Path) -> None:
    text = b"! a remark\n\n1 count\n2 route leaf1\n"
    (tmp_path / "S").write_bytes(text)
    told = (0, b"question 3\nclass 1 solutions 1\nquestion 4\nclass 2 yes\n", b"")
    assert asked(FABRIC, "questions", str(tmp_path / "S")) == told
    assert asked(FABRIC, "questions", "-", data=text) == told
    assert asked("-", "*", "count", data=Path(FABRIC).read_bytes()) == (
        0,
        b"class 1 solutions 1\nclass 2 solutions 1\n",
        b"",
    )


@pytest.mark.parametrize(
    ("words", "reason"),
    [
        (("7", "route", "nobody"), b"NoClass 7"),
        (("1-7", "count"), b"NoClass 1-7"),
        (("9.9.9.9", "count"), b"NoClass 9.9.9.9"),
        (("1", "without", "nowhere", "route", "nobody"), b"UnknownRouter nobody"),
        (("1", "without", "leaf1:leaf2", "count"), b"NoLink leaf1:leaf2"),
    ],
)
def test_what_is_refused(words: tuple[str, ...], reason: bytes) -> None:
    assert asked(FABRIC, *words) == (1, b"", b"refused: " + reason + b"\n")


def test_the_first_line_at_fault_refuses_a_file_of_questions() -> None:
    told = asked(FABRIC, "questions", "-", data=b"1 count\n7 count\n1 rout leaf1\n")
    assert told == (1, b"", b"refused: questions line 2: NoClass\n")


@pytest.mark.parametrize("words", [(), ("F",), ("F", "1"), ("F", "1", "route", "a,a"), ("F", "questions", "S", "T")])
def test_words_of_no_form(words: tuple[str, ...]) -> None:
    assert asked(*words) == (2, b"", USAGE)


def test_files_that_cannot_be_read(tmp_path: Path) -> None:
    nowhere = str(tmp_path / "nowhere")
    assert asked(nowhere, "1", "count") == (3, b"", f"read fault: {nowhere}\n".encode())
    assert asked(FABRIC, "questions", nowhere) == (3, b"", f"read fault: {nowhere}\n".encode())
