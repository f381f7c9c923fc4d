"""The options of bonsai-ask over the program: documents, reports, ways, and classes shared out."""
from __future__ import annotations

import json
import subprocess
from pathlib import Path
from xml.etree import ElementTree

import jsonschema
import pytest

from bonsainet.ask.program import TOP, Program
from bonsainet.ask.where import without_notices
from bonsainet.ask.shares import ranges
from bonsainet.nets.fat_tree import fat_tree_text

INPUTS = TOP / "examples" / "inputs"
SCHEMA = json.loads((TOP / "docs" / "data" / "bonsai-ask.schema.json").read_text())


def asked(*words: str | Path, stdin: bytes = b"") -> subprocess.CompletedProcess[bytes]:
    """A call of the launcher."""
    ran = subprocess.run([TOP / "bonsai-ask", *words], cwd=INPUTS, input=stdin, capture_output=True, check=False)
    ran.stderr = without_notices(ran.stderr)
    return ran


@pytest.mark.parametrize(
    "words, status",
    [
        (["campus.cfg", "*", "route", "*"], 0),
        (["asking/disagree.cfg", "1", "hops", "1", "x"], 8),
        (["asking/disagree.cfg", "1", "solutions"], 0),
        (["asking/disagree.cfg", "1-1", "forwards"], 0),
        (["asking/tags-tied.cfg", "1", "route", "far"], 0),
        (["asking/failing-none.cfg", "1", "failing", "links", "route", "*"], 8),
        (["asking/no-link.cfg", "questions", "asking/questions.txt"], 8),
        (["asking/empty-file.cfg", "*", "count"], 0),
    ],
)
def test_the_document_of_a_call(words: list[str], status: int) -> None:
    ran = asked("--json", *words)
    assert (ran.returncode, ran.stderr) == (status, b"")
    made = json.loads(ran.stdout)
    jsonschema.validate(made, SCHEMA)
    assert made["status"] == status


def test_standard_input_is_read_once() -> None:
    ran = asked("--json", "-", "1", "count", stdin=(INPUTS / "asking/disagree.cfg").read_bytes())
    assert json.loads(ran.stdout)["questions"] == [{"words": ["1", "count"], "classes": [{"class": 1, "solutions": 2}]}]


def test_a_refusal_has_no_document() -> None:
    ran = asked("--json", "campus.cfg", "1", "route", "nobody")
    assert (ran.returncode, ran.stdout, ran.stderr) == (1, b"", b"refused: UnknownRouter nobody\n")


def test_junit(tmp_path: Path) -> None:
    words = ["asking/no-link.cfg", "questions", "asking/questions.txt"]
    ran = asked("--junit", tmp_path / "report.xml", *words)
    assert (ran.returncode, ran.stdout) == (8, asked(*words).stdout)
    suite = ElementTree.parse(tmp_path / "report.xml").find("testsuite")
    assert suite is not None and (suite.get("tests"), suite.get("failures")) == ("8", "4")


def test_junit_needs_questions() -> None:
    ran = asked("--junit", "report.xml", "campus.cfg", "1", "count")
    assert ran.returncode == 2 and b"--junit needs a file of questions" in ran.stderr


def test_ways() -> None:
    ran = asked("--way", "x", "asking/disagree.cfg", "1")
    assert ran.stdout.decode().splitlines() == [
        "solution 1",
        "  x to d (GigabitEthernet0/0 > GigabitEthernet0/0)",
        "  d here",
        "solution 2",
        "  x to y (GigabitEthernet0/1 > GigabitEthernet0/1)",
        "  y to d (GigabitEthernet0/0 > GigabitEthernet0/1)",
        "  d here",
    ]


@pytest.mark.parametrize(
    "words, way",
    [
        (["asking/disagree.cfg", "1", "hops", "1", "x"], "  x to y (GigabitEthernet0/1 > GigabitEthernet0/1) to d "),
        (["asking/through-no.cfg", "1", "through", "b", "b,c"], "  c to a "),
        (["asking/disagree.cfg", "1", "avoids", "y", "x"], "  x to y "),
    ],
)
def test_the_way_behind_no(words: list[str], way: str) -> None:
    ran = asked("--way", words[-1].rpartition(",")[2], *words)
    plain = asked(*words)
    assert (ran.returncode, plain.returncode) == (8, 8)
    assert ran.stdout.startswith(plain.stdout + b"way\n" + way.encode())


def test_a_way_of_nobody() -> None:
    ran = asked("--way", "nobody", "asking/disagree.cfg", "1")
    assert (ran.returncode, ran.stderr) == (1, b"bonsai-ask: asking/disagree.cfg: no router nobody\n")


def test_classes_shared_out_are_answered_as_by_one_call(tmp_path: Path) -> None:
    place = tmp_path / "fat-tree-20.cfg"
    place.write_text(fat_tree_text(20))
    alone = Program(name="bonsai-ask").ask(str(place), "*", "hops", "3", "*")
    ran = asked("--jobs", "3", place, "*", "hops", "3", "*")
    assert alone.out.count(b"\n") == 200 and alone.status == 8
    assert (ran.returncode, ran.stdout, ran.stderr) == (8, alone.out, b"")
    refused = asked("--jobs", "3", place, "*", "route", "nobody")
    assert (refused.returncode, refused.stdout, refused.stderr) == (1, b"", b"refused: UnknownRouter nobody\n")


@pytest.mark.parametrize("count, jobs", [(1, 4), (65, 4), (200, 3), (800, 7)])
def test_ranges_have_each_class_once(count: int, jobs: int) -> None:
    found = [number for first, last in ranges(range(1, count + 1), jobs) for number in range(first, last + 1)]
    assert found == list(range(1, count + 1))
