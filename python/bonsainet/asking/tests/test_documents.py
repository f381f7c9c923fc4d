"""The JSON document fits its schema, and the JUnit report names what failed."""
from __future__ import annotations

import json
from xml.etree import ElementTree

import jsonschema
from hypothesis import given, settings
from hypothesis import strategies as st

from bonsainet.ask.program import TOP
from bonsainet.ask.where import Identity
from bonsainet.asking.documents import document
from bonsainet.asking.junit import junit
from bonsainet.asking.questions import Question, questions_of
from bonsainet.asking.reports import Part, Report, reports_of
from bonsainet.asking.tests.test_reports import PARTS

PROGRAM = Identity("0" * 64, False, None)
SCHEMA = json.loads((TOP / "docs/data/bonsai-ask.schema.json").read_text())
FILE = b"! all reach it\n'1' route *\n\n! lost\n! two comments: the last counts\n1 failing links route *\n* count\n"
WRITTEN = """question 2
class 1 yes tied a path
question 6
class 1 yes
link a b 1 no
link a b 2 none
class 1 failing 2 of 3
question 7
class 1 solutions 2
"""


def test_questions_have_the_names_of_their_comments() -> None:
    assert questions_of(FILE) == [
        Question(2, ("'1'", "route", "*"), "all reach it"),
        Question(6, ("1", "failing", "links", "route", "*"), "two comments: the last counts"),
        Question(7, ("*", "count"), "* count"),
    ]


@settings(max_examples=40)
@given(PARTS)
def test_the_document_fits_the_schema(parts: tuple[Part, ...]) -> None:
    made = document(PROGRAM, ["1", "route", "*"], 0, [Report(None, parts)], [])
    jsonschema.validate(made, SCHEMA)


def test_the_document_of_a_file_of_questions() -> None:
    made = document(PROGRAM, ["questions", "S"], 8, reports_of(WRITTEN), questions_of(FILE))
    jsonschema.validate(made, SCHEMA)
    assert [one["name"] for one in made["questions"]] == ["all reach it", "two comments: the last counts", "* count"]
    assert made["questions"][0]["classes"] == [{"class": 1, "answer": "yes", "tied": {"router": "a", "by": "path"}}]
    assert made["questions"][1]["classes"][0]["failing"] == {
        "lost": [
            {"link": ["a", "b"], "rank": 1, "answer": "no"},
            {"link": ["a", "b"], "rank": 2, "answer": "none"},
        ],
        "tried": 3,
        "tied": 0,
    }


def test_forwards_in_the_document() -> None:
    written = "solution 1\na to b\nb here\nc none\n"
    made = document(PROGRAM, ["1", "forwards"], 0, reports_of(written), [])
    jsonschema.validate(made, SCHEMA)
    assert made["questions"][0]["classes"][0]["forwards"] == {"a": ["b"], "b": [], "c": None}


@settings(max_examples=40)
@given(st.text(st.characters(min_codepoint=32, max_codepoint=126), min_size=1))
def test_junit(name: str) -> None:
    questions = [Question(2, ("1", "route", "*"), name), *questions_of(FILE)[1:]]
    top = ElementTree.fromstring(junit("S", questions, reports_of(WRITTEN)))
    cases = top.findall("testsuite/testcase")
    assert [case.get("name") for case in cases] == [name, "two comments: the last counts", "* count"]
    assert [len(case.findall("failure")) for case in cases] == [0, 1, 0]
    failure = cases[1].find("failure")
    assert failure is not None and failure.get("message") == "class 1 without link 1 between a and b: no"
    assert cases[0].findtext("system-out") == "class 1: yes, tied at a by path"
    assert top.find("testsuite[@failures='1'][@tests='3']") is not None
