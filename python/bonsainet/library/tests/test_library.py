"""The library over examples: a network, its classes, questions, solutions, and what goes wrong."""
from __future__ import annotations

from pathlib import Path

import pytest

import bonsainet
from bonsainet.ask.program import TOP, Program
from bonsainet.library import calls

INPUTS = TOP / "examples" / "inputs"


@pytest.fixture(name="campus")
def campus_fixture() -> bonsainet.Network:
    return bonsainet.Network.from_file(INPUTS / "campus.cfg")


@pytest.fixture(name="disagree")
def disagree_fixture() -> bonsainet.DestClass:
    return bonsainet.Network.from_file(INPUTS / "asking" / "disagree.cfg").class_of(1)


def test_classes(campus: bonsainet.Network) -> None:
    tenth = campus.classes[9]
    assert (tenth.number, tenth.prefixes) == (10, ("10.10.0.0/24", "10.20.0.0/24", "10.255.0.5/32"))
    assert tenth.origins == ("access1",)
    for wanted in ("10.10.0.0/24", "10.10.0.77", "10.20.0.1"):
        assert campus.class_of(wanted) == campus.class_of(10) == tenth
    unknowns: tuple[int | str, ...] = (0, 17, "10.10.0.0/16", "192.0.2.1")
    for unknown in unknowns:
        with pytest.raises(bonsainet.ClassNotFound) as found:
            campus.class_of(unknown)
        assert found.value.wanted == unknown


def test_a_refused_text_says_where_and_why() -> None:
    with pytest.raises(bonsainet.TextRefused) as found:
        bonsainet.Network.from_file(INPUTS / "campus-with-static-route.cfg")
    assert (found.value.kind, found.value.text.split()[:2]) == ("Unsupported", ["ip", "route"])
    lines = (INPUTS / "campus-with-static-route.cfg").read_text().splitlines()
    assert found.value.line is not None and lines[found.value.line - 1] == found.value.text


def test_groups_and_the_compressed_network(campus: bonsainet.Network, tmp_path: Path) -> None:
    access = campus.class_of("10.10.0.0/24")
    small = access.compress()
    assert len(access.groups()) == len(small.classes[0].groups()) < 6
    small.write(tmp_path / "small.cfg")
    again = bonsainet.Network.from_file(tmp_path / "small.cfg")
    assert again.text == small.text and again.classes[0].prefixes == access.prefixes
    assert access.canon().text == small.text


def test_questions(campus: bonsainet.Network, disagree: bonsainet.DestClass) -> None:
    access = campus.class_of(10)
    assert access.ask.route()
    assert access.ask.through(["dist1"], ["access2"]) and access.ask.lacks("1:1")
    assert not access.ask.isolated("core1") and not access.ask.carries("1:1", "core1")
    assert access.ask.avoids("core1", "access2") and access.ask.hops(3)
    assert access.ask.count() == 1 and disagree.ask.count() == 2
    answer = disagree.ask.hops(1, "x")
    assert not answer and answer.verdict == "no" and answer.counterexample is not None
    assert disagree.check(answer.counterexample)
    assert not disagree.check({**answer.counterexample, "x": None})
    with pytest.raises(TypeError):
        answer.counterexample["x"] = None  # type: ignore[index]


def test_failures(campus: bonsainet.Network) -> None:
    access = campus.class_of(10)
    answer = access.failing("routers").route(["dist1", "dist2"])
    assert not answer and answer.verdict == "yes" and answer.tried == 6
    assert [loss.routers for loss in answer.losses] == [("access1",)]
    assert access.without("core1", "core2:dist1").route("dist1")
    assert not access.without("access1").route("dist1")


def test_ties() -> None:
    tied = bonsainet.Network.from_file(INPUTS / "asking" / "tags-tied.cfg").class_of(1).ask.route("far")
    assert tied and tied.tied == bonsainet.Tie("leaf", "communities")


def test_solutions(disagree: bonsainet.DestClass) -> None:
    solutions, forwards = disagree.solutions(), disagree.forwards()
    assert len(solutions) == len(forwards) == 2
    assert all(disagree.check(labels) for labels in solutions)
    assert sorted(str(nexts["x"]) for nexts in forwards) == ["('d',)", "('y',)"]
    for labels in solutions:
        lifted = disagree.lift(disagree.fold(labels))
        assert disagree.check(lifted)


def test_routers_named_as_the_library_names_its_texts(disagree: bonsainet.DestClass) -> None:
    text = disagree.network.text.replace("hostname x\n", "hostname F\n").replace("hostname y\n", "hostname S\n")
    renamed = bonsainet.Network.from_text(text).class_of(1)
    assert renamed.ask.route("F") and renamed.ask.route(["S"]) and not renamed.ask.hops(1, "F")
    assert renamed.without("F").hops(1, "S")


@pytest.mark.parametrize(
    "asked", [lambda c: c.ask.route("nobody"), lambda c: c.without("x:nobody").route(), lambda c: c.ask.carries("no")]
)
def test_words_that_are_refused(asked: object, disagree: bonsainet.DestClass) -> None:
    assert callable(asked)
    with pytest.raises(bonsainet.WordsRefused):
        asked(disagree)


def test_a_program_that_is_not_there_or_crashes(
    campus: bonsainet.Network, tmp_path: Path, monkeypatch: pytest.MonkeyPatch
) -> None:
    broken = tmp_path / "broken"
    broken.write_text("#!/bin/sh\nkill -SEGV $$\n")
    broken.chmod(0o755)
    monkeypatch.setattr(calls, "program", lambda name: Program(str(broken)))
    with pytest.raises(bonsainet.ProgramFailed) as found:
        campus.class_of(10).groups()
    assert found.value.status == -11
    monkeypatch.undo()
    with pytest.raises(bonsainet.ProgramFailed) as missing:
        calls.program("bonsai-nothing")
    assert missing.value.status == 9


def test_a_folder() -> None:
    folder = TOP / "examples" / "folders" / "campus"
    with pytest.raises(bonsainet.ImportRefused) as found:
        bonsainet.Network.from_folder(folder / "configs")
    assert found.value.report.refused
    network = bonsainet.Network.from_folder(folder / "configs", folder / "decisions")
    assert network.report is not None and network.report.changes
    assert network.classes and network.classes[0].ask.count() == 1


def test_a_frame(campus: bonsainet.Network) -> None:
    frame = campus.frame()
    assert list(frame.index) == [found.number for found in campus.classes]
    assert frame.loc[10, "groups"] == len(campus.class_of(10).groups())
    with pytest.raises(ValueError, match="no frame 'routes'"):
        campus.frame("routes")  # type: ignore[arg-type]


def test_a_name_that_is_not_there() -> None:
    with pytest.raises(AttributeError):
        bonsainet.nothing  # noqa: B018
    assert "Network" in dir(bonsainet)
