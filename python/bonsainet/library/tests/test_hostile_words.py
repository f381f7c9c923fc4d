"""What the library says to words, texts, labels and folders that are not of their form."""
from __future__ import annotations

import copy
import dataclasses
import pickle
from collections.abc import Callable
from ipaddress import IPv4Address, IPv4Network
from pathlib import Path
from typing import Any

import pytest

import bonsainet
from bonsainet.ask.program import TOP

INPUTS = TOP / "examples" / "inputs"
FOLDER = TOP / "examples" / "folders" / "campus"


@pytest.fixture(name="campus", scope="module")
def campus_fixture() -> bonsainet.Network:
    return bonsainet.Network.from_file(INPUTS / "campus.cfg")


@pytest.fixture(name="access", scope="module")
def access_fixture(campus: bonsainet.Network) -> bonsainet.DestClass:
    return campus.class_of(10)


@pytest.mark.parametrize("wanted", ["10", "10.10.0.9", IPv4Address("10.10.0.9"), IPv4Network("10.10.0.0/24")])
def test_a_class_by_other_words(
    wanted: str | IPv4Address | IPv4Network, campus: bonsainet.Network, access: bonsainet.DestClass
) -> None:
    assert campus.class_of(wanted) == access


@pytest.mark.parametrize(
    "wanted", ["", "x", "010", "17", "9" * 5000, "10.10.0.0/33", "::1", " 10", "10.10.0.9/32", "\udce9", "10.10.0"]
)
def test_a_class_by_words_of_no_form(wanted: str, campus: bonsainet.Network) -> None:
    with pytest.raises(bonsainet.ClassNotFound) as found:
        campus.class_of(wanted)
    assert found.value.wanted == wanted and str(found.value).isprintable()


def test_the_longest_prefix_around_an_address() -> None:
    text = (INPUTS / "asking" / "by-address.cfg").read_text()
    network = bonsainet.Network.from_text(text)
    for found in network.classes:
        for prefix in map(IPv4Network, found.prefixes):
            longest = max(
                (other for one in network.classes for other in map(IPv4Network, one.prefixes) if prefix[1] in other),
                key=lambda other: other.prefixlen,
            )
            assert network.class_of(prefix) == found and str(longest) in network.class_of(prefix[1]).prefixes


def test_texts_that_are_refused_as_a_whole() -> None:
    with pytest.raises(bonsainet.TextRefused) as found:
        bonsainet.Network.from_text("!" * 1000 + "\n" + "!\n" * 8_400_000, "long")
    error = found.value
    assert (error.kind, error.line, error.text, str(error)) == ("FileTooLong", None, "", "long: FileTooLong")


@pytest.mark.parametrize("name", ["é", "\udce9", "\ud800", "a\0b", "a\rb", "x" * 2000])
def test_errors_can_be_printed_and_copied(name: str, tmp_path: Path) -> None:
    with pytest.raises(bonsainet.TextRefused) as found:
        bonsainet.Network.from_text(f"! first\nhostname {name}\nend\n")
    error = found.value
    assert error.line == 2 and str(error).isprintable() and len(str(error)) < 300
    for other in (copy.copy(error), pickle.loads(pickle.dumps(error))):
        assert (type(other), str(other), vars(other)) == (type(error), str(error), vars(error))


def test_a_byte_that_is_no_letter_can_be_printed(tmp_path: Path) -> None:
    (tmp_path / "latin.cfg").write_bytes(b"hostname caf\xe9\nend\n")
    with pytest.raises(bonsainet.TextRefused) as found:
        bonsainet.Network.from_file(tmp_path / "latin.cfg")
    assert found.value.text == "hostname caf\\xe9" and found.value.text.encode()


@pytest.mark.parametrize(
    "ask, kind",
    [
        (lambda of: of.ask.route("nobody"), "UnknownRouter"),
        (lambda of: of.ask.route([]), "Usage"),
        (lambda of: of.ask.route(["core1", "core1"]), "Usage"),
        (lambda of: of.ask.route("a\0b"), "Usage"),
        (lambda of: of.ask.route("\ud800"), "Usage"),
        (lambda of: of.ask.route("é"), "Usage"),
        (lambda of: of.ask.route(["x" * 200_000]), "Usage"),
        (lambda of: of.ask.hops(-1), "Usage"),
        (lambda of: of.ask.hops(10**9), "Usage"),
        (lambda of: of.ask.carries("no-export"), "Usage"),
        (lambda of: of.without("core1:access1").route(), "NoLink"),
        (lambda of: of.failing("links").count(), "Usage"),
        (lambda of: of.failing("wires").route(), "Usage"),
    ],
)
def test_words_that_are_refused(
    ask: Callable[[bonsainet.DestClass | bonsainet.Network], object], kind: str, access: bonsainet.DestClass
) -> None:
    both: tuple[bonsainet.DestClass | bonsainet.Network, ...] = (access, access.network)
    for of in both:
        with pytest.raises(bonsainet.WordsRefused) as found:
            ask(of)
        assert (found.value.kind, found.value.line) == (kind, None) and len(str(found.value)) < 1000


def test_with_something_failing_nothing_else_is_answered(access: bonsainet.DestClass) -> None:
    failing = access.failing("links")
    asks: tuple[Callable[[], object], ...] = (failing.solutions, failing.forwards, lambda: failing.ways("core1"))
    for ask in asks:
        with pytest.raises(bonsainet.WordsRefused):
            ask()


def test_failing_beside_what_is_down(access: bonsainet.DestClass) -> None:
    answer = access.failing("routers", ["core1"]).route("core2")
    assert answer.tried == 5 and [loss.routers for loss in answer.losses] == [("access1",)]
    (same,) = [each for each in access.network.failing("routers", "core1").route("core2") if each.number == 10]
    assert same.losses == answer.losses


def test_ways_of_nobody_also_where_no_solution_is() -> None:
    gadget = bonsainet.Network.from_file(INPUTS / "asking" / "bad-gadget.cfg").class_of(1)
    assert gadget.ask.count() == 0 and gadget.ask.ways(gadget.network.routers[0]) == []
    with pytest.raises(bonsainet.WordsRefused, match="UnknownRouter nobody"):
        gadget.ask.ways("nobody")


def test_questions_of_a_file_that_are_refused(campus: bonsainet.Network) -> None:
    with pytest.raises(bonsainet.WordsRefused) as found:
        campus.replies("! é\n10 count\n10 route nobody\n")
    assert (found.value.kind, found.value.line, found.value.text) == ("UnknownRouter", 3, "10 route nobody")
    with pytest.raises(bonsainet.WordsRefused):
        campus.replies("\ud800\n")
    with pytest.raises(bonsainet.WordsRefused, match="FileTooLong"):
        campus.replies("!\n" * 8_400_000)


def test_labels_that_are_refused(access: bonsainet.DestClass) -> None:
    labels = access.solutions()[0]
    with pytest.raises(bonsainet.WordsRefused) as found:
        access.check({**labels, "nobody": None})
    assert (found.value.kind, found.value.line, found.value.text) == ("UnknownRouter", 7, "nobody none")
    wrong: tuple[tuple[str, Any], ...] = (("core1 none\ncore2", None), (" ", None), ("core1", 5))
    for name, label in wrong:
        with pytest.raises(bonsainet.WordsRefused):
            access.check({**labels, name: label})
    for carry in (access.fold, access.lift):
        with pytest.raises((bonsainet.NotStable, bonsainet.WordsRefused)) as unstable:
            carry({**labels, "core1": None})
        assert not isinstance(unstable.value, bonsainet.NotStable) or unstable.value.router == "core1"
    assert not access.check({**labels, "core1": None})


def test_folders_that_are_refused(tmp_path: Path) -> None:
    (tmp_path / "empty").mkdir()
    (tmp_path / "decisions").write_text("drop everything\n")
    configs = FOLDER / "configs"
    for words in ((tmp_path / "empty",), (configs, tmp_path / "decisions"), (configs, None, False, ["x=y"])):
        with pytest.raises(bonsainet.FolderRefused) as found:
            bonsainet.Network.from_folder(*words)  # type: ignore[arg-type]
        assert found.value.reason
    with pytest.raises(bonsainet.ImportRefused) as left:
        bonsainet.Network.from_folder(configs)
    again = pickle.loads(pickle.dumps(left.value))
    assert str(again) == str(left.value) and again.report.refused == left.value.report.refused
    with pytest.raises(FileNotFoundError):
        bonsainet.Network.from_folder(tmp_path / "nothing")


def test_nobody_changes_an_answer_or_a_report() -> None:
    disagree = bonsainet.Network.from_file(INPUTS / "asking" / "disagree.cfg").class_of(1)
    answer = disagree.ask.hops(1, "x")
    assert answer.counterexample and hash(answer) == hash(disagree.ask.hops(1, "x"))
    assert len(answer.counterexample) == len(dict(answer.counterexample)) == 3 and "'x'" in repr(answer.counterexample)
    assert pickle.loads(pickle.dumps(answer)) == answer == copy.deepcopy(answer)
    report = bonsainet.Network.from_folder(FOLDER / "configs", FOLDER / "decisions").report
    assert report and isinstance(report.changes, tuple) and report.changes[0].place.line > 0
    for frozen in (answer, report, disagree, disagree.network, report.changes[0]):
        name = dataclasses.fields(frozen)[0].name
        with pytest.raises(dataclasses.FrozenInstanceError):
            setattr(frozen, name, None)


def test_canonical_networks_that_are_not_there() -> None:
    pool = (INPUTS / "two-routers.cfg").read_text().replace("1.1.1.1", "100.64.0.1")
    refused = [one for one in bonsainet.Network.from_text(pool).classes if "100.64." in one.prefixes[0]]
    for ask in (refused[0].compress, refused[0].canon):
        with pytest.raises(bonsainet.TextRefused) as found:
            ask()
        assert (found.value.kind, found.value.line is not None) == ("PoolOverlap", True)
    no_canon = bonsainet.Network.from_file(INPUTS / "asking" / "canon-not-all.cfg")
    kinds = []
    for one in no_canon.classes:
        try:
            one.canon()
        except bonsainet.TextRefused as fault:
            kinds.append((fault.kind, fault.line))
    assert ("NoCanon", None) in kinds
