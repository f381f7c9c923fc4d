"""Classes of which bonsai-ask meets no tie are not asked by labels, ties that it alone names are doubts, and what it does
not say in its time is said."""
from __future__ import annotations

from collections.abc import Iterator
from pathlib import Path

import pytest

from bonsainet.ask.program import named
from bonsainet.asking.reports import Tie
from bonsainet.doubts import ties as of_ties
from bonsainet.doubts import untied
from bonsainet.doubts.tests.test_ties import SETS, text_of, ties
from bonsainet.doubts.untied import Met, ties_met
from bonsainet.tests.asking import tool

TIED = text_of({"m1 u": "route-map OUT out"}, {"m1": SETS})
EVEN = text_of({}, {})


@pytest.fixture(name="ask")
def _ask(tmp_path: Path, monkeypatch: pytest.MonkeyPatch) -> Iterator[Path]:
    """What stands for bonsai-ask: it writes the file `told`, and ends with 8."""
    stand_in = tmp_path / "bonsai-ask"
    stand_in.write_text(f"#!/bin/sh\n[ \"${{*#*hops 999999999 }}\" = '*' ] || exit 2\n. {tmp_path}/told\nexit 8\n")
    stand_in.chmod(0o755)
    monkeypatch.setenv("BONSAI_ASK_PROGRAM", str(stand_in))
    named.cache_clear()
    yield tmp_path / "told"
    named.cache_clear()


def writes(ask: Path, *lines: str) -> None:
    ask.write_text("".join(f"echo '{line}'\n" for line in lines))


def test_what_is_met(ask: Path) -> None:
    writes(
        ask, "class 1 yes", "class 2 yes tied r4 communities", "class 3 none tied a path", "class 4 no", "class 5 none"
    )
    met = ties_met(EVEN, [1, 2, 3, 4, 5])
    assert met == Met({1: None, 2: Tie("r4", "communities"), 3: Tie("a", "path")})
    assert [number for number in range(1, 7) if met.has_none(number)] == [1]


def test_a_class_without_a_tie_is_not_asked(ask: Path) -> None:
    writes(ask, "class 1 yes")
    assert ties(TIED) == []


def test_a_tie_that_bonsai_ask_alone_names(ask: Path) -> None:
    writes(ask, "class 1 yes tied u path")
    told = "class 1: bonsai-ask meets two routes of one preference and length here, which differ in path, and real routers may hold either"
    assert ties(EVEN) == [("u", told)]
    assert len(ties(TIED)) == 1


def test_what_is_not_said_in_time_is_said(ask: Path, monkeypatch: pytest.MonkeyPatch) -> None:
    monkeypatch.setattr(untied, "SECONDS", 0.2)
    ask.write_text("sleep 60\n")
    late, found = ties(TIED)
    assert late == ("", "class 1: bonsai-ask was ended, since it took more than 0.2 seconds")
    assert found[0] == "u" and "communities decided" in found[1]


def test_ranges_that_are_late_are_named() -> None:
    assert Met({}, ((3, 9), (12, 12))).told_of_late.startswith("classes 3 to 9, 12: ")


def test_routes_are_asked_of_few_classes(ask: Path, monkeypatch: pytest.MonkeyPatch) -> None:
    """What is not asked is said, with the tie that bonsai-ask names."""
    monkeypatch.setattr(of_ties, "MOST_CLASSES", 0)
    writes(ask, "class 1 yes tied u communities")
    told = "the routes were asked of 0 other classes, and bonsai-doubts --class asks for those of one"
    assert ties(TIED) == [("", f"class 1: bonsai-ask meets a tie at u, by communities; {told}")]


def test_both_ways_agree() -> None:
    """It says of two small networks what their labels say."""
    assert ties_met(EVEN, [1]) == Met({1: None}) and ties_met(TIED, [1]) == Met({1: Tie("u", "communities")})


@pytest.mark.parametrize("name, judges", [("EVEN", 2), ("TIED", 3)])
def test_the_programs_that_answered_are_named(name: str, judges: int) -> None:
    told = tool("bonsai-doubts", "-", raw=globals()[name].encode()).stdout.decode().splitlines()[-judges:]
    assert [line.split(",")[0] for line in told[1:]] == ["Judged by bonsai-ask", "Judged by bonsai-all"][: judges - 1]
    assert all("SHA-256" in line for line in told)
