"""Paths that pass two routers of one original number are told, and classes without one are counted."""
from __future__ import annotations

from bonsainet.configs.compressed import asked
from bonsainet.doubts.numbers import doubts_of_numbers
from bonsainet.doubts.tests.test_ties import text_of
from bonsainet.ask.program import Program


def told(text: str) -> list[tuple[str, str]]:
    network = asked(Program(), text.encode(), "F")
    return [(one.router, one.told) for one in doubts_of_numbers(network, [one.number for one in network.classes])]


def shared(text: str, *numbers: int) -> str:
    """The text with notes that these routers had the number 65500."""
    for number in numbers:
        text = text.replace(
            f"router bgp {number}\n", f"! assumed: AS number {number} for 65500 (--own-as)\nrouter bgp {number}\n"
        )
    return text


def test_no_path_passes_two() -> None:
    counted = "in 1 of 1 classes no path at rest passes two routers of one original number: these labels, with the original numbers, are stable there too (docs/use/IMPORT.md says what that shows)"
    assert told(shared(text_of({}, {}), 65002, 65003)) == [("", counted)]


def test_a_path_passes_two() -> None:
    found = told(shared(text_of({}, {}), 65001, 65002))
    assert found[0] == (
        "m1",
        "class 1: its path `bgp 100 path 65001 comms` passes two routers of AS 65500, the holder counted: the original network drops it",
    )
    assert found[1][1].startswith("in 0 of 1 classes")


def test_prepends_are_one_router() -> None:
    text = text_of(
        {"m1 u": "route-map LONGER out", "m2 u": "shutdown"},
        {"m1": "route-map LONGER permit 10\n set as-path prepend 65002 65002\n"},
    )
    assert [router for router, _ in told(shared(text, 65002, 65003))] == [""]


def test_nothing_is_said_where_no_number_was_given() -> None:
    assert told(text_of({}, {})) == []
