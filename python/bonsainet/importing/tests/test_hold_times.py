"""A least hold time, for all ways in which both ends can give theirs."""
from __future__ import annotations

import dataclasses

import pytest
from hypothesis import given
from hypothesis import strategies as st

from bonsainet.importing.folder import Dialect
from bonsainet.importing.rules import hold_times
from bonsainet.importing.tests.steps import folder_of, lines_left, refused_at, worked
from bonsainet.importing.tests.test_refusals import A_BGP, B_BGP

DEFAULT = 180
TIMES = st.none() | st.tuples(st.sampled_from([0, 9, 30, 180, 240]), st.none() | st.sampled_from([3, 30, 181]))
Times = tuple[int, int | None] | None


@dataclasses.dataclass(frozen=True)
class End:
    """The hold times of a router, each with the least one: of the neighbour, and of the process."""

    own: Times
    common: Times

    def lines(self, peer: str) -> str:
        """The lines of the process."""
        heads = ((f"neighbor {peer} timers", self.own), ("timers bgp", self.common))
        return "".join(f" {head} 3 {hold[0]} {hold[1] or ''}".rstrip() + "\n" for head, hold in heads if hold)

    @property
    def offered(self) -> int:
        """The hold time that the other end is offered."""
        return next((hold for hold, _ in filter(None, (self.own, self.common))), DEFAULT)

    @property
    def least(self) -> int:
        """The least one that it takes, 0 where no line asks for one."""
        return next((least for _, least in filter(None, (self.own, self.common)) if least is not None), 0)


ENDS = st.builds(End, TIMES, TIMES)


@given(near=ENDS, far=ENDS)
def test_an_end_is_refused_where_the_other_one_offers_less(near: End, far: End) -> None:
    found = worked(folder_of(A_BGP + near.lines("172.16.0.2"), B_BGP + far.lines("172.16.0.1")), hold_times.judge)
    less = [far.offered < near.least, near.offered < far.least]
    assert [place.file for place in refused_at(found)] == [
        name for name, is_less in zip(("r0.cfg", "r1.cfg"), less) if is_less
    ]


@pytest.mark.parametrize("far", [" neighbor 172.16.0.1 shutdown\n", None])
def test_without_a_session_nothing_is_refused(far: str | None) -> None:
    texts = [A_BGP + " neighbor 172.16.0.2 timers 10 30 20\n", B_BGP + " timers bgp 3 9\n" + (far or "")]
    assert not refused_at(worked(folder_of(*texts[: 2 if far else 1]), hold_times.judge))
    assert refused_at(worked(folder_of(texts[0], B_BGP + " timers bgp 3 9\n"), hold_times.judge))


@pytest.mark.parametrize("least, hold, is_refused", [(9, 9, False), (10, 9, True)])
def test_a_line_of_frr_goes_where_all_ends_offer_enough(least: int, hold: int, is_refused: bool) -> None:
    texts = A_BGP + f" bgp minimum-holdtime {least}\n", B_BGP + f" timers bgp 3 {hold}\n"
    found = worked(folder_of(*texts, dialect=Dialect.FRR), hold_times.judge)
    assert lines_left(found, "bgp") == [f"bgp minimum-holdtime {least}"] * is_refused
    assert len(refused_at(found)) == is_refused
    assert [rule.name for rules in found.log.touched.values() for rule in rules] == ["hold-time"] * (not is_refused)
