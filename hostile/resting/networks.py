"""Small networks of BGP of which it is known how they can rest: as many solutions as one likes, none, ties."""

from __future__ import annotations

import dataclasses

from bonsainet.nets.preferring import Of, Session, internet_text, text_of

PREFIX = "10.0.0.0/24"
LOW, CUSTOMER = 50, 200


@dataclasses.dataclass(frozen=True)
class Made:
    """A network: its name, where it is from, its text, and how many stable solutions it has where that is known."""

    name: str
    source: str
    text: str
    count: int | None


def _prefers(*pairs: tuple[int, int]) -> Of:
    """Each router of a pair prefers what comes from the other one."""

    def of(place: int, other: int) -> Session:
        return Session([["permit", f"set local-preference {CUSTOMER}"]] if (place, other) in pairs else [])

    return of


def _prefers_direct(*pairs: tuple[int, int]) -> Of:
    """The same, where a route that was preferred once is not passed on: one from the origin alone is preferred."""

    def of(place: int, other: int) -> Session:
        if (place, other) not in pairs:
            return Session()
        taken = ["permit", f"set local-preference {CUSTOMER}", "set community 9:9 additive"]
        return Session([["deny", "match community FAR"], taken])

    return of


FAR = ["ip community-list standard FAR permit 9:9"]


def wedgie() -> str:
    """r0 is a customer of r1, as a backup, and of r3; r1 is a customer of r2; r2 and r3 are peers."""

    def of(place: int, other: int) -> Session:
        match place, other:
            case 0, 1:
                return Session(out=[["permit", "set community 65002:50"]])
            case 1, 0:
                return Session([["permit", "match community BACKUP", f"set local-preference {LOW}"], ["permit"]])
            case 2, 1:
                return Session([["permit", f"set local-preference {CUSTOMER}"]])
            case 3, 0:
                return Session([["permit", f"set local-preference {CUSTOMER}"]])
        return Session()

    return text_of([(0, 1), (0, 3), (1, 2), (2, 3)], of, ["ip community-list standard BACKUP permit 65002:50"])


def tied() -> str:
    """Two ways of the same length to r3, whose communities differ: a device decides by age or identifiers."""

    def of(place: int, other: int) -> Session:
        return Session(out=[["permit", f"set community {place}:{place}"]] if other == 3 else [])

    return text_of([(0, 1), (0, 2), (1, 3), (2, 3), (3, 4)], of, [])


def networks() -> list[Made]:
    """The ten networks."""
    both = _prefers((1, 2), (2, 1))
    pairs = _prefers((1, 2), (2, 1), (3, 4), (4, 3))
    ring = [(0, 1), (0, 2), (0, 3), (1, 2), (2, 3), (3, 1)]
    griffin = "Griffin, Shepherd and Wilfong 2002"
    return [
        Made("disagree", griffin, text_of([(0, 1), (0, 2), (1, 2)], both, []), 2),
        Made("bad gadget", griffin, text_of(ring, _prefers_direct((1, 2), (2, 3), (3, 1)), FAR), 0),
        Made("good gadget", griffin, text_of(ring, _prefers_direct((1, 2), (2, 3)), FAR), None),
        Made("wedgie", "RFC 4264", wedgie(), 2),
        Made(
            "two pairs", "two times disagree", text_of([(0, 1), (0, 2), (1, 2), (0, 3), (0, 4), (3, 4)], pairs, []), 4
        ),
        Made("parallel", "disagree with two links", text_of([(0, 1), (0, 2), (1, 2), (1, 2)], both, []), 2),
        Made("tied", "a diamond", tied(), 1),
        Made("internet 1", "Gao and Rexford 2001", internet_text(1, 8), 1),
        Made("internet 2", "Gao and Rexford 2001", internet_text(2, 10), 1),
        Made(
            "ring",
            "six routers, two ways round",
            text_of([(0, 1), (1, 2), (2, 3), (3, 4), (4, 5), (5, 0)], _prefers(), []),
            1,
        ),
    ]
