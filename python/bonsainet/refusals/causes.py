"""Which refusal is the consequence of a line that was set aside: one that gave, hid or enclosed what the refused line
says."""
from __future__ import annotations

from collections.abc import Sequence
from ipaddress import IPv4Interface
from typing import Protocol

from bonsainet.importing.folder import interface_address
from bonsainet.refusals.layout import openers

ADDRESSES = ("SharedAddress", "OverlappingInterfaces", "LoopbackMask", "NoCost")
BLOCKS = {
    ("address-family",): "exit-address-family",
    ("template", "peer-session"): "exit-peer-session",
    ("template", "peer-policy"): "exit-peer-policy",
}
IN_PROCESS = (["address-family", "ipv4"], ["address-family", "ipv4", "unicast"])


class Refused(Protocol):
    """A refusal at the place of a line."""

    @property
    def place(self) -> int:
        """The place, from 0."""


def cause_of(kind: str, texts: list[str], place: int, refused: Sequence[Refused]) -> int | None:
    """The place of the first refused line without which there would be no such refusal, or none."""
    return next(
        (other.place for other in refused if other.place != place and _is_cause(kind, texts, place, other.place)), None
    )


def _is_cause(kind: str, texts: list[str], place: int, other: int) -> bool:
    """Whether the other line gives, hides or encloses what the refused one says."""
    words, given = texts[place].split(), texts[other].split()
    if _encloses(kind, texts, place, other) or _joins(kind, texts, place, other):
        return True
    match kind:
        case "Misplaced":
            return (
                words[:1] == ["neighbor"] and given[:2] == words[:2] and given[2:3] in (["remote-as"], ["peer-group"])
            )
        case "NoHostname":
            return given[:1] == ["hostname"]
        case "UndefinedMap":
            return given[:1] == ["route-map"] and given[1:2] == words[3:4]
        case "UndefinedList":
            return bool(set(_list_names(given)) & set(words[2:]))
        case "PrependForm":
            return given[:2] == ["router", "bgp"]
        case _:
            return kind in ADDRESSES and _hides(kind, texts, place, other)


def _encloses(kind: str, texts: list[str], place: int, other: int) -> bool:
    """Whether the other line opens the block of a process in which the refused one stands, or which it closes.

    The lines of an IPv4 unicast family are judged as those of the process; except for a second value they are refused for
    themselves.
    """
    given = texts[other].split()
    close = next((word for head, word in BLOCKS.items() if tuple(given[: len(head)]) == head), None)
    if close is None or other > place or openers(texts)[place] != openers(texts)[other]:
        return False
    if any(text.split()[:1] == [close] for text in texts[other + 1 : place]):
        return False
    return given not in IN_PROCESS or kind in ("Repeated", "Misplaced") or texts[place].split()[:1] == [close]


def _joins(kind: str, texts: list[str], place: int, other: int) -> bool:
    """Whether the other line is a second `hostname` above the refused one: an `end` lacks, so two routers are judged as
    one, and what both have clashes."""
    if kind not in ("Repeated", "OverlappingInterfaces") or other >= place or texts[other].split()[:1] != ["hostname"]:
        return False
    return any(text.split()[:1] == ["hostname"] for text in texts[:other])


def _hides(kind: str, texts: list[str], place: int, other: int) -> bool:
    """Whether the other line takes an interface out of the global table, shuts it or gives its cost: this one, or one
    with a subnet that meets its own."""
    given = texts[other].split()
    is_hidden = given[:1] in (["shutdown"], ["vrf"]) or given[:2] == ["ip", "vrf"]
    above = openers(texts)
    if above[place] == above[other]:
        return is_hidden or kind == "NoCost" and given[:3] == ["ip", "ospf", "cost"]
    own = _address(texts[place])
    those = [_address(text) for text, opener in zip(texts, above) if opener is not None and opener == above[other]]
    return is_hidden and own is not None and any(far.network.overlaps(own.network) for far in those if far)


def _address(text: str) -> IPv4Interface | None:
    words = text.split()
    return interface_address(words[2], words[3]) if words[:2] == ["ip", "address"] and len(words) == 4 else None


def _list_names(words: list[str]) -> list[str]:
    """The name of the list that a line defines."""
    words = words[1:] if words[:1] in (["ip"], ["bgp"]) else []
    if words[:1] == ["prefix-list"]:
        return words[1:2]
    if words[:1] == ["community-list"]:
        return words[2:3] if words[1:2] in (["standard"], ["expanded"]) else words[1:2]
    return []
