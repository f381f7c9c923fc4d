"""What the command line asks of the rules."""
from __future__ import annotations

import dataclasses
from ipaddress import IPv4Address, IPv4Network

from bonsainet.cli.command_line import Refused


@dataclasses.dataclass(frozen=True)
class Options:
    """Whether routers get AS numbers of their own, which stubs are added, for a peer's address its prefixes, whether
    secrets are left out, and the one area of OSPF that is kept."""

    own_as: bool = False
    stubs: tuple[tuple[IPv4Address, tuple[IPv4Network, ...]], ...] = ()
    scrub: bool = False
    area: int | None = None

    @staticmethod
    def of(own_as: bool, stubs: list[str], scrub: bool = False, area: str | None = None) -> Options:
        """The options of words `PEER=PREFIX,..`, and an area as a number or an address."""
        return Options(own_as, tuple(_stub(word) for word in stubs), scrub, None if area is None else _area(area))


def _stub(word: str) -> tuple[IPv4Address, tuple[IPv4Network, ...]]:
    peer, sign, prefixes = word.partition("=")
    try:
        return IPv4Address(peer), tuple(IPv4Network(prefix) for prefix in prefixes.split(",") if sign)
    except ValueError as fault:
        raise Refused(f"--stub {word}: {fault}") from fault


def _area(word: str) -> int:
    try:
        found = int(word) if word.isdigit() else int(IPv4Address(word))
    except ValueError as fault:
        raise Refused(f"--area {word}: not the number of an area") from fault
    if found > 0xFFFFFFFF:
        raise Refused(f"--area {word}: not the number of an area")
    return found
