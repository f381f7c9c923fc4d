"""Small texts for the tests of the second reader."""
from __future__ import annotations

import functools

import pytest

from hostile.asking import Asker
from hostile.judge import problem, reading
from hostile.judge.network import Bgp, Ospf, Refused, Router


def text(*lines: str) -> bytes:
    """Lines as a text."""
    return "".join(f"{line}\n" for line in lines).encode()


def router(name: str, *lines: str) -> list[str]:
    """The lines of a router."""
    return [f"hostname {name}", *lines, "end"]


def one(*lines: str) -> Router:
    """The one router of these lines."""
    return reading.read(text(*router("a", *lines)))[0]


def bgp_of(*lines: str) -> Bgp:
    """The BGP process of the one router of these lines."""
    found = one(*lines).bgp
    assert found is not None
    return found


def ospf_of(*lines: str) -> Ospf:
    """The OSPF process of the one router of these lines."""
    found = one(*lines).ospf
    assert found is not None
    return found


@functools.cache
def program() -> Asker:
    """The program, for all tests."""
    return Asker()


def refusal(data: bytes) -> tuple[int, str]:
    """The line and the kind of a text's refusal by the second reader, which the program has too."""
    with pytest.raises(Refused) as caught:
        reading.read(data)
    told = program().ask("classes", "F", texts={"F": data})
    assert (told.status, told.reason) == (1, f"refused: {caught.value}")
    return caught.value.line, caught.value.kind


def speaker(
    name: str, number: int, *lines: str, ports: dict[str, str] | None = None, lists: tuple[str, ...] = ()
) -> list[str]:
    """A BGP router: its interfaces by name with address and mask, the lines of its process, and what stands outside of
    it."""
    found = []
    for port, value in (ports or {}).items():
        found += [f"interface {port}", f" ip address {value}"]
    return router(name, *found, f"router bgp {number}", *lines, *lists)


def network(*routers: list[str]) -> problem.Network:
    """The network of these routers."""
    return problem.network(reading.read(text(*(line for lines in routers for line in lines))))


def pair(
    left: tuple[str, ...] = (),
    right: tuple[str, ...] = (),
    lists: tuple[str, ...] = (),
    more: tuple[str, ...] = (),
    sends: bool = True,
) -> problem.Network:
    """Two BGP routers over one link: b originates 10.0.0.0/24 and imports nothing. `left` and `right` are further lines
    of neighbours.

    `lists` stand behind the process of a, `more` behind that of b."""
    a = speaker(
        "a",
        65001,
        " neighbor 172.16.0.1 remote-as 65002",
        *left,
        ports={"Serial0": "172.16.0.0 255.255.255.254"},
        lists=lists,
    )
    sending = [" neighbor 172.16.0.0 send-community"] if sends else []
    b = speaker(
        "b",
        65002,
        " network 10.0.0.0 mask 255.255.255.0",
        " neighbor 172.16.0.0 remote-as 65001",
        *sending,
        *right,
        ports={"Serial0": "172.16.0.1 255.255.255.254", "Vlan1": "10.0.0.1 255.255.255.0"},
        lists=more,
    )
    return network(a, b)
