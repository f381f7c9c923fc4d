"""Identifiers of routers: where they come from, and what two of one kind do."""
from __future__ import annotations

from ipaddress import IPv4Address

import pytest
from hypothesis import given
from hypothesis import strategies as st

from bonsainet.importing.folder import Dialect
from bonsainet.importing.rules import identifiers
from bonsainet.importing.tests.steps import folder_of, lines_left, refused_at, worked
from bonsainet.importing.tests.test_refusals import A_BGP, A_OSPF, B_BGP, B_OSPF

INTERFACES = st.lists(
    st.tuples(st.sampled_from(["Loopback", "Vlan"]), st.integers(1, 250), st.booleans()),
    max_size=5,
    unique_by=lambda one: one[1],
)


def address(number: int) -> IPv4Address:
    """The address of an interface: of two numbers that of the higher one need not be higher."""
    return IPv4Address(f"10.{number * 37 % 251}.0.1")


@given(INTERFACES)
def test_it_is_the_highest_address_of_a_loopback_or_else_of_any(interfaces: list[tuple[str, int, bool]]) -> None:
    lines = (
        f"interface {kind}{number}\n ip address {address(number)} 255.255.255.0\n{' shutdown' if is_shut else ' !'}\n"
        for kind, number, is_shut in interfaces
    )
    (router,) = worked(folder_of("hostname a\n" + "".join(lines)), identifiers.derive).routers
    up = [(kind, address(number)) for kind, number, is_shut in interfaces if not is_shut]
    loopbacks = [found for kind, found in up if kind == "Loopback"]
    assert router.highest == max(loopbacks or [found for _, found in up], default=None)


@pytest.mark.parametrize("dialect, highest", [(Dialect.IOS, "10.1.0.1"), (Dialect.FRR, "10.9.0.1")])
def test_frr_takes_secondary_addresses_too(dialect: Dialect, highest: str) -> None:
    text = "hostname a\ninterface Vlan1\n ip address 10.1.0.1 255.255.255.0\n ip address 10.9.0.1 255.255.255.0 secondary\n"
    assert str(worked(folder_of(text, dialect=dialect), identifiers.derive).routers[0].highest) == highest


@pytest.mark.parametrize(
    "near, far, is_refused",
    [
        (" router-id 192.0.2.1\n", " router-id 192.0.2.1\n", True),
        (" router-id 192.0.2.1\n", " router-id 192.0.2.2\n", False),
        (" router-id 172.16.0.2\n", "", True),
        (" router-id 10.2.0.1\n", "", False),
        ("", " router-id 172.16.0.1\n", True),
    ],
)
def test_ospf_has_one_router_for_each_identifier(near: str, far: str, is_refused: bool) -> None:
    found = worked(folder_of(A_OSPF + near, B_OSPF + far), identifiers.derive, identifiers.of_ospf)
    assert [place.file for place in refused_at(found)] == ["r1.cfg"] * is_refused


@pytest.mark.parametrize("far, is_refused", [("192.0.2.1", True), ("192.0.2.2", False)])
def test_an_identifier_of_frr_is_that_of_each_process(far: str, is_refused: bool) -> None:
    texts = A_OSPF + "ip router-id 192.0.2.1\n", B_OSPF + f" router-id {far}\nip router-id 192.0.2.9\n"
    found = worked(folder_of(*texts, dialect=Dialect.FRR), identifiers.of_ospf)
    assert len(refused_at(found)) == is_refused and not lines_left(found, "ip", "router-id")


@pytest.mark.parametrize(
    "near, far, files",
    [
        (" bgp router-id 192.0.2.1\n", " bgp router-id 192.0.2.1\n", ["r0.cfg", "r1.cfg"]),
        (" bgp router-id 192.0.2.1\n", " bgp router-id 192.0.2.2\n", []),
        (" bgp router-id 192.0.2.1\n", " bgp router-id 192.0.2.1\n neighbor 172.16.0.1 shutdown\n", []),
        ("", " bgp router-id 172.16.0.1\n", ["r0.cfg", "r1.cfg"]),
    ],
)
@pytest.mark.parametrize("dialect", Dialect)
def test_ios_closes_a_session_with_its_own_identifier(near: str, far: str, files: list[str], dialect: Dialect) -> None:
    found = worked(folder_of(A_BGP + near, B_BGP + far, dialect=dialect), identifiers.derive, identifiers.of_bgp)
    assert [place.file for place in refused_at(found)] == (files if dialect is Dialect.IOS else [])
