"""What both ends of an OSPF link must have alike, for all ways in which lines can say it."""
from __future__ import annotations

import pytest
from hypothesis import given
from hypothesis import strategies as st

from bonsainet.importing.rules import ospf_ends
from bonsainet.importing.tests.steps import folder_of, lines_left, refused_at, worked

# How a router checks the TTL: lines of the interface, lines of the process, and whether it does.
CHECKS = (
    ("", "", False),
    (" ip ospf ttl-security hops 3\n", "", True),
    ("", " ttl-security all-interfaces\n", True),
    (" ip ospf ttl-security disable\n", " ttl-security all-interfaces hops 2\n", False),
)
KINDS = st.tuples(
    st.sampled_from(["Vlan", "Loopback"]),
    st.integers(0, 1),
    st.booleans(),
    st.sampled_from(["", " null", " message-digest"]),
)


@given(st.lists(st.sampled_from(CHECKS), min_size=1, max_size=4))
def test_all_ends_of_a_wire_check_the_ttl_or_none(ends: list[tuple[str, str, bool]]) -> None:
    texts = [
        f"hostname r{at}\ninterface Vlan1\n ip address 10.0.0.{at + 1} 255.255.255.0\n{lines}router ospf 1\n{common} network 10.0.0.0 0.0.0.255 area 0\n"
        for at, (lines, common, _) in enumerate(ends)
    ]
    found = worked(folder_of(*texts), ospf_ends.ttl_security)
    checking = [f"r{at}.cfg" for at, (_, _, checks) in enumerate(ends) if checks]
    is_refused = 0 < len(checking) < len(ends)
    assert [place.file for place in refused_at(found)] == checking * is_refused
    left = lines_left(found, "ip", "ospf", "ttl-security") + lines_left(found, "ttl-security")
    assert len(left) == len(checking) * is_refused


@given(st.lists(KINDS, max_size=5), st.sampled_from(["", " message-digest"]))
def test_the_authentication_of_an_area_is_that_of_its_interfaces(
    interfaces: list[tuple[str, int, bool, str]], kind: str
) -> None:
    text, process = "hostname a\n", "router ospf 1\n"
    expected: list[str] = []
    for at, (type_, area, is_passive, own) in enumerate(interfaces):
        text += f"interface {type_}{at}\n ip address 10.{at}.0.1 255.255.255.0\n"
        text += f" ip ospf authentication{own}\n" if own else ""
        process += f" network 10.{at}.0.0 0.0.255.255 area 0.0.0.{area}\n"
        process += f" passive-interface {type_}{at}\n" if is_passive else ""
        if own:
            expected.append(f"ip ospf authentication{own}")
        elif area == 0 and not is_passive and type_ == "Vlan":
            expected.append(f"ip ospf authentication{kind}")
    found = worked(folder_of(text + process + f" area 0 authentication{kind}\n"), ospf_ends.area_authentication)
    assert lines_left(found, "ip", "ospf", "authentication") == expected
    assert not lines_left(found, "area") and not refused_at(found)


@pytest.mark.parametrize("line", ["area 0 authentication ipsec spi 256", "area 0 stub"])
def test_other_lines_of_an_area_stay(line: str) -> None:
    text = f"hostname a\ninterface Vlan1\n ip address 10.0.0.1 255.255.255.0\nrouter ospf 1\n network 10.0.0.0 0.0.0.255 area 0\n {line}\n"
    found = worked(folder_of(text), ospf_ends.area_authentication)
    assert lines_left(found, "area") == [line] and not lines_left(found, "ip", "ospf")
