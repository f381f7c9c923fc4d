"""The interfaces of VLANs on a switch, for random trunks and random lists of VLANs."""
from __future__ import annotations

import pytest
from hypothesis import given
from hypothesis import strategies as st

from bonsainet.importing.rules import vlans
from bonsainet.importing.tests.steps import folder_of, lines_left, refused_at, worked

ALL = set(range(1, 4095))
NO_VLANS: set[int] = set()
SOME = range(1, 9)
WORDS = st.sampled_from(["", "add", "remove", "except"])
CHANGES = st.tuples(WORDS, st.sets(st.sampled_from(SOME), min_size=1)) | st.tuples(
    st.sampled_from(["all", "none"]), st.just(NO_VLANS)
)
NAMED = "".join(f"interface Vlan{number}\n ip address 10.{number}.0.1 255.255.255.0\n" for number in SOME)


def written(numbers: set[int]) -> str:
    """A list of VLANs, with ranges of neighbouring ones."""
    firsts = sorted(number for number in numbers if number - 1 not in numbers)
    lasts = sorted(number for number in numbers if number + 1 not in numbers)
    return ",".join(f"{first}-{last}" if first < last else f"{first}" for first, last in zip(firsts, lasts))


def shut(*lines: str) -> set[int]:
    """The VLANs whose interfaces are shut on a switch with these lines."""
    (router,) = worked(folder_of("hostname a\n" + NAMED + "".join(lines)), vlans.below_vlans).routers
    return {
        int(stanza.head.words[1].removeprefix("Vlan"))
        for stanza in router.interfaces
        if stanza.head.words[1].startswith("Vlan") and any(line.words == ["shutdown"] for line in stanza.body)
    }


def trunk(changes: list[tuple[str, set[int]]]) -> tuple[str, set[int]]:
    """A trunk with such lines, and what it carries."""
    text, carried = "interface GigabitEthernet0/1\n switchport mode trunk\n", set(ALL)
    for word, numbers in changes:
        text += f" switchport trunk allowed vlan {word} {written(numbers)}\n"
        match word:
            case "add":
                carried |= numbers
            case "remove":
                carried -= numbers
            case "except" | "all":
                carried = ALL - numbers
            case _:
                carried = set(numbers)
    return text, carried


@given(st.lists(CHANGES, max_size=4), st.none() | st.sampled_from(SOME))
def test_an_interface_is_down_where_no_port_carries_its_vlan(
    changes: list[tuple[str, set[int]]], access: int | None
) -> None:
    text, carried = trunk(changes)
    port = (
        f"interface GigabitEthernet0/2\n switchport mode access\n switchport access vlan {access}\n" if access else ""
    )
    assert shut(text, port) == set(SOME) - carried - {access}


@given(st.sets(st.sampled_from(SOME)), st.sampled_from(["shutdown", "state suspend", "name users"]))
def test_an_interface_is_down_where_its_vlan_is_shut(numbers: set[int], line: str) -> None:
    lines = f"vlan {written(numbers)}\n {line}\n" if numbers else ""
    assert shut(lines) == (numbers if line != "name users" else set())


@pytest.mark.parametrize(
    "port, down",
    [
        (" shutdown\n", set(SOME)),
        (" channel-group 1 mode active\n", set(SOME)),
        (" no switchport\n", set(SOME)),
        (" switchport mode dynamic auto\n", set()),
        (" switchport mode access\n", set(SOME) - {1}),
        (" switchport mode access\n switchport access vlan 2\n switchport voice vlan 3\n", set(SOME) - {2, 3}),
        (" switchport mode access\n switchport access vlan name users\n", set()),
        (" switchport mode access\n switchport access vlan 2\n dot1x pae authenticator\n", set()),
    ],
)
def test_a_port(port: str, down: set[int]) -> None:
    # (a second port says that the router is a switch, and carries nothing)
    other = "interface GigabitEthernet0/2\n switchport mode trunk\n switchport trunk allowed vlan none\n"
    assert shut(other, "interface GigabitEthernet0/1\n", port) == down


def test_a_router_without_ports_of_a_switch_has_its_interfaces_up() -> None:
    assert shut("interface GigabitEthernet0/1\n no switchport\n") == set()


def test_an_interface_that_does_not_follow_its_vlan() -> None:
    text = "hostname a\ninterface Vlan2\n ip address 10.2.0.1 255.255.255.0\n no autostate\nvlan 2\n shutdown\n"
    found = worked(folder_of(text), vlans.below_vlans)
    assert [str(place) for place in refused_at(found)] == ["r0.cfg:4"] and not lines_left(found, "shutdown")[1:]


def test_a_vlan_that_no_line_makes_is_told() -> None:
    text = "hostname a\ninterface Vlan2\n ip address 10.2.0.1 255.255.255.0\nvtp mode off\nvlan 3\n"
    assert len(worked(folder_of(text), vlans.below_vlans).log.remarks) == 1
    for more in (text.replace("vlan 3", "vlan 2-3"), text.replace("off", "server"), text.replace("vlan 3\n", "")):
        assert not worked(folder_of(more), vlans.below_vlans).log.remarks
