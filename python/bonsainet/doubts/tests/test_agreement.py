"""Ends of a link that say different things in lines that Bonsai passes over are doubted, and ends that agree are
not."""
from __future__ import annotations

import pytest

from bonsainet.doubts.agreement import doubts_of_agreement
from bonsainet.configs.network import read_network

OSPF = "hostname {0}\ninterface Serial0/0\n ip address 10.0.0.{1} 255.255.255.252\n{2}router ospf 1\n network 10.0.0.0 0.0.255.255 area 0\nend\n"
BGP = "hostname {0}\ninterface Serial0/0\n ip address 10.0.0.{1} 255.255.255.252\nrouter bgp {1}\n neighbor 10.0.0.{2} remote-as {2}\n{3}end\n"


def found(text: str) -> list[tuple[str, str, int, str]]:
    doubts = doubts_of_agreement(read_network(text, "F"))
    return [(one.sort, one.router, one.place.line, one.told) for one in doubts if one.place]


@pytest.mark.parametrize(
    "near, far, told",
    [
        (
            " ip ospf hello-interval 5\n ip ospf dead-interval 40\n",
            "",
            "the hello interval is 5 s here and 10 s on Serial0/0 of b",
        ),
        (" ip ospf dead-interval 20\n", "", "the dead interval is 20 s here and 40 s on Serial0/0 of b"),
        (" ip ospf dead-interval minimal hello-multiplier 4\n", " ip ospf dead-interval 1\n", None),
        (" ip ospf hello-interval 10\n", "", None),
        (
            " ip ospf authentication message-digest\n",
            "",
            "the authentication is message-digest here and none on Serial0/0 of b",
        ),
        (" ip ospf authentication\n", " ip ospf authentication\n", None),
        (" ip ospf authentication null\n", "", None),
        (" mtu 9000\n", "", "the MTU is 9000 here and 1500 on Serial0/0 of b"),
        (" mtu 9000\n ip mtu 1500\n", "", None),
    ],
)
def test_ospf(near: str, far: str, told: str | None) -> None:
    text = OSPF.format("a", 1, near) + OSPF.format("b", 2, far)
    assert found(text) == ([("no-agreement", "a", 4, f"{told}: real routers form no link")] if told else [])


def test_a_hello_interval_alone_changes_the_dead_interval_too() -> None:
    text = OSPF.format("a", 1, "") + OSPF.format("b", 2, " ip ospf hello-interval 5\n")
    assert [(router, told.split(" is ")[0]) for _, router, _, told in found(text)] == [
        ("b", "the hello interval"),
        ("b", "the dead interval"),
    ]


def test_a_password_on_one_end_alone() -> None:
    near, far = BGP.format("a", 1, 2, " neighbor 10.0.0.2 password secret\n"), BGP.format("b", 2, 1, "")
    assert found(near + far) == [
        ("no-agreement", "a", 6, "a password is given here and not given on Serial0/0 of b: real routers form no link")
    ]
    assert found(near + BGP.format("b", 2, 1, " neighbor 10.0.0.1 password secret\n")) == []


TYPE_7 = " neighbor 10.0.0.{0} password 7 {1}\n"
CISCO_2, CISCO_8 = "02050D480809", "0822455D0A16"


@pytest.mark.parametrize(
    "near, far, told",
    [
        (
            " neighbor 10.0.0.2 transport connection-mode passive\n",
            " neighbor 10.0.0.1 transport connection-mode passive\n",
            "this end waits for the other one, and so does Serial0/0 of a",
        ),
        (" neighbor 10.0.0.2 transport connection-mode passive\n", "", None),
        (
            TYPE_7.format(2, CISCO_8),
            TYPE_7.format(1, CISCO_8 + "6075"),
            "the password is another one than that on Serial0/0 of a",
        ),
        (TYPE_7.format(2, CISCO_8), TYPE_7.format(1, CISCO_2), None),
        (TYPE_7.format(2, CISCO_8), " neighbor 10.0.0.1 password cisco\n", None),
        (TYPE_7.format(2, CISCO_8), " neighbor 10.0.0.1 password 6 AAAA\n", None),
    ],
)
def test_sessions(near: str, far: str, told: str | None) -> None:
    ends = found(BGP.format("a", 1, 2, near) + BGP.format("b", 2, 1, far))
    assert [one[3] for one in ends] == ([f"{told}: real routers form no link"] if told else [])


def test_no_secret_is_told() -> None:
    text = BGP.format("a", 1, 2, " neighbor 10.0.0.2 password one\n") + BGP.format(
        "b", 2, 1, " neighbor 10.0.0.1 password two\n"
    )
    assert [one.text for one in doubts_of_agreement(read_network(text, "F"))] == ["neighbor 10.0.0.1 password ..."]


@pytest.mark.parametrize(
    "near, far, told",
    [
        (
            " ip ospf message-digest-key 1 md5 one\n",
            " ip ospf message-digest-key 2 md5 one\n",
            "the identifier or the key of message-digest is another one than that on Serial0/0 of a",
        ),
        (
            " ip ospf message-digest-key 1 md5 one\n ip ospf message-digest-key 2 md5 two\n",
            " ip ospf message-digest-key 2 md5 two\n",
            None,
        ),
        (f" ip ospf message-digest-key 1 md5 7 {CISCO_8}\n", f" ip ospf message-digest-key 1 md5 7 {CISCO_2}\n", None),
        (
            " ip ospf authentication-key one\n",
            " ip ospf authentication-key two\n",
            "the key is another one than that on Serial0/0 of a",
        ),
        (
            " encapsulation dot1Q 100\n",
            " encapsulation dot1Q 200\n",
            "the tag of frames is 200 here and 100 on Serial0/0 of a",
        ),
        (" encapsulation dot1Q 100\n", " encapsulation dot1Q 100\n", None),
        (" encapsulation dot1Q 100\n", "", None),
        (
            " encapsulation dot1Q 100 native\n",
            " encapsulation dot1Q 100\n",
            "the tag of frames is 100 here and 100 native on Serial0/0 of a",
        ),
        (" speed 100\n", " speed 1000\n", "the speed is 1000 Mbit/s here and 100 Mbit/s on Serial0/0 of a"),
        (" speed 100\n", " speed auto\n", None),
        (" speed 100\n", " speed auto 10 100\n", None),
        (
            " ip ospf authentication message-digest\n",
            " ip ospf authentication message-digest\n ip ospf message-digest-key 1 md5 one\n",
            "a key is given here and none on Serial0/0 of a",
        ),
        (" ip ospf authentication key-chain A\n", " ip ospf authentication key-chain B\n", None),
        (" encapsulation ppp\n", "", "the encapsulation is ppp here and hdlc on Serial0/0 of b"),
        (" encapsulation ppp\n", " encapsulation ppp\n", None),
        (" encapsulation hdlc\n", "", None),
    ],
)
def test_links(near: str, far: str, told: str | None) -> None:
    ends = found(OSPF.format("a", 1, near) + OSPF.format("b", 2, far))
    assert [one[3] for one in ends] == ([f"{told}: real routers form no link"] if told else [])


@pytest.mark.parametrize(
    "near, far, is_doubted",
    [
        ("active", "passive", False),
        ("passive", "passive", True),
        ("on", "active", True),
        ("on", "on", False),
        ("auto", "desirable", False),
        ("auto", "auto", True),
        ("active", "desirable", True),
    ],
)
def test_bundles(near: str, far: str, is_doubted: bool) -> None:
    member = "interface GigabitEthernet1/1\n channel-group 1 mode {0}\ninterface Port-channel1\n ip ospf cost 5\n"
    texts = [
        form.replace("interface Serial0/0\n", member.format(mode))
        for form, mode in ((OSPF.format("a", 1, ""), near), (OSPF.format("b", 2, ""), far))
    ]
    told = f"its ports have the mode {far} here and {near} at Port-channel1 of a: they make no bundle, and real routers form no link"
    assert [one[3] for one in found("".join(texts))] == ([told] if is_doubted else [])


def test_a_subinterface_has_the_mtu_of_its_carrier() -> None:
    carried = "interface Serial0/0\n mtu 9000\ninterface Serial0/0.10\n encapsulation dot1Q 10\n"
    near = OSPF.format("a", 1, "").replace("interface Serial0/0\n", carried)
    assert [one[3].partition(":")[0] for one in found(near + OSPF.format("b", 2, ""))] == [
        "the MTU is 9000 here and 1500 on Serial0/0 of b"
    ]
    far = OSPF.format("b", 2, "").replace("interface Serial0/0\n", carried)
    assert not found(near + far)


NO_BGP = "ip access-list extended F\n deny tcp any any eq bgp\n deny tcp any eq bgp any\n permit ip any any\n"
ONE_WAY = "ip access-list extended F\n deny tcp any any eq bgp\n permit ip any any\n"
NO_OSPF = "access-list 101 deny ospf any any\naccess-list 101 permit ip any any\n"
BY_SOURCE = "access-list 10 deny host 10.0.0.2\naccess-list 10 permit any\n"


@pytest.mark.parametrize(
    "form, name, lines, told",
    [
        (BGP, "F", NO_BGP, "BGP"),
        (BGP, "F", ONE_WAY, None),
        (BGP, "101", NO_OSPF, None),
        (BGP, "10", BY_SOURCE, "BGP"),
        (BGP, "F", "ip access-list extended F\n permit tcp host 10.0.0.2 host 10.0.0.1 eq 22\n", "BGP"),
        (BGP, "F", "ip access-list extended F\n permit object-group A any any\n", None),
        (BGP, "NOT-DEFINED", "", None),
        (OSPF, "101", NO_OSPF, "OSPF"),
        (OSPF, "F", NO_BGP, None),
        (OSPF, "10", BY_SOURCE.replace("10.0.0.2", "10.0.0.9"), None),
    ],
)
def test_access_lists_on_a_link(form: str, name: str, lines: str, told: str | None) -> None:
    group = f" ip access-group {name} in\n"
    if form is BGP:
        near = BGP.format("a", 1, 2, "").replace("255.252\n", f"255.252\n{group}").replace("end\n", f"{lines}end\n")
        text = near + BGP.format("b", 2, 1, "")
    else:
        text = OSPF.format("a", 1, group).replace("end\n", f"{lines}end\n") + OSPF.format("b", 2, "")
    wanted = [f"this access list drops {told} from Serial0/0 of b: real routers form no link"] if told else []
    assert [one[3] for one in found(text)] == wanted
