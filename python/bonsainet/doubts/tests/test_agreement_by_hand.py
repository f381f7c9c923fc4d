"""Ends of a link that say different things, on FRR itself: run by hand as root with BONSAI_LAB=1. Of each comparison that
FRR can show one pair of ends forms no link, and the same pair that agrees forms one. Tags, PPP and access lists of IOS
have no counterpart in FRR's files."""
import os
import subprocess
import time
from pathlib import Path

import pytest

from bonsainet.corpus.run import on_frr
from bonsainet.importing.read import read_folder

pytestmark = pytest.mark.skipif(os.geteuid() != 0 or not os.environ.get("BONSAI_LAB"), reason="run by hand, as root")

HEAD = "frr version 8.4.4\nfrr defaults traditional\nhostname {0}\n"
OSPF = "interface eth0\n ip address 10.0.0.{1}/30\n ip ospf hello-interval 1\n ip ospf dead-interval 4\n{2}exit\nrouter ospf\n ospf router-id 1.1.1.{1}\n network 10.0.0.0/30 area 0\nexit\n"
BGP = "interface eth0\n ip address 10.0.0.{1}/30\nexit\nrouter bgp 6500{1}\n no bgp ebgp-requires-policy\n neighbor 10.0.0.{2} remote-as 6500{2}\n neighbor 10.0.0.{2} timers 1 3\n neighbor 10.0.0.{2} timers connect 1\n{3}exit\n"
DIGEST = " ip ospf authentication message-digest\n ip ospf message-digest-key {0} md5 {1}\n"
PLAIN = " ip ospf authentication\n ip ospf authentication-key {0}\n"
AREA = "exit\nrouter ospf\n area 0 authentication message-digest\nexit\ninterface eth0\n ip ospf message-digest-key 1 md5 one\n"
IDENTIFIER = " bgp router-id 192.0.2.1\n"
LEAST = " bgp minimum-holdtime {0}\n"
CASES = {
    "hello intervals": ("ospf", " ip ospf hello-interval 1\n", " ip ospf hello-interval 2\n", 0, False),
    "dead intervals": ("ospf", "", " ip ospf dead-interval 5\n", 0, False),
    "authentication at one end": ("ospf", PLAIN.format("one"), "", 0, False),
    "plain keys": ("ospf", PLAIN.format("one"), PLAIN.format("two"), 0, False),
    "numbers of keys": ("ospf", DIGEST.format(1, "one"), DIGEST.format(2, "one"), 0, False),
    "keys of message-digest": ("ospf", DIGEST.format(1, "one"), DIGEST.format(1, "two"), 0, False),
    "equal keys": ("ospf", DIGEST.format(1, "one"), DIGEST.format(1, "one"), 0, True),
    "authentication of the area at one end": ("ospf", AREA, "", 0, False),
    "authentication of the area at both ends": ("ospf", AREA, AREA, 0, True),
    "authentication of the area and of an interface": ("ospf", AREA, DIGEST.format(1, "one"), 0, True),
    "a key at one end": ("ospf", " ip ospf authentication message-digest\n", DIGEST.format(1, "one"), 0, False),
    "a plain key at one end": ("ospf", " ip ospf authentication\n", PLAIN.format("one"), 0, False),
    "MTU": ("ospf", "", "", 1400, False),
    "OSPF that agrees": ("ospf", "", "", 0, True),
    "passwords": ("bgp", " neighbor 10.0.0.2 password one\n", " neighbor 10.0.0.1 password two\n", 0, False),
    "password at one end": ("bgp", " neighbor 10.0.0.2 password one\n", "", 0, False),
    "equal passwords": ("bgp", " neighbor 10.0.0.2 password one\n", " neighbor 10.0.0.1 password one\n", 0, True),
    "both passive": ("bgp", " neighbor 10.0.0.2 passive\n", " neighbor 10.0.0.1 passive\n", 0, False),
    "a hold time that is too short": ("bgp", LEAST.format(30), "", 0, False),
    "a hold time that is long enough": ("bgp", LEAST.format(3), "", 0, True),
    "one identifier": ("bgp", IDENTIFIER, IDENTIFIER, 0, True),
    "one passive": ("bgp", " neighbor 10.0.0.2 passive\n", "", 0, True),
}


def is_up(room: Path, protocol: str) -> bool:
    """Whether router a has a full adjacency, or a session that is established."""
    words = "show ip ospf neighbor" if protocol == "ospf" else "show bgp ipv4 unicast summary"
    told = subprocess.run(
        ["vtysh", "--vty_socket", str(room / "a"), "-c", words], capture_output=True, text=True, check=False
    ).stdout
    line = next((line for line in told.splitlines() if "10.0.0.2" in line), "")
    return "Full" in line if protocol == "ospf" else bool(line) and line.split()[9].isdigit()


@pytest.mark.parametrize("protocol, near, far, mtu, forms", CASES.values(), ids=CASES)
def test_links(protocol: str, near: str, far: str, mtu: int, forms: bool, tmp_path: Path) -> None:
    for name, own, other, lines in (("a", 1, 2, near), ("b", 2, 1, far)):
        text = OSPF.format(name, own, lines) if protocol == "ospf" else BGP.format(name, own, other, lines)
        (tmp_path / name).mkdir()
        (tmp_path / name / "frr.conf").write_text(HEAD.format(name) + text)
    with on_frr(tmp_path, read_folder(str(tmp_path)).routers) as (room, spaces):
        if mtu:
            subprocess.run(["ip", "-n", spaces["b"], "link", "set", "eth0", "mtu", str(mtu)], check=True)
        end = time.monotonic() + 25
        while not is_up(room, protocol) and time.monotonic() < end:
            time.sleep(1)
        assert is_up(room, protocol) is forms
