"""What a rule cannot write is refused by name; what a rule may not write is never written in silence."""
from __future__ import annotations

import json
import os
import subprocess
from pathlib import Path

import pytest

from bonsainet.cli.command_line import Refused
from bonsainet.importing.decisions import read_decisions
from bonsainet.importing.report import Report
from bonsainet.importing.rules.options import Options
from bonsainet.importing.tool import import_folder
from bonsainet.ask.program import TOP, Program
from bonsainet.ask.where import without_notices
from bonsainet.configs.text import text_of

A = "hostname a\ninterface GigabitEthernet0/0\n ip address 172.16.0.1 255.255.255.252\ninterface Vlan1\n ip address 10.1.0.1 255.255.255.0\n"
B = "hostname b\ninterface GigabitEthernet0/0\n ip address 172.16.0.2 255.255.255.252\ninterface Vlan1\n ip address 10.2.0.1 255.255.255.0\n"
A_BGP = A + "router bgp 65001\n network 10.1.0.0 mask 255.255.255.0\n neighbor 172.16.0.2 remote-as 65002\n"
B_BGP = B + "router bgp 65002\n network 10.2.0.0 mask 255.255.255.0\n neighbor 172.16.0.1 remote-as 65001\n"
A_OSPF = A + "router ospf 1\n network 0.0.0.0 255.255.255.255 area 0\n"
B_OSPF = B + "router ospf 1\n network 0.0.0.0 255.255.255.255 area 0\n"


def report(
    tmp_path: Path, program: Program, texts: tuple[str, ...], decisions: str = "", options: Options | None = None
) -> Report:
    """The report on a folder with these texts."""
    for number, text in enumerate(texts):
        (tmp_path / f"r{number}.cfg").write_bytes((text + "end\n").encode("utf-8", "surrogateescape"))
    return import_folder(str(tmp_path), program, read_decisions(decisions, "decisions"), options)


def refused(found: Report) -> set[str]:
    """The names of the refusals."""
    return {one.name for one in found.folder.log.refusals}


BGP = {
    "internal-peer": (A_BGP.replace("65002", "65001"), B_BGP.replace("bgp 65002", "bgp 65001")),
    "shared-as": (A_BGP, B_BGP, "hostname c\nrouter bgp 65002\n"),
    "multihop": (
        A_BGP + " neighbor 10.2.0.1 remote-as 65002\n neighbor 10.2.0.1 ebgp-multihop 2\n",
        B_BGP + " neighbor 10.1.0.1 remote-as 65001\n neighbor 10.1.0.1 ebgp-multihop 2\n",
    ),
    "mask-mismatch": (A_BGP, B_BGP.replace("172.16.0.2 255.255.255.252", "172.16.0.2 255.255.255.248")),
    "two-byte-as": (
        A_BGP.replace("65002", "70000") + " neighbor 172.16.0.2 dont-capability-negotiate\n",
        B_BGP.replace("bgp 65002", "bgp 70000"),
    ),
    "maximum-prefix": (A_BGP + " neighbor 172.16.0.2 maximum-prefix 2\n", B_BGP),
    "passive-end": (A_BGP + " neighbor 172.16.0.2 passive\n", B_BGP + " neighbor 172.16.0.1 passive\n"),
    "ipv6-peer": (A_BGP + " neighbor 2001:db8::2 remote-as 65002\n", B_BGP),
    "labeled-unicast": (
        A_BGP + " address-family ipv4 labeled-unicast\n  neighbor 172.16.0.2 activate\n exit-address-family\n",
        B_BGP,
    ),
    "vrf-leak": (A_BGP + " import vrf RED\n", B_BGP),
    "peer-group": (A_BGP + " neighbor 172.16.0.2 peer-group NONE\n", B_BGP),
    "peer-template": (A_BGP + " neighbor 172.16.0.2 inherit peer-policy NONE\n", B_BGP),
    "redistribute": (
        A_BGP + " redistribute connected\n",
        B_BGP.replace("10.2.0", "10.3.0") + " network 172.16.0.0 mask 255.255.255.252\n",
    ),
    "network": (A_BGP + " network 10.0.0.0 mask 255.0.0.0\nip route 10.0.0.0 255.0.0.0 Null0\n", B_BGP),
    "access-list": (
        A_BGP + " neighbor 172.16.0.2 distribute-list 100 in\naccess-list 100 permit tcp any any eq 80\n",
        B_BGP,
    ),
    "distribute-list": (
        A_BGP
        + " neighbor 172.16.0.2 prefix-list P in\n distribute-list 1 in\nip prefix-list P seq 5 permit 0.0.0.0/0 le 32\naccess-list 1 permit any\n",
        B_BGP,
    ),
    "undefined": (A_BGP + " neighbor 172.16.0.2 route-map NONE in\n", B_BGP),
    "secondary": (
        A_BGP.replace(
            "interface Vlan1\n", "interface Vlan2\n ip address 10.1.0.0 255.255.0.0\n shutdown\ninterface Vlan1\n"
        ).replace("10.1.0.1 255.255.255.0\n", "10.1.0.1 255.255.255.0\n ip address 10.1.1.1 255.255.0.0 secondary\n"),
        B_BGP,
    ),
    "characters": (A_BGP.replace("hostname a\n", "hostname a\ninterface Gigabit\u00e9\n"), B_BGP),
    "program": (A_BGP + " neighbor 172.16.0.2 local-as 65099\n", B_BGP),
    "set-order": (
        "frr version 8.4\n"
        + A_BGP.replace("0.1 255.255.255.252", "0.1/30").replace("10.1.0.1 255.255.255.0", "10.1.0.1/24")
        + " neighbor 172.16.0.2 route-map M in\nbgp community-list standard L permit 1:1\nroute-map M permit 10\n set community 1:1\n set comm-list L delete\n",
        B_BGP,
    ),
}
OSPF = {
    "ospf-network-type": (
        A_OSPF.replace("255.255.255.252\n", "255.255.255.252\n ip ospf network point-to-point\n"),
        B_OSPF,
    ),
    "ospf-priority": tuple(
        text.replace("255.255.255.252\n", "255.255.255.252\n ip ospf priority 0\n") for text in (A_OSPF, B_OSPF)
    ),
    "router-id": (A_OSPF + " router-id 192.0.2.1\n", B_OSPF + " router-id 192.0.2.1\n"),
    "ospf-cost": (A_OSPF.replace("Vlan1", "Port-channel1"), B_OSPF),
    "ospf-stub": (A_OSPF + " area 0 stub\n", B_OSPF),
}


@pytest.mark.parametrize("name", [*BGP, *OSPF])
def test_refused_by_name(name: str, tmp_path: Path, program: Program) -> None:
    found = report(tmp_path, program, (BGP | OSPF)[name])
    assert name in refused(found), found.text


@pytest.mark.parametrize(
    "line",
    [
        " neighbor 172.16.0.2 default-originate",
        " aggregate-address 10.0.0.0 255.0.0.0",
        " redistribute rip",
        " default-information originate",
    ],
)
def test_what_adds_routes_is_dropped_by_decision_alone(line: str, tmp_path: Path, program: Program) -> None:
    text = A_BGP + line + "\nrouter rip\n"
    assert refused(report(tmp_path, program, (text, B_BGP))) == {"program"}
    decisions = f'drop "{line.strip()}" because "asked so"\ndrop "router rip" because "asked so"\n'
    found = report(tmp_path, program, (text, B_BGP), decisions)
    assert not refused(found)
    assert f"! assumed: {line.strip()} (r0.cfg:9): asked so" in text_of(found.folder.routers)
    assert "asked so" in found.text


def test_match_and_address_lines_are_protected(tmp_path: Path, program: Program) -> None:
    text = A_BGP + " neighbor 172.16.0.2 route-map M in\nroute-map M permit 10\n match as-path 5\n"
    assert refused(report(tmp_path, program, (text, B_BGP), 'drop "match *" because "no"\n')) >= {"protected"}
    assert refused(report(tmp_path, program, (text, B_BGP), 'drop "ip address 10.1.0.1 *" because "no"\n')) >= {
        "protected"
    }
    assert refused(report(tmp_path, program, (text, B_BGP), 'drop "hostname a" because "no"\n')) >= {"protected"}
    assert not refused(
        report(
            tmp_path, program, (text + "route-map M permit 20\n", B_BGP), 'drop "route-map M permit 10" because "yes"\n'
        )
    )


def test_an_undefined_access_list_is_refused_by_name(tmp_path: Path, program: Program) -> None:
    found = report(tmp_path, program, (A_BGP + " neighbor 172.16.0.2 distribute-list 7 in\n", B_BGP))
    assert refused(found) == {"undefined"}


def test_undefined_names_take_a_decision(tmp_path: Path, program: Program) -> None:
    for value in ("permit", "deny"):
        found = report(tmp_path, program, BGP["undefined"], f'undefined "NONE" {value} because "the vendor says so"\n')
        assert not refused(found)
        assert f"route-map NONE {value} 10" in text_of(found.folder.routers)


def test_each_changed_line_stands_in_the_report(tmp_path: Path, program: Program) -> None:
    found = report(tmp_path, program, (A_BGP + " neighbor 172.16.0.2 bfd\n maximum-paths 4\nnetconf-yang\n", B_BGP))
    assert [(change.before.strip(), change.after, change.rule) for change in found.changes] == [
        ("neighbor 172.16.0.2 bfd", (), "timers"),
        ("maximum-paths 4", (), "multipath"),
        ("netconf-yang", (), "management"),
    ]


def test_a_banner_without_end_is_refused(tmp_path: Path, program: Program) -> None:
    with pytest.raises(Refused, match="r0.cfg:1: no later line has the delimiter"):
        report(tmp_path, program, ("banner motd #\nno end\n" + A_BGP, B_BGP))


def test_lines_of_idle_interfaces_go(tmp_path: Path, program: Program) -> None:
    idle = "interface GigabitEthernet1/1\n nobody knows this\n no ip address\ninterface GigabitEthernet1/2\n ip strange\n shutdown\n"
    found = report(tmp_path, program, (A_BGP + idle, B_BGP))
    assert [(change.before.strip(), change.rule) for change in found.changes] == [
        ("nobody knows this", "no-address"),
        ("ip strange", "no-address"),
    ]
    assert refused(report(tmp_path, program, (A_BGP + idle.replace(" shutdown\n", ""), B_BGP))) == {"program"}


def test_the_report_as_json(tmp_path: Path, program: Program) -> None:
    told = json.loads(
        report(
            tmp_path, program, (A_BGP + " neighbor 172.16.0.2 bfd\n neighbor 172.16.0.2 local-as 65099\n", B_BGP)
        ).json
    )
    assert (
        told["lines"][0]["file"] == "r0.cfg"
        and told["lines"][0]["rule"] == "timers"
        and told["lines"][0]["after"] == []
    )
    assert [found["name"] for found in told["refused"]] == ["program"]
    assert told["rules"][0]["source"]


def test_stub(tmp_path: Path, program: Program) -> None:
    text = (
        A_BGP
        + "interface GigabitEthernet0/9\n ip address 203.0.113.2 255.255.255.252\nrouter bgp 65001\n neighbor 203.0.113.1 remote-as 64999\n"
    )
    found = report(
        tmp_path, program, (text, B_BGP), options=Options.of(False, ["203.0.113.1=192.0.2.0/24,198.51.100.0/25"])
    )
    assert ("192.0.2.0/24", "198.51.100.0/25") in [
        one.prefixes for one in program.classes(text_of(found.folder.routers))
    ]
    with pytest.raises(Refused):
        report(tmp_path, program, (text, B_BGP), options=Options.of(False, ["203.0.113.9=192.0.2.0/24"]))


@pytest.mark.parametrize(
    "text", ["drop x", "drop because y", "hide x because y", 'undefined "X" maybe because y', "drop 'x because y"]
)
def test_bad_decisions_are_refused(text: str) -> None:
    with pytest.raises(Refused):
        read_decisions(text, "decisions")


def run_tool(*words: str) -> subprocess.CompletedProcess[str]:
    """Runs the tool."""
    ran = subprocess.run(
        [str(TOP / "tools" / "bonsai-import"), *words], capture_output=True, text=True, check=False, timeout=60
    )
    return subprocess.CompletedProcess(
        ran.args, ran.returncode, ran.stdout, without_notices(ran.stderr.encode()).decode()
    )


def test_bad_folders(tmp_path: Path, program: Program) -> None:
    ran = run_tool(str(tmp_path))
    assert (ran.returncode, ran.stdout, len(ran.stderr.splitlines())) == (1, "", 1)
    assert run_tool(str(tmp_path / "none")).returncode == 3
    (tmp_path / "a.cfg").write_bytes(b"hostname a\0\n")
    ran = run_tool(str(tmp_path))
    assert (ran.returncode, len(ran.stderr.splitlines())) == (1, 1)
    assert run_tool().returncode == 2
    (tmp_path / "a.cfg").write_text(A_BGP)
    assert run_tool(str(tmp_path), "--decisions", str(tmp_path / "none")).returncode == 3
    if os.geteuid() != 0:
        (tmp_path / "a.cfg").chmod(0)
        assert run_tool(str(tmp_path)).returncode == 3


@pytest.mark.parametrize(
    "text",
    ["feature bgp\nhostname a\n", "! device: a (DCS-7050, EOS-4.28.0F)\nhostname a\n", "set system host-name a\n"],
)
def test_other_vendors_are_refused(text: str, tmp_path: Path, program: Program) -> None:
    with pytest.raises(Refused, match="written for"):
        report(tmp_path, program, (text,))


@pytest.mark.parametrize(
    "value", ['cost "V" 0', 'cost "V" 65536', 'cost "V" \u00b2', 'bandwidth "V" 0', 'bandwidth "V" 99999999999']
)
def test_values_out_of_range_are_refused(value: str) -> None:
    with pytest.raises(Refused, match="is no value"):
        read_decisions(f"{value} because y", "decisions")


def test_a_star_alone_stands_for_anything(tmp_path: Path, program: Program) -> None:
    text = A_BGP + " neighbor 172.16.0.2 local-as 65099\nip route 0.0.0.0 0.0.0.0 10.1.0.9 name up[1]\n"
    decisions = 'drop "ip route * name up[1]" because "asked so"\ndrop "neighbor ?????????? local-as 65099" because "asked so"\n'
    found = report(tmp_path, program, (text, B_BGP), decisions)
    assert [one.text for one in found.folder.log.refusals] == ["neighbor 172.16.0.2 local-as 65099"]


def test_the_report_is_not_written_over_what_is_read(tmp_path: Path, program: Program) -> None:
    folder = tmp_path / "folder"
    folder.mkdir()
    file = folder / "a.cfg"
    file.write_text(A_BGP)
    ran = run_tool(str(folder), "--report", str(file))
    assert (ran.returncode, ran.stderr) == (1, f"bonsai-import: {file}: is a file that is read\n")
    assert file.read_text() == A_BGP
    assert run_tool(str(folder), "--report", str(tmp_path / "report")).returncode == 0


def test_what_is_no_file_is_told(tmp_path: Path, program: Program) -> None:
    os.mkfifo(tmp_path / "pipe")
    found = report(tmp_path, program, (A_BGP, B_BGP))
    assert "pipe was not read: it is no file" in found.folder.log.remarks


def test_a_name_with_a_line_end_is_one_line(tmp_path: Path, program: Program) -> None:
    (tmp_path / "a\nb.cfg").write_text(A_BGP + " neighbor 172.16.0.2 local-as 65099\n")
    told = run_tool(str(tmp_path), "--report", "/dev/null").stderr
    assert told.splitlines() == [
        "bonsai-import: 1 line is refused, the first at a?b.cfg:9; decide them by --decisions, of which --suggest FILE writes a skeleton"
    ]


def test_a_refused_line_is_told_as_it_stands(tmp_path: Path, program: Program) -> None:
    group = " neighbor G peer-group\n neighbor G local-as 65099\n neighbor 172.16.0.2 peer-group G\n"
    found = report(tmp_path, program, (A_BGP + group, B_BGP))
    told = "r0.cfg:10: neighbor G local-as 65099\n    refused by program: the program refuses this line: Unsupported: unfold peer"
    assert told in found.text and "(written as `neighbor 172.16.0.2 local-as 65099`)" in found.text
    assert json.loads(found.json)["refused"][0]["text"] == "neighbor G local-as 65099"
    assert not refused(
        report(tmp_path, program, (A_BGP + group, B_BGP), 'drop "neighbor G local-as 65099" because "asked so"\n')
    )


def test_an_identifier_of_two_routers_of_frr(tmp_path: Path, program: Program) -> None:
    """Each by its own line, or by that of its OSPF process."""
    for number, process in enumerate(("", "router ospf\n ospf router-id 192.0.2.9\n")):
        for name, own in (("a", "192.0.2.9"), ("b", "192.0.2.8" if process else "192.0.2.9")):
            room = tmp_path / f"{number}" / name
            room.mkdir(parents=True)
            (room / "frr.conf").write_text(
                f"frr version 8.4.4\nfrr defaults datacenter\nhostname {name}\nip router-id {own}\n{process if name == 'b' else ''}"
            )
        assert refused(import_folder(str(tmp_path / f"{number}"), program)) == {"router-id"}
