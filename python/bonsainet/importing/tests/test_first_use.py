"""What a first user of the import met: refusals without a cause, stale reports, and doubts that the import itself made."""
from __future__ import annotations

import json
from pathlib import Path

import pytest

from bonsainet.ask.program import Program
from bonsainet.cli import progress as of_progress
from bonsainet.cli.command_line import Refused
from bonsainet.configs.network import read_network
from bonsainet.configs.text import text_of
from bonsainet.doubts.agreement import doubts_of_agreement
from bonsainet.doubts.links import doubts_of_links
from bonsainet.doubts.policies import doubts_of_policies
from bonsainet.importing.report import Report
from bonsainet.importing.rules.options import Options
from bonsainet.importing.tests.test_refusals import A, A_BGP, A_OSPF, B, B_BGP, B_OSPF, refused, report
from bonsainet.importing.tool import main


def text(found: Report) -> str:
    """The text of an import that refuses nothing."""
    assert not found.folder.log.refusals, found.text
    return text_of(found.folder.routers)


def test_security_of_hops_on_both_ends(tmp_path: Path, program: Program) -> None:
    line = " neighbor 172.16.0.{} ttl-security hops 1\n"
    assert not refused(report(tmp_path, program, (A_BGP + line.format(2), B_BGP + line.format(1))))


@pytest.mark.parametrize("is_first", [True, False])
def test_security_of_hops_on_one_end(is_first: bool, tmp_path: Path, program: Program) -> None:
    line = " neighbor 172.16.0.{} ttl-security hops 1\n"
    texts = (A_BGP + line.format(2), B_BGP) if is_first else (A_BGP, B_BGP + line.format(1))
    assert refused(report(tmp_path, program, texts)) == {"multihop"}


def test_what_people_write_names_no_map(tmp_path: Path, program: Program) -> None:
    lines = " neighbor 172.16.0.2 description CONN is gone\nroute-map CONN permit 10\n match interface Vlan100\n"
    assert not refused(report(tmp_path, program, (A_BGP + lines, B_BGP)))


def test_a_comment_of_a_decision_names_no_map(tmp_path: Path, program: Program) -> None:
    lines = " redistribute connected route-map CONN\nroute-map CONN permit 10\n set weight 5\n match interface Vlan1\n"
    assert refused(report(tmp_path, program, (A_BGP + lines, B_BGP)))
    dropped = 'drop "redistribute connected *" because "none of these is asked about"\n'
    assert not refused(report(tmp_path, program, (A_BGP + lines, B_BGP), dropped))


@pytest.mark.parametrize(
    "more, told", [("", "r1.cfg is a copy of r0.cfg;"), ("interface Vlan9\n", "if r1.cfg is a copy,")]
)
def test_a_backup_copy_is_told_as_one(more: str, told: str, tmp_path: Path, program: Program) -> None:
    found = report(tmp_path, program, (A_BGP, A_BGP + more, B_BGP))
    assert [(str(one.place), one.name, one.reason) for one in found.folder.log.refusals] == [
        ("r1.cfg:1", "same-name", f"r0.cfg:1 has the host name a too: {told} leave it out by --skip 'r1.cfg'")
    ]


@pytest.mark.parametrize("peer", ["192.0.2.1", "172.16.0.9"])
def test_a_limit_for_an_absent_peer(peer: str, tmp_path: Path, program: Program) -> None:
    lines = f" neighbor {peer} remote-as 65009\n neighbor {peer} maximum-prefix 1\n"
    assert not refused(report(tmp_path, program, (A_BGP + lines, B_BGP)))


@pytest.mark.parametrize("limit, name", [(2, set()), (1, {"maximum-prefix"})])
def test_a_limit_for_a_stub(limit: int, name: set[str], tmp_path: Path, program: Program) -> None:
    lines = f"interface Vlan2\n ip address 192.0.2.1 255.255.255.252\nrouter bgp 65001\n neighbor 192.0.2.2 remote-as 65009\n neighbor 192.0.2.2 maximum-prefix {limit}\n"
    options = Options.of(False, ["192.0.2.2=198.51.100.0/24,203.0.113.0/24"])
    assert refused(report(tmp_path, program, (A_BGP + lines, B_BGP), options=options)) == name


def test_a_delimiter_of_a_banner_is_reported(tmp_path: Path, program: Program) -> None:
    found = report(tmp_path, program, (A_BGP + "banner motd #\n!hello\n#\n", B_BGP))
    assert [change.before for change in found.changes if change.rule == "banner"] == ["banner motd #", "!hello", "#"]


@pytest.mark.parametrize("is_json", [False, True])
def test_a_run_that_ends_early_marks_the_report_before_it(is_json: bool, tmp_path: Path) -> None:
    room, kept = tmp_path / "folder", tmp_path / "report"
    room.mkdir()
    (room / "a.cfg").write_text(A_BGP + "end\n")
    words = [str(room), "--report", str(kept), *(["--json"] if is_json else [])]
    assert main(words) == 0
    with pytest.raises(Refused):
        main([*words, "--stub", "nonsense"])
    told = "--stub nonsense: Expected 4 octets in 'nonsense'"
    assert kept.read_text() == (
        json.dumps({"failed": told}) + "\n" if is_json else f"No report: bonsai-import ended before it: {told}\n"
    )


def test_a_file_that_is_no_report_is_not_marked(tmp_path: Path) -> None:
    kept = tmp_path / "notes"
    kept.write_text("my notes\n")
    with pytest.raises(OSError):
        main([str(tmp_path / "nothing"), "--report", str(kept)])
    assert kept.read_text() == "my notes\n"


def test_a_loopback_as_a_vlan_has_no_neighbours(tmp_path: Path, program: Program) -> None:
    lines = "interface Loopback1\n ip address 172.17.1.{} 255.255.255.0\n ip ospf network point-to-point\n"
    found = text(report(tmp_path, program, (A_OSPF + lines.format(1), B_OSPF + lines.format(2))))
    network = read_network(found)
    assert [str(link.subnet) for link in network.links] == ["172.16.0.0/30"]
    assert not [one.told for one in doubts_of_links(network) if "172.17.1" in one.told]


def test_a_loopback_that_is_not_passive_by_its_own_line(tmp_path: Path, program: Program) -> None:
    lines = "interface Loopback1\n ip address 172.17.1.{} 255.255.255.0\n ip ospf network point-to-point\nrouter ospf 1\n passive-interface default\n no passive-interface Loopback1\n no passive-interface GigabitEthernet0/0\n"
    found = text(report(tmp_path, program, (A_OSPF + lines.format(1), B_OSPF + lines.format(2))))
    assert [str(link.subnet) for link in read_network(found).links] == ["172.16.0.0/30"]


def test_a_map_that_a_rule_wrote_out_is_not_doubted(tmp_path: Path, program: Program) -> None:
    lines = " redistribute connected route-map CONN\nroute-map CONN permit 10\n match ip address prefix-list OWN\nip prefix-list OWN seq 5 permit 10.1.0.0/24\n"
    found = report(tmp_path, program, (A_BGP + lines, B_BGP))
    assert not list(doubts_of_policies(read_network(text(found))))
    assert {change.rule for change in found.changes if "CONN" in change.before} == {
        "redistribute-connected",
        "list-spent",
    }
    still = lines + " neighbor 172.16.0.2 prefix-list OWN out\n"
    still = still.replace("route-map CONN permit", " neighbor 172.16.0.2 prefix-list OWN out\nroute-map CONN permit", 1)
    assert "ip prefix-list OWN seq 5" in text(
        report(tmp_path, program, (A_BGP + still.rsplit(" neighbor", 1)[0], B_BGP))
    )


def test_nothing_is_known_of_a_stub_s_own_settings(tmp_path: Path, program: Program) -> None:
    lines = "interface Vlan2\n ip address 192.0.2.1 255.255.255.252\nrouter bgp 65001\n neighbor 192.0.2.2 remote-as 65009\n neighbor 192.0.2.2 password secret\n"
    options = Options.of(False, ["192.0.2.2=198.51.100.0/24"])
    network = read_network(text(report(tmp_path, program, (A_BGP + lines, B_BGP), options=options)))
    assert len(network.links) == 2 and not list(doubts_of_agreement(network))


def test_texts_of_the_tests_are_right(tmp_path: Path, program: Program) -> None:
    assert not refused(report(tmp_path, program, (A, B)))


@pytest.mark.parametrize(
    "near, far, is_doubted",
    [
        ("system mtu routing 9000\n", "", True),
        ("system mtu 9000\n", "system mtu routing 9000\n", False),
        ("system mtu 9000\nsystem mtu routing 1500\n", "", False),
        ("system mtu jumbo 9198\n", "", False),
    ],
)
def test_the_mtu_of_a_system_is_compared(
    near: str, far: str, is_doubted: bool, tmp_path: Path, program: Program
) -> None:
    found = report(tmp_path, program, (A_OSPF + near, B_OSPF + far))
    doubts = [one.told.partition(":")[0] for one in doubts_of_agreement(read_network(text(found)))]
    assert doubts == (["the MTU is 9000 here and 1500 on GigabitEthernet0/0 of b"] if is_doubted else [])


def test_what_is_assumed_stands_in_the_order_of_the_lines(tmp_path: Path, program: Program) -> None:
    texts = A_OSPF + " redistribute static\n", B_OSPF.replace("Vlan1", "Tunnel1") + " redistribute static\n"
    decisions = 'drop "redistribute static" because "x"\ncost "Tunnel1" 5 because "y"\n'
    found = report(tmp_path, program, texts, decisions)
    assert not refused(found), found.text
    told = [(it.place.file, it.place.line) for it in found.shown_assumptions]
    assert told == sorted(told) and [file for file, _ in told] == ["r0.cfg", "r1.cfg", "r1.cfg"]


def test_each_part_of_an_import_can_show_how_much_is_done(tmp_path: Path, monkeypatch: pytest.MonkeyPatch) -> None:
    bars: list[str] = []

    class Bar(of_progress._Bar):
        """A bar that tells of what it is."""

        is_wanted = True

        def __init__(self, what: str, total: int | None) -> None:
            super().__init__(what, total)
            bars.append(what)

    monkeypatch.setattr(of_progress, "_Bar", Bar)
    monkeypatch.setattr(of_progress, "is_terminal", lambda: True)
    (tmp_path / "a.cfg").write_text(A_BGP)
    assert main([str(tmp_path), "--report", str(tmp_path / "report.json"), "--json"]) == 0
    assert bars == ["files read", "rules worked through", "text judged", "lines compared", "report made"]


def test_a_peer_that_is_shut_is_no_peer_outside(tmp_path: Path, program: Program) -> None:
    """Nobody is told to add a second router at an address that a router of the folder has."""
    shut = B_BGP.replace("interface Vlan1\n", " shutdown\ninterface Vlan1\n")
    remarks = report(tmp_path, program, (A_BGP, shut)).folder.log.remarks
    assert (
        "r0.cfg:8: the peer 172.16.0.2 is GigabitEthernet0/0 of b, which is shut, so this neighbour takes part in nothing"
        in remarks
    )
    assert not any("--stub" in one for one in remarks if "172.16.0.2" in one)
