"""Exports: what each target gets, what is told of each line, and that FRR takes each file."""
import os
import shutil
import subprocess
from ipaddress import IPv4Network
from pathlib import Path
from types import ModuleType

import pytest
from hypothesis import given
from hypothesis import strategies as st

from bonsainet.exporting import batfish, frr, ios
from bonsainet.exporting.frr_ties import with_ties
from bonsainet.exporting.tool import report_text, write_folder
from bonsainet.exporting.writer import NotExported, members_note, prefix_range
from bonsainet.cli.command_line import Refused
from bonsainet.ask.labels import BgpLabel
from bonsainet.configs.network import read_network
from bonsainet.configs.profile import PrefixEntry
from bonsainet.ask.program import TOP
from bonsainet.ask.where import Identity
from bonsainet.configs.text import Line, Place
from bonsainet.tests.asking import place_of, tool

EXAMPLES = [path for path in sorted((TOP / "examples" / "inputs").glob("*.cfg")) if "static-route" not in path.name]
TARGETS: dict[str, ModuleType] = {"frr": frr, "ios": ios, "batfish": batfish}
SMALL = """hostname core1
! member core1
! member core2
!
interface Vlan1
 ip address 10.0.0.1 255.255.255.252
 ip ospf cost 1
!
interface GigabitEthernet0/1
 ip address 100.64.0.0 255.255.255.254
 ip ospf cost 3
!
router ospf 1
 passive-interface Vlan1
 network 10.0.0.1 0.0.0.0 area 0
 network 100.64.0.0 0.0.0.0 area 0
!
end
hostname dist1
interface GigabitEthernet0/1
 ip address 100.64.0.1 255.255.255.254
router ospf 1
 network 100.64.0.1 0.0.0.0 area 0
end
"""
BGP = """hostname a
interface Serial0/0
 ip address 10.0.0.0 255.255.255.254
router bgp 1
 neighbor 10.0.0.1 remote-as 2
 neighbor 10.0.0.1 route-map M in
ip prefix-list P seq 1 permit 10.0.0.0/8 ge 8
ip prefix-list Q seq 1 permit 10.0.0.0/8
ip community-list standard 150 permit 2:2 65537
ip community-list standard 150 permit 1:1 2:2
ip community-list 5 permit 3:3
route-map M permit 0
 match ip address prefix-list P Q
 match community 150 5 exact-match
 set community 3:3 additive
 set comm-list 5 delete
route-map M deny 10
end
hostname b
interface Serial0/0
 ip address 10.0.0.1 255.255.255.254
router bgp 2
 neighbor 10.0.0.0 remote-as 1
 neighbor 10.0.0.0 send-community
end
"""


def lines_of(text: str) -> list[str]:
    return [line.strip() for line in text.splitlines()]


def test_a_vlan_of_the_small_network_is_a_loopback_on_frr() -> None:
    lines = lines_of(frr.export(read_network(SMALL)).files["core1.conf"])
    at = lines.index("interface Loopback1")
    assert lines[at + 1 : at + 5] == [
        "description stands for core1 core2",
        "ip address 10.0.0.1/30",
        "ip ospf cost 1",
        "ip ospf network point-to-point",
    ]
    assert "passive-interface Loopback1" in lines
    assert "network 100.64.0.0/32 area 0" in lines
    assert lines[lines.index("interface Gi0-1") + 1 :][:3] == [
        "ip address 100.64.0.0/31",
        "ip ospf cost 3",
        "ip ospf network point-to-point",
    ]


def test_ports_of_ios_come_up() -> None:
    lines = lines_of(ios.export(read_network(SMALL), on_switches=True).files["core1.cfg"])
    at = lines.index("interface GigabitEthernet0/1")
    assert lines[at + 1 : at + 6] == [
        "no switchport",
        "ip address 100.64.0.0 255.255.255.254",
        "ip ospf cost 3",
        "ip ospf network point-to-point",
        "no shutdown",
    ]
    assert "interface Loopback1" in lines and "passive-interface Loopback1" in lines and "ip routing" in lines


def test_a_vlan_that_carries_a_link_becomes_a_port_on_ios() -> None:
    text = SMALL.replace("GigabitEthernet0/1", "Vlan9")
    lines = lines_of(ios.export(read_network(text)).files["dist1.cfg"])
    assert "interface GigabitEthernet0/0" in lines


def test_entries_of_several_lists_become_several_entries_on_frr() -> None:
    lines = lines_of(frr.export(read_network(BGP)).files["a.conf"])
    heads = [line for line in lines if line.startswith("route-map")]
    assert heads == [f"route-map M permit {number}" for number in (10, 20, 30, 40)] + ["route-map M deny 50"]
    at = lines.index("route-map M permit 20")
    assert lines[at + 1 : at + 5] == [
        "match ip address prefix-list P",
        "match community L-5 exact-match",
        "set comm-list L-5 delete",
        "set community 3:3 additive",
    ]


def test_communities_are_sent_only_where_the_text_says_so() -> None:
    files = frr.export(read_network(BGP)).files
    assert "no neighbor 10.0.0.1 send-community all" in lines_of(files["a.conf"])
    assert "no neighbor" not in files["b.conf"]


def test_lists_in_the_forms_of_frr() -> None:
    lines = lines_of(frr.export(read_network(BGP)).files["a.conf"])
    assert "ip prefix-list P seq 1 permit 10.0.0.0/8 le 32" in lines
    assert "bgp community-list standard L-150 permit 1:1 2:2" in lines
    assert "bgp community-list standard L-150 permit 2:2 1:1" not in lines


@pytest.mark.parametrize("target", TARGETS.values(), ids=TARGETS)
@pytest.mark.parametrize("path", EXAMPLES, ids=lambda path: path.name)
def test_each_line_of_a_text_is_written_or_told(path: Path, target: ModuleType) -> None:
    network = read_network(path.read_text(), path.name)
    exported = target.export(network)
    told = {change.place for change in exported.changes if change.before}
    written = {tuple(line.split()) for text in exported.files.values() for line in text.splitlines()}
    for number, line in enumerate(path.read_text().splitlines(), 1):
        words = line.split()
        if words and not words[0].startswith("!") and words[0] != "description":
            assert Place(path.name, number) in told or tuple(words) in written, line


@pytest.mark.parametrize("target", TARGETS.values(), ids=TARGETS)
def test_each_rule_stands_on_the_page(target: ModuleType) -> None:
    page = " ".join((TOP / "docs" / "use" / "EXPORT.md").read_text().split())
    for rule, reason in target.RULES.items():
        assert f"`{rule}`" in page, rule
        assert " ".join(reason.split()) in page, reason


@pytest.mark.skipif(not shutil.which("vtysh"), reason="the package frr is not there: no daemon reads what is written")
@pytest.mark.parametrize(
    "path", [path for path in EXAMPLES if path.name != "full-mesh.cfg"], ids=lambda path: path.name
)
@pytest.mark.parametrize("with_lab_timers", [False, True])
def test_frr_takes_each_file(path: Path, with_lab_timers: bool, tmp_path: Path) -> None:
    for name, text in list(frr.export(read_network(path.read_text(), path.name), with_lab_timers).files.items())[:5]:
        assert said_by_vtysh(text, tmp_path) == "", name


@pytest.mark.skipif(not shutil.which("vtysh"), reason="the package frr is not there: no daemon reads what is written")
def test_frr_takes_maps_and_ranks(tmp_path: Path) -> None:
    text = frr.export(read_network(BGP)).files["a.conf"]
    ranked = with_ties(text, [[BgpLabel(100, (2,), (1,))], [BgpLabel(100, (2, 2), ()), BgpLabel(100, (2, 3), ())]])
    assert said_by_vtysh(text, tmp_path) == said_by_vtysh(ranked, tmp_path) == ""
    lines = lines_of(ranked)
    assert "neighbor 10.0.0.1 route-map TIES-M in" in lines and "bgp always-compare-med" in lines
    assert lines.count("call RANK-TIES") == 4
    at = lines.index("route-map RANK-TIES permit 1")
    assert lines[at + 1 : at + 4] == ["match as-path RANK-1", "match community RANK-1 exact-match", "set metric 1"]


def said_by_vtysh(text: str, folder: Path) -> str:
    (folder / "frr.conf").write_text(text)
    (folder / "vtysh.conf").write_text("")
    ran = subprocess.run(
        ["vtysh", "-C", "--config_dir", str(folder), "-f", str(folder / "frr.conf")],
        capture_output=True,
        text=True,
        check=False,
    )
    return ran.stdout + ran.stderr if ran.returncode or ran.stdout or ran.stderr else ""


@given(st.integers(0, 32), st.none() | st.integers(0, 32), st.none() | st.integers(0, 32))
def test_ranges_say_the_same(length: int, least: int | None, most: int | None) -> None:
    bounds = [bound for bound in (length, least, most) if bound is not None]
    if bounds != sorted(bounds):
        return
    entry = PrefixEntry(1, True, IPv4Network((0, length)), least, most, Line("", Place("F", 1)))
    words = prefix_range(entry).split()
    said = dict(zip(words[::2], map(int, words[1::2])))
    assert all(length < bound for bound in said.values())
    ge, le = said.get("ge"), said.get("le")
    low = ge if ge is not None else length
    high = le if le is not None else 32 if ge is not None else length
    assert (low, high) == (
        least if least is not None else length,
        most if most is not None else 32 if least is not None else length,
    )


def test_batfish_has_a_folder_and_a_format() -> None:
    files = batfish.export(read_network(SMALL)).files
    assert list(files) == ["configs/core1.cfg", "configs/dist1.cfg"]
    assert files["configs/dist1.cfg"].startswith("!RANCID-CONTENT-TYPE: cisco\nhostname dist1\n")


def test_batfish_takes_names_in_small_letters() -> None:
    with pytest.raises(NotExported, match="several routers are dist1"):
        batfish.export(read_network(SMALL.replace("core1", "Dist1")))


def test_frr_is_told_costs_and_processes_by_their_rules() -> None:
    text = SMALL.replace("router ospf 1", "router ospf 7").replace(" ip ospf cost 3\n", "")
    found = {
        (change.place.line, change.before, change.after, change.rule)
        for change in frr.export(read_network(text)).changes
    }
    assert (9, "", ("ip ospf cost 1",), "cost") in found
    assert (12, "router ospf 7", ("router ospf",), "process-number") in found
    assert not any(rule == "cost" for _, before, _, rule in found if before)


def test_entries_beyond_the_numbers_of_ios_are_lowered() -> None:
    text = BGP.replace(
        "P seq 1 permit 10.0.0.0/8 ge 8",
        "P seq 4294967294 permit 10.0.0.0/8 le 32\nip prefix-list P seq 4294967295 deny 0.0.0.0/0",
    )
    exported = ios.export(read_network(text))
    lines = lines_of(exported.files["a.cfg"])
    assert [line for line in lines if line.startswith("ip prefix-list P")] == [
        "ip prefix-list P seq 4294967293 permit 10.0.0.0/8 le 32",
        "ip prefix-list P seq 4294967294 deny 0.0.0.0/0",
    ]
    assert [change.after for change in exported.changes if change.rule == "entry-number"] == [
        (line,) for line in lines if line.startswith("ip prefix-list P")
    ]


@given(st.sets(st.integers(1, 50) | st.integers(4294967280, 4294967295)))
def test_numbers_of_entries_keep_their_order(sequences: set[int]) -> None:
    numbers = ios.entry_numbers(sorted(sequences))
    assert numbers == sorted(set(numbers)) and all(1 <= number <= ios.HIGHEST_ENTRY for number in numbers)
    assert all(number == sequence for number, sequence in zip(numbers, sorted(sequences))) or 4294967295 in sequences


def test_doubts_are_told() -> None:
    text = SMALL.replace("100.64.0.0 255.255.255.254", "100.64.0.3 255.255.255.252").replace(
        "100.64.0.1 255.255.255.254", "100.64.0.1 255.255.255.252"
    )
    text = text.replace("100.64.0.0 0.0.0.0", "100.64.0.3 0.0.0.0").replace(
        "10.0.0.1 255.255.255.252", "127.0.0.1 255.255.255.252"
    )
    found = frr.export(read_network(text)).doubts
    assert [(doubt.place.line, doubt.rule) for doubt in found] == [(6, "reserved-prefix"), (10, "edge-of-subnet")]


def test_secrets_are_not_told() -> None:
    text = BGP.replace(
        " neighbor 10.0.0.1 route-map M in\n",
        " neighbor 10.0.0.1 route-map M in\n neighbor 10.0.0.1 password 7 0822455D0A16\n",
    )
    told = report_text(ios.export(read_network(text)), Identity("0" * 64, False, None))
    assert "left out `neighbor 10.0.0.1 password ...`" in told and "0822455D0A16" not in told


def test_names_that_linux_does_not_take() -> None:
    text = SMALL.replace("GigabitEthernet0/1", "HundredGigE0/0/0/1.100")
    assert "interface Hu0-0-0-1.100" in frr.export(read_network(text)).files["core1.conf"]
    text = SMALL.replace("GigabitEthernet0/1", "VeryLongNameOfAPort0/0/0/1.100")
    assert "interface port0" in frr.export(read_network(text)).files["core1.conf"]


def test_members_are_cut() -> None:
    device = read_network(
        "hostname a\n" + "".join(f"! member router{number}\n" for number in range(100)) + "end\n"
    ).devices[0]
    note = members_note(device)
    assert note and note.startswith("stands for router0 router1 ") and note.endswith(" and 77 more") and len(note) < 240


def test_a_folder_is_written_whole_or_not(tmp_path: Path) -> None:
    write_folder(tmp_path / "out", {"configs/a.cfg": "a\n"})
    assert (tmp_path / "out" / "configs" / "a.cfg").read_text() == "a\n"
    with pytest.raises(Refused, match="not an empty folder"):
        write_folder(tmp_path / "out", {})
    with pytest.raises(OSError):
        write_folder(tmp_path / "none" / "out", {"a": ""})
    assert [path.name for path in tmp_path.iterdir()] == ["out"]


@pytest.mark.parametrize("folder", [".", "./", "made/.."])
def test_the_folder_in_which_one_stands(folder: str, tmp_path: Path) -> None:
    stood = tmp_path / "stood"
    stood.mkdir(mode=0o700)
    was = stood.stat()
    ran = tool("bonsai-export", "--to", "frr", place_of("fabric.cfg"), folder.replace("made/..", "../stood"), cwd=stood)
    assert ran.returncode == 0 and b"Traceback" not in ran.stderr
    assert list(stood.rglob("*.conf")) and [path.name for path in tmp_path.iterdir()] == ["stood"]
    assert (stood.stat().st_mode, stood.stat().st_ino) == (was.st_mode, was.st_ino)


def test_a_folder_of_no_name(tmp_path: Path) -> None:
    ran = tool("bonsai-export", "--to", "frr", place_of("fabric.cfg"), "", cwd=tmp_path)
    assert b"Traceback" not in ran.stderr


def test_what_cannot_be_moved_is_moved_back(tmp_path: Path, monkeypatch: pytest.MonkeyPatch) -> None:
    rename, folder = os.rename, tmp_path / "folder"
    folder.mkdir()

    def failing(source: Path, to: Path) -> None:
        if Path(to).name == "b":
            raise OSError(28, "No space left on device")
        rename(source, to)

    monkeypatch.setattr(os, "rename", failing)
    with pytest.raises(OSError, match="No space left"):
        write_folder(folder, {"a": "one", "b": "two"})
    assert list(folder.iterdir()) == [] and list(tmp_path.iterdir()) == [folder]
