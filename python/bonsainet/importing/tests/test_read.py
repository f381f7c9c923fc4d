"""Folders are read as people, RANCID, Batfish and FRR keep them, and what terminals put in is taken out."""
from __future__ import annotations

from pathlib import Path

import pytest

from bonsainet.cli.command_line import Refused
from bonsainet.importing.folder import Dialect, Folder
from bonsainet.importing.read import read_folder, read_given
from bonsainet.importing.rules.lists import prefix_list

PLAIN = "hostname a\n!\ninterface Vlan1\n ip address 10.0.0.1 255.255.255.0\n!\nrouter ospf 1\n network 10.0.0.0 0.0.0.255 area 0\n!\n"


def folder_of(tmp_path: Path, **files: bytes | str) -> Folder:
    """A folder with these files."""
    for name, data in files.items():
        path = tmp_path / name.replace("__", "/").replace("_", ".")
        path.parent.mkdir(parents=True, exist_ok=True)
        path.write_bytes(data if isinstance(data, bytes) else data.encode())
    return read_folder(str(tmp_path))


def texts(folder: Folder, number: int = 0) -> list[str]:
    """The lines of a router that have words."""
    return [line.text for line in folder.routers[number].lines if not line.is_blank]


EXPECTED = [line for line in PLAIN.splitlines() if line != "!"]


def test_a_file_for_each_router(tmp_path: Path) -> None:
    folder = folder_of(tmp_path, b_cfg=PLAIN.replace("hostname a", "hostname b") + "end\n", a_cfg=PLAIN)
    assert [router.name for router in folder.routers] == ["a", "b"]
    assert texts(folder) == EXPECTED


def test_several_routers_in_one_file(tmp_path: Path) -> None:
    folder = folder_of(tmp_path, net_cfg=PLAIN + "end\n" + PLAIN.replace("hostname a", "hostname b") + "end\na#exit\n")
    assert [router.name for router in folder.routers] == ["a", "b"]
    assert folder.routers[1].stanzas[0].head.place.line == 10


def test_what_terminals_put_in(tmp_path: Path) -> None:
    text = "a#show running-config\nBuilding configuration...\n" + PLAIN.replace("\n", "\r\n")
    text = text.replace(
        "interface Vlan1", " --More-- \b\b\b\b\b\b\b\b\b\b          \b\b\b\b\b\b\b\b\b\binterface Vlan1"
    )
    text = text.replace("router ospf 1", "<--- More --->\r              \rrouter ospf 1") + "end\r\n\r\na#\r\n"
    assert texts(folder_of(tmp_path, a_cfg=text)) == ["Building configuration...", *EXPECTED]


def test_banners(tmp_path: Path) -> None:
    text = (
        "banner motd ^C\nhostname wrong\nend\n^C\nbanner exec # one line #\nbanner login x\x03y\n"
        + PLAIN
        + "banner motd \x03 hi \x03\n"
    )
    folder = folder_of(tmp_path, a_cfg=text.replace("banner login x\x03y", "banner login %\n in the way %"))
    assert texts(folder) == EXPECTED


def test_certificates(tmp_path: Path) -> None:
    text = "crypto pki certificate chain C\n certificate ca 01\n  3082 0321\n  \tquit\n" + PLAIN
    assert texts(folder_of(tmp_path, a_cfg=text)) == ["crypto pki certificate chain C", " certificate ca 01", *EXPECTED]


def test_letters_outside_ascii(tmp_path: Path) -> None:
    text = PLAIN.replace(" ip address", " description Stra\u00dfe\n ip address")
    for number, data in enumerate((text.encode("latin-1"), text.encode(), b"\xef\xbb\xbf" + text.encode())):
        assert " description Stra?e" in texts(folder_of(tmp_path / str(number), a_cfg=data))


def test_a_batfish_snapshot(tmp_path: Path) -> None:
    folder = folder_of(tmp_path, configs__a_cfg=PLAIN, hosts__h_json="{}")
    assert [router.name for router in folder.routers] == ["a"]


def test_files_of_frr(tmp_path: Path) -> None:
    folder = folder_of(
        tmp_path,
        r1__zebra_conf="interface eth0\n ip address 10.0.0.1/24\n",
        r1__ospfd_conf="int eth0\n ip ospf cost 3\n!\nrouter ospf\nnetwork 10.0.0.0/24 area 0\n",
        r2__frr_conf="frr version 8.4\nhostname x\nip forwarding\nrouter bgp 5\n neighbor 10.0.0.1 remote-as 6\nexit\n",
        test_py="",
    )
    assert [(router.name, router.dialect) for router in folder.routers] == [("r1", Dialect.FRR), ("x", Dialect.FRR)]
    assert texts(folder) == [
        "hostname r1",
        "interface eth0",
        " ip address 10.0.0.1/24",
        " ip ospf cost 3",
        "router ospf",
        " network 10.0.0.0/24 area 0",
    ]
    assert "test.py was not read" in " ".join(folder.log.remarks)


def test_a_prefix_list_with_a_prefix_that_is_none_answers_nothing(tmp_path: Path) -> None:
    folder = folder_of(tmp_path, a_cfg=PLAIN + "ip prefix-list P seq 5 permit 300.0.0.0/8\n")
    assert prefix_list(folder.routers[0], "P") is None


def test_a_copy_is_told_with_the_files_without_a_router(tmp_path: Path) -> None:
    with pytest.raises(Refused, match="2 files cannot be read") as refused:
        folder_of(tmp_path, a_cfg=PLAIN, b_cfg=PLAIN, cabling_txt="a to b\n")
    assert refused.value.details == [
        "  cabling.txt: no router in this file",
        "  b.cfg: a.cfg:1 has the host name a too: b.cfg is a copy of a.cfg; leave it out by --skip 'b.cfg'",
    ]


def test_files_without_a_router_are_told_at_once_or_left_out(tmp_path: Path) -> None:
    files: dict[str, bytes | str] = {
        "a_cfg": PLAIN,
        "inventory_txt": "a 10.0.0.1\n",
        "site__hosts_txt": "hosts\n",
        "blob": b"\0",
    }
    with pytest.raises(
        Refused, match="3 files cannot be read as routers of their own; .* left out by --skip"
    ) as refused:
        folder_of(tmp_path, **files)
    assert refused.value.details == [
        "  blob: not a text, it has bytes of value 0",
        "  inventory.txt: no router in this file",
        "  site/hosts.txt: no router in this file",
    ]
    with pytest.raises(Refused, match="^blob: not a text, it has bytes of value 0; .* left out by --skip$"):
        read_folder(str(tmp_path), ["*.txt"])
    folder = read_folder(str(tmp_path), ["inventory.txt", "site", "b*", "*.old"])
    assert [router.name for router in folder.routers] == ["a"]
    assert folder.log.remarks == [
        "blob was not read: --skip b* leaves it out",
        "inventory.txt was not read: --skip inventory.txt leaves it out",
        "site was not read: --skip site leaves it out",
        "--skip *.old leaves nothing out",
    ]


def test_files_in_the_place_of_a_folder(tmp_path: Path) -> None:
    for name in ("b", "a"):
        (tmp_path / f"{name}.cfg").write_text(PLAIN.replace("hostname a", f"hostname {name}"))
    names = [str(tmp_path / "b.cfg"), str(tmp_path / "a.cfg")]
    folder = read_given(names)
    assert [(router.name, router.file) for router in folder.routers] == [("b", names[0]), ("a", names[1])]
    assert [router.name for router in read_given([str(tmp_path)]).routers] == ["a", "b"]
    for name in ("zebra.conf", "bgpd.conf"):
        (tmp_path / name).write_text("router bgp 5\n")
    with pytest.raises(Refused, match="are those of one router: give their folder"):
        read_given([str(tmp_path / "zebra.conf"), str(tmp_path / "bgpd.conf")])


def test_the_files_of_one_router_alone(tmp_path: Path) -> None:
    folder = folder_of(
        tmp_path, zebra_conf="hostname z\ninterface eth0\n ip address 10.0.0.1/24\n", bgpd_conf="router bgp 5\n"
    )
    assert [router.name for router in folder.routers] == ["z"]


def test_a_router_without_a_name_has_that_of_its_file(tmp_path: Path) -> None:
    folder = folder_of(tmp_path, edge7_cfg=PLAIN.replace("hostname a\n", ""))
    assert folder.routers[0].name == "edge7"
    assert any("has no host name" in remark for remark in folder.log.remarks)
