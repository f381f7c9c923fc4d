"""The corpus: networks are found by their files, outcomes are counted, and FRR's tables are read. Nothing is fetched
here."""
from __future__ import annotations

from pathlib import Path

import pytest

from bonsainet.cli.command_line import Refused
from bonsainet.corpus.tool import Outcome, networks, table
from bonsainet.corpus.fetch import source_index
from bonsainet.corpus.reasons import reason_of
from bonsainet.corpus.run import _files, _key
from bonsainet.corpus.tables import Compared, _routes_of_json, _routes_of_text
from bonsainet.importing.folder import Source


def test_networks(tmp_path: Path) -> None:
    for name, file, text in [
        ("two/r1", "zebra.conf", ""),
        ("two/r1", "bgpd.conf", ""),
        ("two/r2", "frr.conf", "router ospf\n"),
        ("one/r1", "frr.conf", "router bgp 1\n"),
        ("one/r2", "frr.conf", ""),
    ]:
        (tmp_path / name).mkdir(parents=True, exist_ok=True)
        (tmp_path / name / file).write_text(text)
    assert [path.name for path in networks(tmp_path)] == ["two"]


def test_table() -> None:
    told = table(
        [Outcome("a", 2, "accepted", 3, [], Compared(5, [])), Outcome("b", 2, "refused", 0, ["shared-as (1)"])]
    )
    assert told.startswith("Of 2 networks 1 are accepted")
    assert "| a | 2 | accepted | 3 | 5, all alike |  |" in told
    assert "| shared-as | 1 |" in told


def test_reasons() -> None:
    assert reason_of("multihop", "x", "y") == "session over several hops"
    assert reason_of("program", "neighbor 10.0.0.1 weight 5", "Unsupported") == "weights"
    assert reason_of("program", "router ospf 1", "MixedProtocols") == "BGP and OSPF in one network"


def test_routes() -> None:
    text = "O   1.1.1.1/32 [110/0] is directly connected, lo\nO>* 2.2.2.2/32 [110/10] via 10.0.1.2, r1-eth0, weight 1\n  *                      via 10.0.2.2, r1-eth1, weight 1\n"
    assert _routes_of_text(text) == {"2.2.2.2/32": {"10.0.1.2", "10.0.2.2"}}
    assert _routes_of_json(
        {
            "2.2.2.2/32": [
                {"protocol": "ospf", "nexthops": [{"ip": "10.0.1.2"}]},
                {"protocol": "connected", "nexthops": []},
            ]
        }
    ) == {"2.2.2.2/32": {"10.0.1.2"}}


def test_source_index(tmp_path: Path) -> None:
    (tmp_path / "list.d").mkdir()
    (tmp_path / "list.d" / "debian.sources").write_text(
        "Types: deb\nURIs: http://d/debian\nSigned-By: /k/debian-archive-keyring.gpg\n\nTypes: deb\nURIs: http://other\n"
    )
    (tmp_path / "sources.list").write_text("# no\ndeb http://d/debian bookworm main\n")
    told = source_index((tmp_path / "list.d", tmp_path / "sources.list"))
    assert told.count("Types: deb-src") == 2 and "other" not in told
    with pytest.raises(Refused):
        source_index((tmp_path / "none",))


def test_keys_of_labels() -> None:
    assert _key("bgp 100 path 1 2 comms 3:3") == ("100", 2, ("3:3",))
    assert _key("none") == ("none",)


def test_files_of_daemons(tmp_path: Path) -> None:
    (tmp_path / "r1").mkdir()
    (tmp_path / "r1" / "bgpd.conf").write_text("router bgp 1\n")
    (tmp_path / "r2.conf").write_text("frr version 8.4\nrouter bgp 2\n")
    routers = [Source("r1", file="r1"), Source("r2", file="r2.conf")]
    found = [[(daemon, file.name if file else None) for daemon, file in _files(tmp_path, router)] for router in routers]
    assert found == [
        [("zebra", None), ("bgpd", "bgpd.conf")],
        [("zebra", "r2.conf"), ("bgpd", "r2.conf"), ("ospfd", "r2.conf")],
    ]
