"""With --scrub no secret is in the text or in the report, and the text means the same."""
from __future__ import annotations

import json
from pathlib import Path

import pytest

from bonsainet.ask.program import TOP, Program
from bonsainet.importing.scrubbing import hidden
from bonsainet.tests.asking import tool

SECRETS = """hostname a
enable secret 5 HUNTER2
username x privilege 15 password 0 HUNTER2
snmp-server community HUNTER2 RO
snmp-server host 10.9.9.9 version 2c HUNTER2
tacacs-server key 7 HUNTER2
crypto isakmp key HUNTER2 address 10.0.0.9
interface GigabitEthernet0/0
 ip address 10.0.0.1 255.255.255.252
 ip ospf authentication message-digest
 ip ospf authentication-key HUNTER2
 ip ospf message-digest-key 1 md5 HUNTER2
{refused}interface Vlan1
 ip address 10.1.0.1 255.255.255.0
router bgp 65001
 network 10.1.0.0 mask 255.255.255.0
 neighbor 10.0.0.2 remote-as 65002
 neighbor 10.0.0.2 password 7 HUNTER2
 neighbor 10.0.0.2 route-map OUT out
 neighbor 10.0.0.2 send-community
route-map OUT permit 10
 set community 65001:7 additive
end
"""


def test_nothing_secret_is_written(tmp_path: Path, program: Program) -> None:
    (tmp_path / "folder").mkdir()
    (tmp_path / "folder/a.cfg").write_text(SECRETS.format(refused=""))
    decisions = tmp_path / "decisions"
    decisions.write_text('drop "crypto isakmp key *" because "no tunnel"\n')
    words = [tmp_path / "folder", "--decisions", decisions]
    plain = tool("bonsai-import", *words)
    scrubbed, as_json = tool("bonsai-import", "--scrub", *words), tool("bonsai-import", "--scrub", "--json", *words)
    assert [ran.returncode for ran in (plain, scrubbed, as_json)] == [0, 0, 0]
    assert b"HUNTER2" in plain.stdout + plain.stderr
    assert b"HUNTER2" not in scrubbed.stdout + scrubbed.stderr + as_json.stdout + as_json.stderr
    assert (
        b" set community 65001:7 additive\n" in scrubbed.stdout
        and b" neighbor 10.0.0.2 password ...\n" in scrubbed.stdout
    )
    assert b"[scrubbed]" in scrubbed.stderr
    assert {line["rule"] for line in json.loads(as_json.stderr)["rules"]} >= {"scrubbed"}
    for command in (["classes", "F"], ["compress", "F", "1"], ["canon", "F", "1"]):
        assert program.ask(*command, texts={"F": plain.stdout}) == program.ask(*command, texts={"F": scrubbed.stdout})


def test_nothing_secret_is_told_of_a_refused_line(tmp_path: Path) -> None:
    (tmp_path / "a.cfg").write_text(SECRETS.format(refused=" standby 1 authentication HUNTER2\n no such key HUNTER2\n"))
    for word in ("--scrub", "--json"):
        ran = tool("bonsai-import", "--scrub", word, tmp_path)
        assert ran.returncode == 1 and b"HUNTER2" not in ran.stderr and b"authentication ..." in ran.stderr


@pytest.mark.parametrize(
    ("text", "shown"),
    [
        (" neighbor 10.0.0.1 password x", " neighbor 10.0.0.1 password ..."),
        (" ip ospf authentication message-digest", " ip ospf authentication message-digest"),
        (" ip ospf authentication", " ip ospf authentication"),
        (" set community 1:1", " set community 1:1"),
        (" match community LIST", " match community LIST"),
        ("ip community-list standard X permit 1:1", "ip community-list standard X permit 1:1"),
        (" neighbor 10.0.0.1 send-community", " neighbor 10.0.0.1 send-community"),
        ("enable secret", "enable secret"),
        ("ENABLE Secret x", "ENABLE Secret ..."),
        (" wpa-psk ascii 0 x", " wpa-psk ..."),
        (" client 10.0.0.1 server-key 7 x", " client 10.0.0.1 server-key ..."),
        ("snmp-server user u g v3 auth md5 x priv aes 128 y", "snmp-server user u g ..."),
        ("snmp-server engineID remote 10.0.0.1 x", "snmp-server engineID ..."),
        (" path scp://user:x@10.0.0.1/y", " path ..."),
        (" path scp://user@10.0.0.1/y", " path scp://user@10.0.0.1/y"),
        ("", ""),
    ],
)
def test_what_is_hidden(text: str, shown: str) -> None:
    assert hidden(text) == shown


@pytest.mark.parametrize("name", ["campus", "isp-edge"])
def test_folders_mean_the_same(name: str) -> None:
    folder = TOP / "examples/folders" / name
    words = [folder / "configs", "--decisions", folder / "decisions"]
    plain, scrubbed = tool("bonsai-import", *words), tool("bonsai-import", "--scrub", *words)
    assert plain.returncode == scrubbed.returncode
    if plain.returncode == 0:
        program = Program()
        assert program.classes(plain.stdout) == program.classes(scrubbed.stdout)
