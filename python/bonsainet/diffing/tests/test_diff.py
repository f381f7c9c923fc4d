"""What changes in routing where a text is edited: known edits, each with its right answer."""
from __future__ import annotations

import json
import re
import subprocess
from pathlib import Path
from typing import Any

import jsonschema
import pytest

import bonsainet
from bonsainet.ask.program import ALL, TOP
from bonsainet.diffing.documents import document
from bonsainet.diffing.reasons import reasons_of
from bonsainet.diffing.tool import compared
from bonsainet.diffing.words import change_lines, lines, listed
from bonsainet.library import states
from bonsainet.library.calls import ASK, BONSAI, program
from bonsainet.library.changes import Change, Kind
from bonsainet.library.pairs import Pair
from bonsainet.library.routes import Aspect, Route
from bonsainet.tests.asking import tool

INPUTS = TOP / "examples" / "inputs"
SCHEMA = json.loads((TOP / "docs" / "data" / "bonsai-diff.schema.json").read_text())


def text_of(name: str) -> str:
    return (INPUTS / name).read_text()


def edited(text: str, old: str, new: str, router: str = "") -> str:
    """The text with one line of a router, or the first such line, in other words."""
    at = text.index(f"hostname {router}\n") if router else 0
    found = text.index(old, at)
    return text[:found] + new + text[found + len(old) :]


def said(old: str, new: str) -> list[str]:
    """The lines of the difference. Its document fits the schema, and says whether anything changes."""
    before, after = bonsainet.Network.from_text(old, "old"), bonsainet.Network.from_text(new, "new")
    found = bonsainet.diff(before, after)
    made = document(found, reasons_of(Pair(before, after)), program(ASK).identity)
    jsonschema.validate(made, SCHEMA)
    assert bool(made["changed"]) == bool(found)
    return list(lines(found))


CAMPUS, DISAGREE = text_of("campus.cfg"), text_of("asking/disagree.cfg")
NOTHING = ["0 prefixes change, 19 stay as they are"]


def test_nothing_changes() -> None:
    assert said(CAMPUS, CAMPUS) == NOTHING


@pytest.mark.parametrize(
    "old, new",
    [
        (" ip ospf cost 5\n", " ip ospf cost 5\n description a word\n"),
        ("hostname core1\n", "hostname core1\nip access-list extended UNUSED\n permit ip any any\n"),
        ("hostname core1\n", "hostname core1\nip prefix-list UNUSED seq 5 permit 0.0.0.0/0\n"),
    ],
)
def test_an_edit_without_effect(old: str, new: str) -> None:
    assert said(CAMPUS, edited(CAMPUS, old, new)) == NOTHING


def test_a_cost() -> None:
    found = said(CAMPUS, CAMPUS.replace(" ip ospf cost 5\n", " ip ospf cost 7\n"))
    assert found == [
        "10.0.1.8/30",
        "  changed core1, core2, dist1: cost 6 -> 8",
        "  changed dist2, access1: cost 5 -> 7",
        "  changed access2: cost 7 -> 9",
        "10.0.1.12/30",
        "  changed core1, core2, dist1: cost 6 -> 8",
        "  changed dist2, access2: cost 5 -> 7",
        "  changed access1: cost 7 -> 9",
        "2 prefixes change, 17 stay as they are",
    ]
    assert found[-1] == "2 prefixes change, 17 stay as they are"


def test_there_and_back() -> None:
    other = CAMPUS.replace(" ip ospf cost 5\n", " ip ospf cost 7\n")
    there, back = said(CAMPUS, other), said(other, CAMPUS)
    turned = [re.sub(r"^(  changed [^:]*: cost )(.*) -> (.*)$", r"\1\3 -> \2", line) for line in there]
    assert sorted(turned) == sorted(back)


def test_a_renamed_router() -> None:
    found = said(CAMPUS, CAMPUS.replace("hostname access2\n", "hostname edge2\n"))
    assert found[:2] == ["routers that are gone: access2", "routers that are new: edge2"]


def test_a_prefix_that_moves() -> None:
    moved = DISAGREE.replace("10.0.0.1 255.255.255.0", "10.9.0.1 255.255.255.0").replace(
        "network 10.0.0.0 mask", "network 10.9.0.0 mask"
    )
    found = said(DISAGREE, moved)
    assert found[:2] == ["prefixes that are gone: 10.0.0.0/24", "prefixes that are new: 10.9.0.0/24"]
    assert "  lost d: preference 100 length 0 here" in found and "  gained d: preference 100 length 0 here" in found


def test_an_empty_side() -> None:
    gone, new = said(CAMPUS, ""), said("", CAMPUS)
    assert gone[0] == "routers that are gone: core1, core2, dist1, dist2, access1, access2"
    assert "  lost dist1, dist2: cost 2 to core1 (TenGigabitEthernet1/1) and core2 (TenGigabitEthernet1/2)" in gone
    assert "  gained dist1, dist2: cost 2 to core1 (TenGigabitEthernet1/1) and core2 (TenGigabitEthernet1/2)" in new
    assert gone[-1] == new[-1] == "19 prefixes change, 0 stay as they are"
    assert said("", "!\n") == ["0 prefixes change, 0 stay as they are"]


def test_routers_in_another_order() -> None:
    routers = re.findall(r".*?^end\n", CAMPUS, re.M | re.S)
    other = CAMPUS.replace(" ip ospf cost 5\n", " ip ospf cost 7\n")
    assert said(CAMPUS, "".join(routers[::-1])) == NOTHING
    assert said(other, "".join(routers[3:] + routers[:3])) == said(other, CAMPUS)


def test_routers_of_the_names_that_lines_begin_with() -> None:
    named = DISAGREE.replace("hostname d\n", "hostname class\n").replace("hostname x\n", "hostname solution\n")
    edited_too = named.replace(" set local-preference 200\n", " set local-preference 90\n")
    plain = said(DISAGREE, DISAGREE.replace(" set local-preference 200\n", " set local-preference 90\n"))
    wanted = [re.sub(r"\bto d\b", "to class", re.sub(r"\bx\b", "solution", line)) for line in plain]
    assert said(named, edited_too) == wanted


def test_a_session_that_is_shut() -> None:
    found = said(
        DISAGREE,
        edited(DISAGREE, " neighbor 172.16.0.5 send", " neighbor 172.16.0.5 shutdown\n neighbor 172.16.0.5 send"),
    )
    assert found == [
        "10.0.0.0/24",
        "  stable solutions: 2 before, 1 after",
        "  changed x: preference 100 length 1 to d (GigabitEthernet0/0) or preference 200 length 2 to y (GigabitEthernet0/1)"
        " -> preference 100 length 1 to d (GigabitEthernet0/0)",
        "    in all solutions before: a route",
        "  changed y: preference 100 length 1 to d (GigabitEthernet0/0) or preference 200 length 2 to x (GigabitEthernet0/1)"
        " -> preference 100 length 1 to d (GigabitEthernet0/0)",
        "    in all solutions before: a route",
        "1 prefix changes, 0 stay as they are",
    ]


def test_a_second_solution_is_made() -> None:
    single = DISAGREE.replace(" set local-preference 200\n", " set local-preference 90\n")
    assert "  stable solutions: 1 before, 2 after" in said(single, DISAGREE)


def test_a_preference_without_effect() -> None:
    assert said(DISAGREE, DISAGREE.replace("route-map P permit 10", "route-map P permit 20")) == [
        "0 prefixes change, 1 stay as they are"
    ]


def test_a_community_that_is_set() -> None:
    found = said(
        DISAGREE, DISAGREE.replace(" set local-preference 200\n", " set local-preference 200\n set community 65000:1\n")
    )
    assert any("communities 65000:1" in line for line in found)


def test_a_tie() -> None:
    tied = text_of("asking/tags-tied.cfg")
    found = said(tied, edited(tied, "hostname spine2\n", "hostname spine9\n"))
    assert any(line.startswith("  tied before: leaf has tied routes") for line in found)


def disagreements(count: int) -> str:
    """A network of so many pairs of routers, each of which can come to rest in two ways."""
    pair = DISAGREE.split("hostname x\n")
    pieces = []
    for number in range(count):
        piece = "hostname x\n" + pair[1]
        base = 4 * number
        for name in "xy":
            piece = piece.replace(f"hostname {name}\n", f"hostname {name}{number}\n")
        piece = piece.replace("65002", str(65100 + base)).replace("65003", str(65101 + base))
        pieces.append(piece.replace("172.16.0.", f"172.16.{number}."))
    links, sessions = [], []
    for number in range(count):
        for far, local, which in ((1, 0, 0), (3, 2, 1)):
            links.append(
                f"interface GigabitEthernet{number}/{which}\n ip address 172.16.{number}.{local} 255.255.255.254\n"
            )
            sessions.append(f" neighbor 172.16.{number}.{far} remote-as {65100 + 4 * number + which}\n")
    origin = (
        "hostname d\ninterface Vlan1\n ip address 10.0.0.1 255.255.255.0\n"
        + "".join(links)
        + "router bgp 65001\n network 10.0.0.0 mask 255.255.255.0\n"
        + "".join(sessions)
        + "end\n"
    )
    return origin + "".join(pieces)


def test_more_solutions_than_are_compared() -> None:
    many = disagreements(7)
    found = said(DISAGREE, many)
    assert "  stable solutions: 2 before, more than 64 after" in found
    assert "  the first 64 stable solutions are compared, and no tie is looked for in more" in found
    assert "  lost x, y: preference 100 length 1 to d (GigabitEthernet0/0) or" in "\n".join(found).replace(
        "lost x:", "lost x, y:"
    )
    assert found[-1] == "1 prefix changes, 0 stay as they are"
    worded = many.replace("hostname d\n", "hostname d\nip prefix-list UNUSED seq 5 permit 0.0.0.0/0\n")
    assert said(many, worded) == [
        "0 prefixes change, 1 stay as they are",
        "more than 64 stable solutions, with the same labels: 10.0.0.0/24",
        "  next hops are compared in the first 64",
    ]


def test_what_the_first_solutions_do_not_show() -> None:
    """The first 64 of 128 have one route of the first pair, and the others have the other one."""
    found = said(disagreements(6), disagreements(7))
    assert found[:4] == [
        "routers that are new: x6, y6",
        "10.0.0.0/24",
        "  stable solutions: 64 before, more than 64 after",
        "  the first 64 stable solutions are compared, and no tie is looked for in more",
    ]
    named = {name for line in found if re.match("  (changed|lost|gained) ", line) for name in re.findall(r"\w+", line)}
    assert "x6" in named and not named & {f"{name}{number}" for name in "xy" for number in range(6)} - {"y0"}
    assert "    in the first 64 solutions after: a route" in found and not any("in all" in line for line in found)
    assert not [line for line in said(disagreements(7), disagreements(6)) if line.startswith("  changed ")]


def test_from_ospf_to_bgp() -> None:
    """Routes of the two have nothing in common but their next hops."""
    ospf = (
        "hostname a\ninterface Vlan1\n ip address 10.0.0.1 255.255.255.0\ninterface Ethernet0\n"
        " ip address 10.1.0.0 255.255.255.254\nrouter ospf 1\n network 10.0.0.0 0.255.255.255 area 0\nend\n"
        "hostname b\ninterface Ethernet0\n ip address 10.1.0.1 255.255.255.254\n"
        "router ospf 1\n network 10.0.0.0 0.255.255.255 area 0\nend\n"
    )
    first, second = ospf.replace("router ospf 1\n network 10.0.0.0 0.255.255.255 area 0\n", "@").split("@", 1)
    bgp = (
        f"{first}router bgp 65001\n network 10.0.0.0 mask 255.255.255.0\n neighbor 10.1.0.1 remote-as 65002\n"
        + second.replace("@", "router bgp 65002\n neighbor 10.1.0.0 remote-as 65001\n")
    )
    assert said(ospf, bgp) == [
        "prefixes that are gone: 10.1.0.0/31",
        "10.0.0.0/24",
        "  changed a: cost 1 -> preference 100 length 0",
        "  changed b: cost 11 -> preference 100 length 1",
        "10.1.0.0/31",
        "  lost a, b: cost 10 here",
        "2 prefixes change, 0 stay as they are",
    ]
    sides = [bonsainet.Network.from_text(text) for text in (ospf, bgp)]
    words = [reason.words for reason in reasons_of(Pair(*sides)).reasons]
    assert "a originates 10.0.0.0/24: in OSPF with cost 1 -> in BGP" in words
    assert not any("None" in word for word in words)
    assert "adjacency a Ethernet0 - b Ethernet0 (10.1.0.0/31) is gone: a has no OSPF process" in words
    assert "session a Ethernet0 - b Ethernet0 (10.1.0.0/31) is new: before, a has no BGP process" in words


def test_the_tool(tmp_path: Path) -> None:
    (tmp_path / "new.cfg").write_text(CAMPUS.replace(" ip ospf cost 5\n", " ip ospf cost 7\n"))
    ran = tool("bonsai-diff", INPUTS / "campus.cfg", tmp_path / "new.cfg")
    assert (ran.returncode, ran.stderr) == (8, b"")
    assert b"2 prefixes change, 17 stay as they are\nlinks, origins and numbers that differ\n  cost of " in ran.stdout
    same = tool("bonsai-diff", INPUTS / "campus.cfg", "-", raw=CAMPUS.encode())
    assert (same.returncode, same.stdout) == (0, f"{NOTHING[0]}\n".encode())
    written = tool("bonsai-diff", "--json", INPUTS / "campus.cfg", tmp_path / "new.cfg")
    jsonschema.validate(json.loads(written.stdout), SCHEMA)


@pytest.mark.parametrize(
    "name, words, told",
    [
        ("bonsai-diff", ("-", "-"), "can stand for one network only"),
        ("bonsai-diff", (INPUTS / "campus.cfg", "-", "--html", "-"), "--html takes a file"),
        ("bonsai-diff", (INPUTS / "campus.cfg", "-", "--decisions", "nowhere"), "both networks are texts"),
        (
            "bonsai-why",
            (INPUTS / "campus.cfg", "1", "dist1", "dist2", "--decisions", "nowhere"),
            "the network is a text",
        ),
    ],
)
def test_words_that_do_not_go_together(name: str, words: tuple[object, ...], told: str) -> None:
    ran = tool(name, *words, raw=CAMPUS.encode())
    assert (ran.returncode, ran.stdout) == (2, b"") and told in ran.stderr.decode()


def test_folders_and_refusals(tmp_path: Path) -> None:
    folder = TOP / "examples" / "folders" / "campus"
    ran = tool("bonsai-diff", "--decisions", folder / "decisions", folder / "configs", folder / "configs")
    assert ran.returncode == 0 and ran.stdout.startswith(b"0 prefixes change, ")
    assert ran.stderr.count(b"lines are written otherwise or left out") == 2
    refused = tool("bonsai-diff", folder / "configs", INPUTS / "campus.cfg")
    assert refused.returncode == 1 and b"lines are refused" in refused.stderr
    (tmp_path / "bad.cfg").write_text("hostname a\nnonsense\n")
    bad = tool("bonsai-diff", INPUTS / "campus.cfg", tmp_path / "bad.cfg")
    assert bad.returncode == 1 and b"line 2: " in bad.stderr


@pytest.mark.parametrize("more, ties", [("", []), ("route-map R permit 10\n", ["questions S"])])
def test_no_process_is_there_for_each_class(more: str, ties: list[str], monkeypatch: pytest.MonkeyPatch) -> None:
    tree = edited(text_of("fat-tree-4.cfg"), "end\n", f"{more}end\n", "agg0-0")
    sides = [
        bonsainet.Network.from_text(text) for text in (tree, edited(tree, " send-community", " shutdown", "agg0-0"))
    ]
    asked: list[str] = []
    started: Any = subprocess.Popen

    def run(words: list[str], **named: Any) -> Any:
        at = next((at for at, word in enumerate(words) if word.startswith("/proc/self/fd/")), len(words))
        asked.append(re.sub(r"/proc/self/fd/\d+", "S", " ".join(words[at + 1 :])))
        return started(words, **named)

    # (each program is found once, by its launcher)
    assert all(program(name).path for name in (BONSAI, ASK, ALL))
    monkeypatch.setattr(states, "processors", lambda: 4)
    monkeypatch.setattr(subprocess, "Popen", run)
    found, _ = compared(Pair(*sides))
    assert len(found.changed) == 2 and len(sides[0].classes) == 8
    assert sorted(asked) == sorted(2 * ["1-8 solutions", "1-8 forwards", *ties, "canon 1 8"])


def test_many_names_are_counted() -> None:
    names = tuple(f"r{number}" for number in range(20))
    assert listed(names, False) == "r0, r1, r2, r3, r4, r5, r6, r7 and 12 more"
    assert listed(names, True).endswith(", r19")
    assert listed(names[:9], False).endswith(", r8")


def test_next_hops_that_go_and_come() -> None:
    before, after = (tuple((name, ()) for name in names) for names in ("abc", "abd"))
    change = Change(Kind.CHANGED, ("r",), frozenset([Route(before)]), frozenset([Route(after)]), (Aspect.NEXT_HOPS,))
    assert list(change_lines(change)) == ["changed r: to 2 as before, no more c, also d"]
