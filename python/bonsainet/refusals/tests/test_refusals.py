"""Each refusal is the program's, the first is that of the whole text, and what is left is accepted."""
from __future__ import annotations

import json
import os
import signal
import subprocess
import time

import pytest
from hypothesis import given, settings
from hypothesis import strategies as st

from bonsainet.nets.fat_tree import fat_tree_text
from bonsainet.lines.examples import TEXTS
from bonsainet.ask.program import TOP, Program
from bonsainet.ask.where import without_notices
from bonsainet.refusals.causes import cause_of
from bonsainet.refusals.collect import Entry, Refusals, collect
from bonsainet.refusals.layout import Input, parts_of, read, stanza_at
from bonsainet.refusals.rounds import Found
from bonsainet.tests.asking import bytes_of, slow_program, tool, wait_for
from bonsainet.configs.text import lines_of

TWO = "hostname {}\ninterface Serial0/0\n ip address 10.0.0.{} 255.255.255.252\nrouter bgp {}\n neighbor 10.0.0.{} remote-as {}\n{}end\n"
A = TWO.format("a", 1, 1, 2, 2, "")
B = TWO.format("b", 2, 2, 1, 1, "")


def refusals(text: str) -> Refusals:
    return collect(Program(), Input("F", text, parts_of(lines_of(text, "F"))))


def told(text: str) -> list[tuple[int, str, str]]:
    """Line, kind and text judged of each refusal."""
    return [(line_of(entry), entry.kind, entry.judged) for entry in refusals(text).entries]


def line_of(entry: Entry) -> int:
    """The number of the line that an entry names."""
    assert entry.line
    return entry.line.place.line


@pytest.mark.parametrize("kind", TEXTS)
def test_the_first_is_that_of_the_program(kind: str) -> None:
    own = Program().refusal(TEXTS[kind])
    found = refusals(TEXTS[kind])
    first = found.entries[0]
    assert own and (first.kind, line_of(first), first.judged) == (own.kind, own.line, "the whole text")
    assert found.not_judged is None


def test_an_accepted_text_has_none() -> None:
    assert told(A + B) == []
    assert told("") == []


def test_all_of_each_router() -> None:
    text = A.replace("end\n", "ip route 0.0.0.0 0.0.0.0 Null0\nend\n") + B.replace(
        " ip address", " bfd\n ip address"
    ).replace("end\n", "mpls ip\nend\n")
    assert told(text) == [
        (6, "Unsupported", "the whole text"),
        (10, "UnknownLine", "its router alone"),
        (14, "Unsupported", "its router alone"),
    ]


def test_a_top_line_goes_with_its_stanza() -> None:
    text = A.replace("end\n", "router rip\n network 10.0.0.0\n! note\n version 2\nip route x\nend\n")
    assert told(text) == [(6, "Unsupported", "the whole text"), (10, "Unsupported", "its router alone")]
    assert stanza_at(text.splitlines(), 5) == [5, 6, 8]


def test_consequences() -> None:
    lines = " neighbor 10.0.0.2 send-community\n neighbor 10.0.0.2 route-map IN in\nroute-map IN permit\n"
    found = refusals(A.replace("remote-as 2", "remote-as two").replace("end\n", lines + "end\n"))
    assert consequences(found) == [
        (5, "BadForm", None),
        (6, "Misplaced", 5),
        (7, "Misplaced", 5),
        (8, "BadForm", None),
    ]


def test_a_list_whose_definition_is_refused() -> None:
    text = A.replace("end\n", " neighbor 10.0.0.2 prefix-list NETS in\nip prefix-list NETS permit 10.0.0.0/8\nend\n")
    assert [(entry.kind, entry.because and entry.because.line) for entry in refusals(text).entries] == [
        ("BadForm", None),
        ("UndefinedList", 7),
    ]


def test_two_routers() -> None:
    text = A + B.replace("router bgp 2", "router bgp 1").replace("remote-as 1", "remote-as 7")
    assert told(text + A.replace("hostname a", "hostname c").replace("10.0.0.1 ", "10.9.0.1 ")) == [
        (10, "SharedAs", "the whole text"),
        (16, "SharedAs", "its router and a alone"),
    ]


def test_what_lacks_is_added() -> None:
    assert told("interface Serial0/0\n bfd\nend\nhostname b\nmpls ip\n") == [
        (2, "UnknownLine", "the whole text"),
        (3, "NoHostname", "its router alone"),
        (5, "Unsupported", "its router alone"),
        (4, "NoEnd", "its router alone"),
    ]


def test_a_wrong_end() -> None:
    assert told(A.replace("end\n", "end of it\n") + B) == [(6, "BadForm", "the whole text")]


def test_bytes_outside_ascii() -> None:
    assert told(A.replace(" ip address", " description \udcff\udcfe\n ip address") + B) == [
        (3, "NotAscii", "the whole text")
    ]


def test_a_text_that_is_too_long() -> None:
    text = "!" * 1000 + "\n"
    found = refusals(text * 9_000 + A + text * 9_000 + B.replace("end\n", "mpls ip\nend\n"))
    assert (found.entries[0].kind, found.entries[0].line) == ("FileTooLong", None)
    assert [entry.kind for entry in found.entries] == ["FileTooLong", "Unsupported"]
    assert found.not_judged == "FileTooLong"


def test_many_routers_side_by_side() -> None:
    text = fat_tree_text(8).replace("end\n", "ip route x\nmpls ip\nend\n")
    found = refusals(text)
    assert len(found.entries) == 2 * 80
    assert [line_of(entry) for entry in found.entries] == sorted(line_of(entry) for entry in found.entries)


def test_a_folder_has_its_files_and_lines(tmp_path) -> None:
    (tmp_path / "a.txt").write_text(A.replace("end\n", "mpls ip\nend\n"))
    (tmp_path / "b.txt").write_text(B.replace("end\n", "mpls ip\nend\n"))
    found = collect(Program(), read(str(tmp_path)))
    places = [entry.line.place for entry in found.entries if entry.line]
    assert [(place.file, place.line) for place in places] == [("a.txt", 6), ("b.txt", 6)]


def test_the_command() -> None:
    ran = tool("bonsai-refusals", "-", "--json", raw=(A + B).replace("end\n", "mpls ip\nend\n").encode())
    made = json.loads(ran.stdout)
    assert ran.returncode == 1 and ran.stderr == b"bonsai-refusals: -: 2 refusals, 0 of them consequences\n"
    assert [(entry["line"], entry["kind"], entry["head"]) for entry in made["refusals"]] == [
        (6, "Unsupported", "mpls"),
        (13, "Unsupported", "mpls"),
    ]
    assert [(group["head"], group["count"]) for group in made["groups"]] == [("mpls", 2)]


def test_no_refusal_and_no_file() -> None:
    ran = tool("bonsai-refusals", "-", raw=(A + B).encode())
    assert (ran.returncode, ran.stdout.splitlines()[:2], ran.stderr) == (0, [b"-: nothing is refused", b""], b"")
    ran = tool("bonsai-refusals", "/nowhere")
    assert (ran.returncode, ran.stderr) == (3, b"bonsai-refusals: /nowhere: No such file or directory\n")


IN_INTERFACE = (
    " bfd interval 300",
    " ip ospf network broadcast",
    " description caf\udce9",
    " ip address dhcp",
    " mtu",
    " no such line",
)
AT_TOP = ("mpls ip", "ip route 0.0.0.0 0.0.0.0 Null0", "no such line", "router rip", "route-map", "description \udce9")
CAMPUS = bytes_of("campus.cfg").decode().splitlines()
INTERFACES = [place for place, line in enumerate(CAMPUS) if line.startswith("interface ")]
ENDS = [place for place, line in enumerate(CAMPUS) if line == "end"]


@settings(max_examples=25, deadline=None)
@given(
    st.dictionaries(st.sampled_from(INTERFACES), st.sampled_from(IN_INTERFACE), max_size=6),
    st.dictionaries(st.sampled_from(ENDS), st.sampled_from(AT_TOP), max_size=4),
)
def test_each_line_that_was_put_in_is_told(inside: dict[int, str], at_top: dict[int, str]) -> None:
    """Lines under interfaces, and top lines before an `end`: all are refused but ` mtu`, which is ignored."""
    lines: list[str] = []
    expected: list[int] = []
    for place, line in enumerate(CAMPUS):
        before, behind = at_top.get(place), inside.get(place)
        lines += [text for text in (before, line, behind) if text]
        if before:
            expected.append(len(lines) - 1)
        if behind and behind != " mtu":
            expected.append(len(lines))
    text = "".join(f"{line}\n" for line in lines)
    found = refusals(text).entries
    own = Program().refusal(text)
    assert sorted(line_of(entry) for entry in found) == expected
    assert (own.line, own.kind) == (line_of(found[0]), found[0].kind) if own else not found


@pytest.mark.parametrize("sort", ["--json", ""])
def test_bytes_outside_ascii_are_written_as_escapes(sort: str) -> None:
    ran = tool(
        "bonsai-refusals",
        "-",
        *([sort] if sort else []),
        raw=b"hostname a\n\xff\x1b[1m word\nend\n",
        env={"LC_ALL": "C.UTF-8", **os.environ},
    )
    assert ran.returncode == 1 and ran.stdout.isascii() and b"\x1b" not in ran.stdout


def test_an_interrupt_is_one_line(tmp_path) -> None:
    asked = slow_program(Program(), tmp_path, "0.5")
    text = fat_tree_text(16).replace("end\n", "ip route x\nmpls ip\nip vrf x\nend\n")
    command = [str(TOP / "tools" / "bonsai-refusals"), "-"]
    with subprocess.Popen(
        command,
        stdin=subprocess.PIPE,
        stdout=subprocess.PIPE,
        stderr=subprocess.PIPE,
        start_new_session=True,
        env={**os.environ, "BONSAI_PROGRAM": str(tmp_path / "slow")},
    ) as ran:
        assert ran.stdin and ran.stdout and ran.stderr
        ran.stdin.write(text.encode())
        ran.stdin.close()
        wait_for(lambda: asked.exists() and asked.read_bytes().count(b"\n") > 4)
        os.killpg(ran.pid, signal.SIGINT)
        told = without_notices(ran.stderr.read())
        assert (ran.wait(), ran.stdout.read(), told) == (130, b"", b"bonsai-refusals: interrupted\n")


def because(text: str) -> list[tuple[int, str, int | None]]:
    """Line, kind and the line of which it is the consequence."""
    return consequences(refusals(text))


def consequences(found: Refusals) -> list[tuple[int, str, int | None]]:
    """The same of refusals that were collected."""
    return [(line_of(entry), entry.kind, entry.because.line if entry.because else None) for entry in found.entries]


def test_an_interface_of_a_vrf_that_joins_the_global_table() -> None:
    vrf = "interface Vlan1\n vrf forwarding MGMT\n ip address 10.0.0.1 255.255.255.0\n"
    assert because(A.replace("router bgp", f"{vrf}router bgp")) == [(5, "Unsupported", None), (6, "SharedAddress", 5)]
    assert because(A.replace("interface Serial0/0", f"{vrf}interface Serial0/0")) == [
        (3, "Unsupported", None),
        (6, "SharedAddress", 3),
    ]


def test_lines_of_a_family_that_is_set_aside() -> None:
    lines = " address-family ipv4 vrf RED\n  neighbor 10.0.0.2 remote-as 9\n  network 2001:db8::/32\n exit-address-family\n bgp dampening\n"
    assert because(A.replace("end\n", f"{lines}end\n")) == [
        (6, "Unsupported", None),
        (7, "Repeated", 6),
        (8, "BadForm", 6),
        (9, "UnknownLine", 6),
        (10, "Unsupported", None),
    ]


def test_lines_of_the_unicast_family_are_refused_for_themselves() -> None:
    lines = " address-family ipv4\n  neighbor 10.0.0.2 weight 9\n exit-address-family\n"
    assert because(A.replace("end\n", f"{lines}end\n")) == [
        (6, "Unsupported", None),
        (7, "Unsupported", None),
        (8, "UnknownLine", 6),
    ]


def test_a_router_without_its_end() -> None:
    """The second `hostname` is refused, and so is what both routers have. The remedy asks for `end` before it says what
    to delete."""
    assert because(A.replace("end\n", "") + B) == [(6, "Repeated", None), (7, "Repeated", 6), (9, "Repeated", 6)]
    remedy = refusals(A.replace("end\n", "") + B).entries[0].remedy
    assert remedy.index("whether `end` is before that `hostname`") < remedy.index("keep the line")


@pytest.mark.parametrize("coding", ["utf-8:strict", "ascii:strict"])
def test_bytes_are_told_as_a_person_reads_them(coding: str, tmp_path) -> None:
    """Bytes in a line and in the name of a file, in the text and in JSON."""
    name = os.fsencode(tmp_path / "in") + b"\xff.cfg"
    with open(name, "wb") as file:
        file.write(b"hostname a\nmpls caf\xe9\nend\n")
    given = (name, os.fsencode(tmp_path))
    for words in [(one, *form) for one in given for form in ((), (b"--json",))]:
        command = [os.fsencode(TOP / "tools" / "bonsai-refusals"), *words]
        ran = subprocess.run(command, capture_output=True, check=False, env={**os.environ, "PYTHONIOENCODING": coding})
        escape = b"\\\\" if b"--json" in words else b"\\"
        assert ran.returncode == 1 and without_notices(ran.stderr).count(b"\n") == 1
        assert (
            (b"mpls caf" + escape + b"xe9") in ran.stdout
            and (b"in" + escape + b"xff.cfg") in ran.stdout
            and b"udc" not in ran.stdout
        )


def test_a_list_in_the_words_of_frr() -> None:
    lines = "bgp community-list standard C permit 1:1\nroute-map IN permit 10\n match community C\n"
    assert because(A.replace("end\n", f"{lines}end\n")) == [(6, "UnknownLine", None), (8, "UndefinedList", 6)]


def test_causes_of_many_lines_take_no_time() -> None:
    texts = ["hostname a", *["no such line"] * 200, "hostname b", *["ip address 10.0.0.1 255.255.255.0"] * 200]
    refused = [Found(place, "UnknownLine") for place in range(1, len(texts))]
    begun = time.process_time()
    causes = [cause_of("Repeated", texts, place, refused[: place - 1]) for place in range(1, len(texts))]
    assert time.process_time() - begun < 5
    assert causes[:201] == [None] * 201 and causes[201:] == [201] * 200


def test_of_a_folder_it_tells_what_the_import_leaves(tmp_path) -> None:
    (tmp_path / "a.cfg").write_text(
        "hostname a\nipv6 unicast-routing\nrouter bgp 1\n aggregate-address 10.0.0.0 255.0.0.0\nend\n"
    )
    ran = tool("bonsai-refusals", tmp_path, "--json")
    found = json.loads(ran.stdout)["refusals"]
    assert [(one["line"], one["kind"], one["head"], one["judged"]) for one in found] == [
        (4, "Unsupported", "aggregate-address", "what the import leaves")
    ]
    assert "it adds a route" in found[0]["remedy"]
    raw = json.loads(tool("bonsai-refusals", tmp_path, "--raw", "--json").stdout)["refusals"]
    assert [one["line"] for one in raw] == [2, 4]
    (tmp_path / "decisions").mkdir()
    decided = tmp_path / "decisions" / "decisions.json"
    decided.write_text('drop "aggregate-address *" because "nobody asks about it"\n')
    ran = tool("bonsai-refusals", tmp_path, "--decisions", decided)
    assert (ran.returncode, ran.stdout.splitlines()[0]) == (0, f"{tmp_path}: nothing is refused".encode())
