"""How a text is cut and read: docs/use/LINES.md, its first paragraphs and "What the lines mean"."""
from __future__ import annotations

import pytest

from hostile.judge import reading
from hostile.tests.texts import one, refusal, router, text


def test_lines() -> None:
    """Newlines cut; one carriage return before an end is no part; a last piece without a newline is a line if it has a
    byte."""
    assert reading.lines_of(b"a\r\nb\r\r\n\nc") == [b"a", b"b\r", b"", b"c"]
    assert reading.lines_of(b"a\n") == [b"a"] and reading.lines_of(b"") == [] and reading.lines_of(b"\n") == [b""]


def test_words() -> None:
    """Blanks and tabs part words."""
    assert reading.split(b"\t a  b\tc ") == ["a", "b", "c"] and reading.split(b" \t ") == []


def test_a_carriage_return_within_a_line_is_not_ascii() -> None:
    """Only the last one before the end is no part of the line."""
    assert refusal(b"hostname a\r\r\nend\n") == (1, "NotAscii")
    assert reading.read(b"hostname a\r\nend\r\n")[0].name == "a"
    assert refusal(b"hostname a\n\x7f\nend\n") == (2, "NotAscii")


def test_faults_of_lines_come_before_faults_of_form() -> None:
    """The first pass that finds one decides, however late its line."""
    assert refusal(b"frobnicate\n!\x00\n") == (2, "NotAscii")
    assert refusal(b"frobnicate\n" + b"!" * 1025 + b"\n!\x00\n") == (2, "LineTooLong")


def test_faults_of_form_come_before_those_of_the_network() -> None:
    """A shared name stands before an unknown line."""
    assert refusal(text(*router("a"), *router("a", "frobnicate"))) == (4, "UnknownLine")


def test_comments_close_no_stanza() -> None:
    """A line without words or with `!` first is skipped, indented or not."""
    port = one("interface Vlan1", "!", "", " ! x", " ip address 10.0.0.1 255.255.255.0").interfaces["Vlan1"]
    assert (port.address, port.length, port.line) == (10 << 24 | 1, 24, 6)


def test_an_indented_line_needs_a_stanza() -> None:
    """`hostname`, `end` and lists open none; an ignored line opens one whose lines are ignored too."""
    assert refusal(text("hostname a", " shutdown", "end")) == (2, "Misplaced")
    assert refusal(text(*router("a", "interface Vlan1", "ip prefix-list P seq 5 permit 0.0.0.0/0", " shutdown"))) == (
        4,
        "Misplaced",
    )
    assert refusal(text(*router("a"), " shutdown")) == (3, "Misplaced")
    assert refusal(text("\tfrobnicate")) == (1, "Misplaced")
    assert one("line con 0", " frobnicate", "\tlogin", "vlan 7", "  name x").interfaces == {}


def test_a_stanza_ends_with_the_next_top_line() -> None:
    """Also with one that is refused or known."""
    assert refusal(text(*router("a", "interface Vlan1", "ip cef", " ip address dhcp", "hostname b"))) == (5, "Repeated")


@pytest.mark.parametrize(
    ("scope", "line", "kind"),
    [
        ([], "no ip cef", None),
        ([], "no ip routing", "Unsupported"),
        ([], "no frobnicate", "UnknownLine"),
        ([], "ip", "UnknownLine"),
        ([], "router rip", "Unsupported"),
        ([], "router bgp x", "BadForm"),
        ([], "router", "Unsupported"),
        ([], "ip community-list 100 permit x", "Unsupported"),
        ([], "ip community-list 501 permit 1:1", "BadForm"),
        ([], "ip community-list expanded X permit .", "Unsupported"),
        ([], "ip prefix-list P description x", None),
        ([], "ip prefix-list description seq 5 permit 0.0.0.0/0", None),
        ([], "END", "UnknownLine"),
        ([], "Hostname a", "UnknownLine"),
        (["interface Vlan1"], "ip ospf priority 3", None),
        (["interface Vlan1"], "ip ospf network broadcast", "Unsupported"),
        (["interface Vlan1"], "ip ospf cost x", "BadForm"),
        (["interface Vlan1"], "ip address 10.0.0.1 255.255.255.0 secondary", "BadForm"),
        (["interface Vlan1"], "no ip address", None),
        (["interface Vlan1"], "network 10.0.0.0", "UnknownLine"),
        (["router bgp 1"], "bgp router-id 1.1.1.1", None),
        (["router bgp 1"], "bgp always-compare-med", "Unsupported"),
        (["router bgp 1"], "bgp default ipv4-unicast", "Unsupported"),
        (["router bgp 1"], "bgp default local-preference", "BadForm"),
        (["router bgp 1"], "neighbor X description y", None),
        (["router bgp 1"], "neighbor X send-community extended", None),
        (["router bgp 1"], "neighbor 1.1.1.1 weight 3", "Unsupported"),
        (["router bgp 1"], "neighbor X remote-as 3", "BadForm"),
        (["router bgp 1"], "neighbor", "Unsupported"),
        (["router ospf 1"], "no passive-interface default", "BadForm"),
        (["router ospf 1"], "area 0 stub", "Unsupported"),
        (["router ospf 1"], "router-id 1.1.1.1", None),
        (["route-map M permit 10"], "match as-path 3", "Unsupported"),
        (["route-map M permit 10"], "match ip address 7", "Unsupported"),
        (["route-map M permit 10"], "match ip address prefix-list", "BadForm"),
        (["route-map M permit 10"], "set metric 3", "Unsupported"),
        (["route-map M permit 10"], "description x", None),
    ],
)
def test_the_longest_head_decides(scope: list[str], line: str, kind: str | None) -> None:
    """Known, ignored, refused, or in no table, in the scope of the line."""
    lines = router("a", *scope, f"{' ' if scope else ''}{line}")
    if kind is None:
        assert reading.read(text(*lines))[0].name == "a"
    else:
        assert refusal(text(*lines)) == (len(lines) - 1, kind)


def test_the_end() -> None:
    """The last line with words is a top line `end`; NoHostname comes at an `end` before a missing one behind it."""
    assert reading.read(b"") == [] and reading.read(b"!\n\n") == []
    assert refusal(text("hostname a", "end", "hostname b", "!")) == (3, "NoEnd")
    assert refusal(text("hostname a", "line con 0", " end")) == (3, "NoEnd")
    assert refusal(text("end", "hostname b")) == (1, "NoHostname")
    assert refusal(text("hostname a", "end all", "end")) == (2, "BadForm")


def test_notes_of_members() -> None:
    """`! member NAME` notes a member of the router whose `end` comes next."""
    first, second = reading.read(
        text(
            "hostname a",
            "! member a",
            "! member b",
            "end",
            "! member c",
            "hostname d",
            "! member d e",
            "!member f",
            "end",
        )
    )
    assert (first.notes, second.notes) == (["a", "b"], ["c"])


def test_places_of_lines() -> None:
    """Each value has the line that gives it."""
    whole = one(
        "router bgp 7", " neighbor 10.0.0.2 remote-as 8", "interface Vlan1", " ip address 10.0.0.1 255.255.255.0"
    )
    assert whole.bgp is not None
    assert (whole.line, whole.bgp.line, whole.bgp.neighbors[10 << 24 | 2].line, whole.interfaces["Vlan1"].line) == (
        1,
        2,
        3,
        5,
    )
