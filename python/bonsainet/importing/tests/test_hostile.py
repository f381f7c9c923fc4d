"""Folders that somebody made to harm: what a terminal would obey, lines that take long, and lines that change in silence."""
from __future__ import annotations

import re
import time
from pathlib import Path

import pytest
from hypothesis import given
from hypothesis import strategies as st

from bonsainet.ask.program import Program
from bonsainet.cli.command_line import Refused, one_line, printable
from bonsainet.importing.cleaning import MORE
from bonsainet.importing.decisions import Decisions, _fits, decisions_in, read_decisions
from bonsainet.importing.folder import Folder, Source
from bonsainet.importing.judge import judge
from bonsainet.importing.read import read_folder
from bonsainet.importing.report import Silent, report_of
from bonsainet.importing.rules.options import Options
from bonsainet.importing.tool import import_folder, work
from bonsainet.tests.asking import tool

ROUTER = (
    "hostname a\ninterface Vlan1\n ip address 10.0.0.1 255.255.255.0\n"
    "router ospf 1\n network 0.0.0.0 255.255.255.255 area 0\n"
)
OBEYED = "\x1b[2J\x1b]0;PWNED\x07\x9b31m\u202e"


def test_the_report_has_nothing_that_a_terminal_obeys(tmp_path: Path) -> None:
    (tmp_path / "folder").mkdir()
    (tmp_path / "folder/r.cfg").write_text(f"{ROUTER} ip bogus {OBEYED}\nend\n", "utf-8")
    (tmp_path / "folder/odd\x1b[31m\n.cfg").write_text(f"hostname b\n bogus {OBEYED}\nend\n", "utf-8")
    reason = f'drop at "r.cfg" "ip bogus*" because told {OBEYED}\n'
    (tmp_path / "decisions").write_text(reason, "utf-8")
    given_words: list[list[str]] = [[], ["--decisions", str(tmp_path / "decisions")]]
    for words in given_words:
        ran = tool("bonsai-import", tmp_path / "folder", *words)
        told = ran.stderr.decode()
        assert "PWNED" in told
        assert all(letter == "\n" or letter.isprintable() for letter in told)


def test_names_of_files_are_one_line() -> None:
    assert one_line("a\x1b\x7f\x9b\n") == "a????"
    assert printable("Zürich \x9b\udcff\t") == "Zürich \\x9b\\xff\\t"


@pytest.mark.parametrize("line", ["<" + "-" * 100_000, "-" * 100_000 + "x", "<" + "- " * 50_000, " " * 100_000 + "-"])
def test_a_line_of_many_dashes_takes_no_time(line: str) -> None:
    begun = time.process_time()
    assert not MORE.match(line)
    assert time.process_time() - begun < 2


@pytest.mark.parametrize(
    "line", [" --More-- ", "--More--", "<--- More --->", "---- (more 50%)----", " --more--\x08\x08", "-- (More) --"]
)
def test_what_a_terminal_prints_between_pages(line: str) -> None:
    assert MORE.fullmatch(line.rstrip() + " ") or MORE.fullmatch(line)


def test_patterns_of_several_stars_take_no_time() -> None:
    begun = time.process_time()
    assert not _fits("10.0.0.1 name " * 20_000, "*10.0.0.1*name*10*name*10*Z")
    assert time.process_time() - begun < 2


@given(st.text("ab*", max_size=6), st.text("ab", max_size=9))
def test_patterns_fit_as_they_are_told(pattern: str, text: str) -> None:
    told = re.fullmatch(".*".join(map(re.escape, pattern.split("*"))), text)
    assert _fits(text, pattern) == (told is not None)


@pytest.mark.parametrize("verb", ["drop", "drop!"])
def test_a_line_outside_ascii_is_dropped_as_another(verb: str, tmp_path: Path, program: Program) -> None:
    told = []
    for name in ("Zuerich", "Zürich"):
        (tmp_path / "r.cfg").write_text(f"{ROUTER}ip route 10.1.0.0 255.255.0.0 Null0 name {name}\nend\n", "utf-8")
        decisions = read_decisions(f'{verb} "ip route *" because "not asked about"\n', "decisions")
        report = import_folder(str(tmp_path), program, decisions)
        told.append([(found.name, found.reason) for found in report.refused])
        assert (told[-1] == []) == ("left out [decision]" in report.text) == (verb == "drop!" or not told[0])
    assert told[0] == told[1]
    assert [found.name for found in import_folder(str(tmp_path), program).refused] == ["characters"]


def test_a_line_outside_ascii_ends_no_import(tmp_path: Path, program: Program) -> None:
    (tmp_path / "r.cfg").write_text(f"{ROUTER}no such Zürich\nno such line\nend\n", "utf-8")
    report = import_folder(str(tmp_path), program)
    assert [found.place.line for found in report.refused] == [6, 7] and report.folder.log.remarks == []


def test_a_line_that_changes_without_a_rule_is_told(tmp_path: Path, program: Program) -> None:
    (tmp_path / "r.cfg").write_text(f"{ROUTER}end\n")
    folder = read_folder(str(tmp_path))
    work(folder, program, Decisions(), Options())
    report_of(folder)
    stanza = next(found for found in folder.routers[0].stanzas if found.starts("interface"))
    stanza.body = [line.with_text(line.text.replace("10.0.0.1", "10.0.0.2")) for line in stanza.body]
    with pytest.raises(Silent, match=r"r\.cfg:3: 'ip address 10\.0\.0\.1 .* no rule says why"):
        report_of(folder)
    stanza.body = []
    with pytest.raises(Silent):
        report_of(folder)


def test_a_router_without_lines_is_refused_by_its_file(tmp_path: Path, program: Program) -> None:
    folder = Folder([Source("a", [], file="a.cfg")], {})
    judge(folder, program, lambda *_: False)
    assert [(found.place.file, found.place.line) for found in folder.log.refusals] in ([], [("a.cfg", 0)])


def test_decisions_without_an_end() -> None:
    with pytest.raises(Refused, match="/dev/zero: has more than 16777216 characters"):
        decisions_in("/dev/zero")


@pytest.mark.parametrize(
    "head",
    ["system mtu routing 1500", "no ip prefix-list sequence-number", "ip community-list expanded X permit _1:1_"],
)
def test_a_line_below_one_that_opens_nothing_is_told(head: str, tmp_path: Path, program: Program) -> None:
    (tmp_path / "a.cfg").write_text(ROUTER.replace("router ospf", f"{head}\n no such line\nrouter ospf"))
    report = import_folder(str(tmp_path), program)
    told = {change.place.line: change.before for change in report.changes}
    assert " no such line" in told.values() and not report.refused
