"""A skeleton of decisions has one for each refused line, decides nothing as it stands, and imports once completed."""
from __future__ import annotations

import re
from pathlib import Path

import pytest

from bonsainet.ask.program import TOP, Program
from bonsainet.cli.command_line import Refused
from bonsainet.importing.decisions import read_decisions
from bonsainet.importing.suggest import skeleton
from bonsainet.importing.tests.test_refusals import A_BGP, A_OSPF, B_BGP, B_OSPF, refused, report
from bonsainet.importing.tool import import_folder, main


def completed(text: str) -> str:
    """The decisions of a skeleton, each with a reason and the first of several values."""
    lines = [line[2:] for line in text.splitlines() if re.match(r"# (drop|drop!|bandwidth|cost|undefined) at ", line)]
    return "\n".join(re.sub(r"(\w+)\|\w+ because", r"\1 because", line).replace('""', '"asked so"') for line in lines)


def test_the_campus_is_imported_by_what_is_suggested(program: Program) -> None:
    folder = str(TOP / "examples" / "folders" / "campus")
    first = import_folder(folder, program)
    told = skeleton(first.folder, first.refused)
    assert '# bandwidth at core1.cfg "Port-channel1" 20000000 because ""' in told.splitlines()
    assert "#   its 2 members have 20000000 kbit/s together" in told.splitlines()
    assert not read_decisions(told, "skeleton").all
    assert not refused(import_folder(folder, program, read_decisions(completed(told), "skeleton")))


@pytest.mark.parametrize(
    "texts, decision",
    [
        ((A_BGP + " neighbor 172.16.0.2 route-map NONE in\n", B_BGP), 'undefined at r0.cfg "NONE" permit because'),
        (
            (
                A_BGP
                + " neighbor 172.16.0.2 route-map M in\nroute-map M permit 10\n match as-path 1\nroute-map M permit 20\n",
                B_BGP,
            ),
            'drop at r0.cfg "route-map M permit 10" because',
        ),
        (
            (A_BGP + " neighbor 172.16.0.2 local-as 65099\n", B_BGP),
            'drop at r0.cfg "neighbor 172.16.0.2 local-as 65099" because',
        ),
        ((A_OSPF.replace("Vlan1", "Tunnel1"), B_OSPF), 'bandwidth at r0.cfg "Tunnel1" KBITS because'),
        (
            (
                A_BGP + " neighbor 172.16.0.2 route-map M out\nroute-map M permit 10\n set metric 5\n set origin egp\n",
                B_BGP,
            ),
            'drop at r0.cfg "set origin egp" because',
        ),
    ],
)
def test_a_decision_for_each(texts: tuple[str, str], decision: str, tmp_path: Path, program: Program) -> None:
    found = report(tmp_path, program, texts)
    made = completed(skeleton(found.folder, found.refused))
    assert made.startswith(decision)
    assert not refused(report(tmp_path, program, texts, made.replace("KBITS", "100")))


def test_a_map_of_which_no_entry_is_left(tmp_path: Path, program: Program) -> None:
    """Its name takes a decision in the same round, and one alone, behind the entry that goes last."""
    entries = "route-map M permit 10\n match tag 5\n match metric 5\nroute-map M deny 20\n match tag 6\n"
    texts = (A_BGP + f" neighbor 172.16.0.2 route-map M out\n{entries}", B_BGP)
    found = report(tmp_path, program, texts)
    told = skeleton(found.folder, found.refused)
    assert told.count("undefined at") == 1
    assert told.endswith('# undefined at r0.cfg "M" deny|permit because ""\n')
    assert not refused(report(tmp_path, program, texts, completed(told)))


def test_a_map_of_which_an_entry_is_left(tmp_path: Path, program: Program) -> None:
    entries = "route-map M permit 10\n match tag 5\nroute-map M permit 20\n"
    found = report(tmp_path, program, (A_BGP + f" neighbor 172.16.0.2 route-map M out\n{entries}", B_BGP))
    assert "undefined" not in skeleton(found.folder, found.refused)


def test_the_command(tmp_path: Path) -> None:
    room, kept = tmp_path / "folder", tmp_path / "decisions"
    room.mkdir()
    (room / "a.cfg").write_text(A_BGP + " neighbor 172.16.0.2 local-as 65099\nend\n")
    words = [str(room), "--report", str(tmp_path / "report"), "--suggest", str(kept)]
    with pytest.raises(Refused, match="1 line is refused"):
        main(words)
    assert '# drop at a.cfg "neighbor 172.16.0.2 local-as 65099" because ""' in kept.read_text().splitlines()
    kept.write_text('drop "neighbor * local-as *" because "mine"\n')
    with pytest.raises(Refused, match="a skeleton would take their place"):
        main(words)
    assert kept.read_text() == 'drop "neighbor * local-as *" because "mine"\n'


def test_a_refusal_by_the_program_says_what_to_do(tmp_path: Path, program: Program) -> None:
    found = report(tmp_path, program, (A_BGP + " aggregate-address 10.0.0.0 255.0.0.0\n", B_BGP))
    told = "the program refuses this line: Unsupported: it adds a route, and with `summary-only` takes others."
    assert [(one.kind, one.reason[: len(told)]) for one in found.folder.log.refusals] == [("Unsupported", told)]


def test_routers_that_do_not_agree_on_a_stub_area(tmp_path: Path, program: Program) -> None:
    found = report(tmp_path, program, (A_OSPF + " area 0 stub\n", B_OSPF))
    assert [(one.name, one.reason.partition(":")[0]) for one in found.folder.log.refusals] == [
        ("ospf-stub", "r1.cfg has no such line")
    ]
