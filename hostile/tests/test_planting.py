"""Faults can be planted where they say."""
from __future__ import annotations

import collections
import shutil
import subprocess
import sys
from pathlib import Path

import pytest

from hostile.asked_run import Found
from hostile.planting import (
    ask_faults,
    asked,
    copies,
    expecting,
    judge_faults,
    program_faults,
    record,
    switching,
    tool_faults,
    tools,
)
from hostile.planting.fault import SWITCH, Fault
from bonsainet.ask.program import TOP

ALL = [(TOP / "hostile" / "judge", fault) for fault in judge_faults.FAULTS] + [
    (TOP / "crates", fault) for fault in [*program_faults.FAULTS, *ask_faults.FAULTS]
]
ALL += [(TOP, fault) for fault in tool_faults.FAULTS]


@pytest.mark.parametrize(("folder", "fault"), ALL, ids=lambda part: part.name if isinstance(part, Fault) else "in")
def test_a_fault_fits(folder: Path, fault: Fault, tmp_path: Path) -> None:
    """Its right piece stands once in its file, and its name is its own."""
    copy = tmp_path / "copy"
    copy.write_text((folder / fault.file).read_text())
    copies.planted(fault, copy)
    assert fault.wrong in copy.read_text() and copy.read_text() != (folder / fault.file).read_text()
    if folder.name != "crates":
        compile(copy.read_text(), fault.file, "exec")


def test_names_are_different() -> None:
    """In each list; at least ten, and in many layers."""
    for faults in (judge_faults.FAULTS, program_faults.FAULTS):
        assert len({fault.name for fault in faults}) == len(faults) and len({fault.layer for fault in faults}) >= 10


def test_a_piece_that_is_not_there(tmp_path: Path) -> None:
    """Unfit, and nothing is written."""
    (tmp_path / "file").write_text("a a\n")
    for right in ("a", "b"):
        with pytest.raises(copies.Unfit):
            copies.planted(Fault("x", "layer", "file", right, "c", "means"), tmp_path / "file")


def test_a_fault_of_the_second_reader_is_found(tmp_path: Path) -> None:
    """The copy expects something else than the right reader over one of the first texts; the right one expects the same
    over all."""
    expecting.keep(tmp_path / "expected", 40, 1)
    assert expecting.first_other(tmp_path / "expected") == (40, "")
    room = tmp_path / "room"
    room.mkdir()
    script = copies.reader(
        Fault(
            "all-refused", "words", "words.py", "return 1 <= len(word) <= 63", "return False", "no word names a list"
        ),
        room,
    )
    ran = subprocess.run(
        [sys.executable, "-m", "hostile.planting.expecting", str(tmp_path / "expected")],
        cwd=room,
        capture_output=True,
        text=True,
        check=False,
    )
    assert script.is_file() and ran.returncode == 0 and ran.stdout.split()[1:] == ["classes"], ran.stdout + ran.stderr


@pytest.mark.parametrize(("tool", "faults"), [("plant", program_faults.FAULTS), ("sensitivity", judge_faults.FAULTS)])
def test_the_words_of_the_tools(tool: str, faults: list[Fault]) -> None:
    """`--list` names all; a name that is none is refused."""
    path = str(TOP / "hostile" / tool)
    listed = subprocess.run([path, "--list"], capture_output=True, text=True, check=False)
    assert listed.returncode == 0 and [line.split()[0] for line in listed.stdout.splitlines()] == [
        fault.name for fault in faults
    ]
    assert subprocess.run([path, "nothing"], capture_output=True, check=False).returncode == 2


def test_outcomes_are_kept_and_told(tmp_path: Path) -> None:
    """One more outcome has its line, and what is missed is named; what stands around the table stays."""
    file, page = tmp_path / "planted.json", tmp_path / "page.md"
    page.write_text(f"head\n{record.BEGIN}\nold\n{record.END}\ntail\n")
    one, two = program_faults.FAULTS[:2]
    for fault, command in ((two, ""), (one, "classes"), (one, "groups")):
        record.keep(fault=fault, command=command, texts=1200, seconds=4.4, seed=1, file=file, page=page)
    assert page.read_text().splitlines()[4:] == [
        f"| {one.layer} | {one.means} | `groups` | 1,200 | 4 |",
        f"| {two.layer} | {two.means} | **not found** | 1,200 | 4 |",
        "",
        f"Found: 1 of the 2 that were tried; `hostile/plant --list` names {len(program_faults.FAULTS)}. Missed: {two.means}.",
        record.END,
        "tail",
    ]


def test_the_page_has_the_kept_outcomes() -> None:
    """The table of hostile/README.md is the one of the file."""
    told = record.PAGE.read_text("utf-8").partition(record.BEGIN)[2].partition(record.END)[0]
    assert told.strip() == record.table(record.kept())


def test_tests_of_the_faults_of_tools_are_there() -> None:
    assert all((TOP / test).is_file() for fault in tool_faults.FAULTS for test in fault.tests)
    assert len(tool_faults.FAULTS) >= 16 and len({fault.name for fault in tool_faults.FAULTS}) == len(
        tool_faults.FAULTS
    )


def test_a_fault_of_the_tools_is_seen(tmp_path: Path) -> None:
    """By a test of its part; a copy without a fault passes."""
    fault = next(one for one in tool_faults.FAULTS if one.name == "tools-whole")
    assert tools.tried(fault).test == "test_a_file_is_written_beside_and_then_moved"
    page, kept = tmp_path / "page", tmp_path / "kept"
    page.write_text(f"before\n{tools.BEGIN}\nold\n{tools.END}\nbehind\n")
    tools.keep(tools.Seen(fault, "test_x", 1.25), kept, page)
    text = page.read_text()
    assert "| tools | a file is written in its place | `test_x` | 1 |" in text and "Seen: 1 of 1." in text
    assert "old" not in text and text.endswith(f"{tools.END}\nbehind\n")


NEW_CRATES = (
    "solution_search srp_without srp_questions solution_answers spare_links ask_words ask_names ask_classes ask_requests ask_answers "
    "all_classes"
).split()
SMALL_CRATES = {"answer_texts": 1, "ask_top": 10, "endings": 11, "network_files": 5, "shared_routes": 3}


def test_there_are_ten_faults_of_each_new_crate_or_as_many_as_a_small_one_has_places() -> None:
    crates = collections.Counter(fault.file.partition("/")[0] for fault in ask_faults.FAULTS)
    assert all(crates[name] >= 10 for name in NEW_CRATES)
    assert all(crates[name] >= least for name, least in SMALL_CRATES.items())
    assert set(crates) == {*NEW_CRATES, *SMALL_CRATES}
    assert len({fault.name for fault in ask_faults.FAULTS}) == len(ask_faults.FAULTS)
    assert all(fault.wrong.count(SWITCH) == 1 for fault in ask_faults.FAULTS)


BY_PROGRAM = {**ask_faults.BY_PROGRAM, "bonsai": program_faults.SWITCHED}


@pytest.mark.parametrize("called", sorted(BY_PROGRAM))
def test_all_faults_of_a_program_fit_into_one_copy_behind_their_numbers(called: str, tmp_path: Path) -> None:
    shutil.copytree(TOP / "crates", tmp_path / "crates", ignore=shutil.ignore_patterns("out", "target", "proofs"))
    faults = BY_PROGRAM[called]
    switching.put(faults, tmp_path / "crates")
    for number, fault in switching.numbered(faults):
        assert f"base_kit::planted({number})" in (tmp_path / "crates" / fault.file).read_text()
    assert "pub use planted::planted;" in (tmp_path / "crates" / "base_kit" / "src" / "lib.rt").read_text()
    lines = switching.lines_of_crates((TOP / "crates.txt").read_text(), faults).splitlines()
    below = {head: rest.split() for head, _, rest in (line.partition(":") for line in lines)}
    assert all("base_kit" in below[fault.file.partition("/")[0]] for fault in faults)


def test_a_process_has_the_number_of_the_fault_that_is_switched_on() -> None:
    words = [sys.executable, "-c", "import resource; print(resource.getrlimit(resource.RLIMIT_MSGQUEUE)[0])"]
    before = subprocess.run(words, capture_output=True, check=True).stdout
    with switching.switched(7):
        assert subprocess.run(words, capture_output=True, check=True).stdout == b"7\n"
    assert subprocess.run(words, capture_output=True, check=True).stdout == before


def test_a_command_has_the_number_of_its_fault() -> None:
    """And the others none: `prlimit` gives it to the command that follows."""
    fault = program_faults.SWITCHED[6]
    before = switching.words_of(fault, program_faults.SWITCHED)
    words = [sys.executable, "-c", "import resource; print(resource.getrlimit(resource.RLIMIT_MSGQUEUE)[0])"]
    assert subprocess.run([*before, *words], capture_output=True, check=True).stdout == b"7\n"
    assert not switching.words_of(program_faults.ALONE[0], program_faults.SWITCHED)


def test_each_switched_fault_of_the_program_has_one_switch() -> None:
    """Those in copies of their own have none, and no fault is planted below the crate with the switch."""
    assert all(fault.wrong.count(SWITCH) == 1 for fault in program_faults.SWITCHED)
    assert all(SWITCH not in fault.wrong for fault in program_faults.ALONE)
    assert not any(fault.file.startswith(f"{switching.LOW}/") for fault in program_faults.SWITCHED)


def test_a_fault_is_found_at_the_first_difference(tmp_path: Path, monkeypatch: pytest.MonkeyPatch) -> None:
    """A run without one goes on with other texts; a fault that shows nowhere is not found."""
    fault = ask_faults.FAULTS[0]
    turns: list[list[str]] = [[], [], ["a"]]
    (tmp_path / "a.txt").write_text("words 1 hops 2 r1\nexpected a line 'class 1 no'\nstatus 0\n")
    monkeypatch.setattr(asked, "run", lambda *_: Found(texts=20, differences=turns.pop(0) if turns else []))
    assert asked.tried(fault, 1, "bonsai-ask", tmp_path, 1, 9.0, tmp_path) == asked.Seen(fault, "1 hops 2 r1", 60)
    assert asked.tried(fault, 1, "bonsai-ask", tmp_path, 1, 0.05, tmp_path).words == ""


def test_the_table_of_found_faults_is_written(tmp_path: Path) -> None:
    """Between its marks, in the order of the faults."""
    page = tmp_path / "README.md"
    page.write_text(f"a\n{asked.BEGIN}\nold\n{asked.END}\nb\n")
    for fault, words in zip(ask_faults.FAULTS[:2], ("", "1 hops 2 r1")):
        asked.keep(asked.Seen(fault, words, 50), tmp_path / "kept.json", page)
    assert "Found: 1 of the 2 that were tried." in page.read_text()
    assert page.read_text().startswith(f"a\n{asked.BEGIN}\n| crate") and page.read_text().endswith(f"{asked.END}\nb\n")
