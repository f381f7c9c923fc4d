"""Tools of two checkouts are measured in turn, and the table says what they take."""
from __future__ import annotations

import dataclasses
import subprocess
from pathlib import Path
from typing import Any

import pytest

from bonsainet.ask.native import program_file
from bonsainet.ask.program import ALL, ASK, BONSAI, TOP, variable_of
from bonsainet.bench import everything, tool_rows, tools
from bonsainet.bench.checkouts import checkout_around, checkout_at, commit_of, told_of
from bonsainet.bench.plot import PAGES
from bonsainet.bench.taken import taken
from bonsainet.bench.tool_plans import FOLDER, GROUPS, TEXT, TOOLS, chosen, plans
from bonsainet.bench.tool_rows import Row, read, tools_text, with_newer, write
from bonsainet.cli.command_line import Refused
from bonsainet.repo.marks import with_measured
from bonsainet.tests.asking import needs

PROGRAMS = (BONSAI, ASK, ALL)
DRAW = "bonsai-draw F 1"


@pytest.fixture(autouse=True)
def without_programs_of_the_environment(monkeypatch: pytest.MonkeyPatch) -> None:
    """Checkouts have their own programs."""
    for name in PROGRAMS:
        monkeypatch.delenv(variable_of(name), raising=False)


def script(place: Path, text: str) -> Path:
    """A shell script in its folder."""
    place.parent.mkdir(parents=True, exist_ok=True)
    place.write_text(f"#!/bin/sh\n{text}\n")
    place.chmod(0o755)
    return place


def built(folder: Path, name: str) -> Path:
    """The place where a build leaves a program in a checkout."""
    crate = name.replace("-", "_")
    return folder / "crates" / crate / "out" / crate


def made(folder: Path, text: str = "") -> Path:
    """A folder that looks like a checkout: each program and tool notes its state and its name in a file beside the folder."""
    for place in (*(built(folder, name) for name in PROGRAMS), *(folder / "tools" / name for name in TOOLS)):
        script(place, f"echo {folder.name} {place.name} >>{folder.parent / 'notes'}\n{text}")
    return folder


def ran(*asked: str | Path) -> None:
    """Runs the tool."""
    tools.work(tools.words().parse_args([*map(str, asked)]))


def row(command: str = DRAW, state: str = "after", wall: float = 0.5, **more: Any) -> Row:
    """A row whose other figures follow from the seconds of the clock."""
    found = Row(
        command, "fat tree", 500, "routers", "", None, state, 3, wall, wall + 0.1, 2 * wall, 2 * wall + 0.1, 1.5
    )
    return dataclasses.replace(found, **more)


def test_two_states_take_turns_and_none_is_always_first(tmp_path: Path, capsys: pytest.CaptureFixture[str]) -> None:
    ran(made(tmp_path / "old"), made(tmp_path / "new"), "--quick", "--runs", "2", "--tool", "bonsai-draw")
    words = (tmp_path / "notes").read_text().split("\n")[:-1]
    turn = ["old bonsai", "new bonsai", "old bonsai-draw", "new bonsai-draw"]
    assert words == [*turn, turn[1], turn[0], turn[3], turn[2]]
    table = capsys.readouterr().out
    assert table.startswith(
        "| command | network | goal, s | s, before | s, after | processor s, before | processor s, after |\n"
    )
    for name in (f"`{GROUPS}`", f"`{DRAW}`", f"`{DRAW}`, above `{GROUPS}`"):
        assert f"\n| {name} | fat tree, 20 routers |  | " in table
    assert "- Made with: before: old, with bonsai (of an unknown make, SHA-256 " in table and "; after: new, " in table


def test_one_state_is_measured_alone(tmp_path: Path, capsys: pytest.CaptureFixture[str]) -> None:
    ran(made(tmp_path / "new"), "--quick", "--runs", "1")
    table = capsys.readouterr().out
    assert table.startswith("| command | network | goal, s | s, after | processor s, after |\n")
    assert [name for name in TOOLS if f"`{name} " not in table] == [] and "in 1 to 1 turns" in table


def test_tools_run_as_a_person_runs_them(monkeypatch: pytest.MonkeyPatch, capsys: pytest.CaptureFixture[str]) -> None:
    for name in ("bonsai-draw", "bonsai-page"):
        needs(name)
    for name in PROGRAMS:
        monkeypatch.setenv(variable_of(name), program_file(name))
    ran(TOP, "--quick", "--runs", "1", "--named", "this")
    table = capsys.readouterr().out
    assert table.count("| fat tree, 80 routers |") == 3 and "| fat tree, 20 files |" in table
    assert "- Made with: after: this, with bonsai (" in table


def test_what_is_wrong_is_refused_before_anything_runs(tmp_path: Path) -> None:
    new = made(tmp_path / "new")
    for more, told in (
        (["--quick", "--keep"], "--quick"),
        (["--runs", "0"], "at least one"),
        (["--named", "a,b"], "1 states"),
    ):
        with pytest.raises(Refused, match=told):
            ran(new, *more)
    with pytest.raises(Refused, match="no folder tools"):
        ran(tmp_path, new)
    built(new, ASK).unlink()
    with pytest.raises(
        Refused, match="no program bonsai-ask: ./build makes it, and BONSAI_ASK_PROGRAM can name another"
    ):
        ran(new)
    assert not (tmp_path / "notes").exists()


def test_the_environment_names_the_programs_of_a_checkout(tmp_path: Path, monkeypatch: pytest.MonkeyPatch) -> None:
    new, other = made(tmp_path / "new"), script(tmp_path / "other", "exit 0")
    assert checkout_at(new).environment["BONSAI_ALL_PROGRAM"] == str(built(new, ALL))
    monkeypatch.setenv("BONSAI_PROGRAM", str(other))
    found = checkout_at(new)
    assert found.start("bonsai") == other and found.environment["BONSAI_PROGRAM"] == str(other)
    assert found.start("bonsai-json") == new / "tools" / "bonsai-json"


def test_a_state_is_called_by_its_commit(tmp_path: Path) -> None:
    new = made(tmp_path / "new")
    git = ["git", "-C", str(new), "-c", "user.name=a", "-c", "user.email=a@example.net"]
    assert commit_of(new) == "" and checkout_at(new).called == "new"
    for words in (["init", "-q"], ["add", "."], ["commit", "-q", "-m", "all"], ["tag", "v1"]):
        subprocess.run([*git, *words], check=True)
    commit = commit_of(new)
    assert len(commit) == 8 and checkout_at(new).called == commit and checkout_at(new, "fr\xfch").called == "fr\xfch"
    assert told_of({"after": checkout_at(new, "fr\xfch")}).startswith(
        "after: fr\\xfch, with bonsai (of an unknown make, "
    )
    (new / "tools" / TOOLS[0]).write_text("")
    assert commit_of(new) == f"{commit}-dirty"


def test_a_tool_that_fails_is_told_with_its_last_lines(tmp_path: Path) -> None:
    new = made(tmp_path / "new")
    script(new / "tools" / "bonsai-page", "for line in 1 2 3 4 5 6 7; do echo $line >&2; done\nexit 3")
    with pytest.raises(Refused, match="bonsai-page .*: status 3") as refused:
        ran(new, "--quick", "--runs", "1", "--tool", "bonsai-page")
    assert refused.value.details == ["3", "4", "5", "6", "7"]


def test_what_a_tool_starts_counts_as_its_own() -> None:
    busy = "import time\nwhile time.process_time() < 0.1: pass"
    found = taken(["/bin/sh", "-c", f"/usr/bin/python3 -c '{busy}'; true"], {})
    assert found.processors >= 0.1 and found.wall > 0 and found.memory > 1


def test_each_run_has_a_folder_of_its_own(tmp_path: Path) -> None:
    new = made(tmp_path / "new")
    script(new / "tools" / "bonsai-every", f'test ! -e "$2" && mkdir "$2" && echo "$2" >>{tmp_path / "folders"}')
    ran(new, "--quick", "--runs", "2", "--tool", "bonsai-every")
    folders = (tmp_path / "folders").read_text().split()
    assert len(set(folders)) == 2 and not any(Path(folder).exists() for folder in folders)


def test_plans_have_commands_that_run() -> None:
    for is_quick in (True, False):
        for plan in plans(is_quick):
            commands = [one.words for one in plan.commands]
            assert len(set(commands)) == len(commands) and {one.above for one in plan.commands} <= {"", *commands}
            assert {(FOLDER in words.split()) for words in commands} == {plan.unit == "files"}
            assert all(one.goal is None for one in plan.commands) or not is_quick
    assert {one.tool for plan in plans() for one in plan.commands} == {"bonsai", *TOOLS}
    assert [one.words for one in chosen(plans()[0], ["bonsai-draw"]).commands] == [GROUPS, DRAW]
    assert [one.words for one in chosen(plans()[0], ["bonsai-page"]).commands] == ["bonsai-page F"]
    whole = plans()[1]
    assert not chosen(whole, ["bonsai-page"]).commands and chosen(whole, None) == whole


@pytest.mark.parametrize("number, size", [(0, 20), (1, 80), (2, 20), (3, 22)])
def test_networks_have_the_size_that_is_told(tmp_path: Path, number: int, size: int) -> None:
    plan = plans(is_quick=True)[number]
    plan.write(tmp_path)
    assert plan.size(tmp_path) == size and (tmp_path / TEXT).exists() == (plan.unit == "routers")


def test_rows_are_kept_as_they_are(tmp_path: Path) -> None:
    rows = [row(goal=0.6, above=GROUPS), row("bonsai-page F", state="before")]
    write(rows, "two states", tmp_path / "rows.csv")
    assert read(tmp_path / "rows.csv") == ("two states", rows)


def test_rows_of_the_same_states_are_kept_beside_newer_ones(tmp_path: Path, monkeypatch: pytest.MonkeyPatch) -> None:
    monkeypatch.setattr(tool_rows, "KEPT", tmp_path / "rows.csv")
    monkeypatch.setattr(tools, "plans", lambda _is_quick: plans(is_quick=True))
    new = made(tmp_path / "new")
    for more, commands in (
        (["--tool", "bonsai-page"], ["bonsai-page F"]),
        (["--tool", "bonsai-doubts"], ["bonsai-page F", "bonsai-doubts F"]),
        (["--tool", "bonsai-page"], ["bonsai-page F", "bonsai-doubts F"]),
        (["--tool", "bonsai-doubts", "--named", "another"], ["bonsai-doubts F"]),
    ):
        ran(new, "--runs", "1", "--keep", *more)
        assert [one.command for one in read(tmp_path / "rows.csv")[1]] == commands


def test_a_newer_row_takes_the_place_of_its_own_kind() -> None:
    rows = [row(), row(state="before"), row("bonsai-page F")]
    assert with_newer(rows, [row(wall=0.75), row("bonsai-doubts F")]) == [
        row(wall=0.75),
        *rows[1:],
        row("bonsai-doubts F"),
    ]


def test_the_table_has_what_a_command_takes_above_another() -> None:
    rows = [
        row(GROUPS, "before", 0.25),
        row(GROUPS, "after", 0.125),
        row(state="before", wall=1.5, goal=0.6, above=GROUPS),
        row(state="after", wall=1.0, goal=0.6, above=GROUPS),
        row("bonsai-page F", "after", 4.0, goal=5.0),
    ]
    table = tools_text("two states", rows).splitlines()
    over = "fat tree, 500 routers"
    assert table[2:6] == [
        f"| `{GROUPS}` | {over} |  | 0.25 (0.35) | 0.12 (0.23) | 0.50 (0.60) | 0.25 (0.35) |",
        f"| `{DRAW}` | {over} |  | 1.50 (1.60) | 1.00 (1.10) | 3.00 (3.10) | 2.00 (2.10) |",
        f"| `{DRAW}`, above `{GROUPS}` | {over} | 0.6 | 1.25 (1.25) | 0.88 (0.88) | 2.50 (2.50) | 1.75 (1.75) |",
        f"| `bonsai-page F` | {over} | 5 |  | 4.00 (4.10) |  | 8.00 (8.10) |",
    ]
    assert table[7:] == [
        f"- Longer than its goal, of 2 commands with one: `{DRAW}`, above `{GROUPS}` over 500 routers, 0.88 s for 0.6.",
        "- Made with: two states, in 3 to 3 turns, at a load of 1.5 to 1.5.",
    ]
    assert "with one: none.\n" in tools_text("one state", [row("bonsai-page F", wall=4.0, goal=5.0)])


def test_the_page_has_a_place_for_the_table() -> None:
    page = PAGES[1].read_text("utf-8")
    assert with_measured(page, "tools", "another table\n") != page


def test_all_measurements_have_the_tools_of_the_checkouts(tmp_path: Path, capsys: pytest.CaptureFixture[str]) -> None:
    old, new = built(made(tmp_path / "old"), BONSAI), built(made(tmp_path / "new"), BONSAI)
    alone = script(tmp_path / "bonsai", "exit 0")
    assert checkout_around(new) == tmp_path / "new" and checkout_around(alone) is None
    for programs, folders, named in (
        ([old, new], ["old", "new"], "a,b"),
        ([alone, new], ["new"], "b"),
        ([old, alone], [], ""),
    ):
        asked = everything.words().parse_args([*map(str, programs), "--named", "a,b"])
        found = [words for tool, words in everything.steps(asked) if tool is tools]
        assert len(found) == bool(folders)
        for words in found:
            given = tools.words().parse_args(words)
            assert [it.name for it in (given.before, given.after) if it] == folders and given.keep
            assert given.named == named
        assert ("is in no checkout" in capsys.readouterr().err) == (alone in programs)
