"""Programs are measured in turn over networks of each shape, and rows are kept."""
import argparse
import dataclasses
import subprocess
from pathlib import Path
from typing import Any

import pytest

from bonsainet.repo import packing
from bonsainet.bench import everything, kept, turns
from bonsainet.bench.inputs import outward, second_files
from bonsainet.bench.kept import Row, Table
from bonsainet.bench.measures import INSTRUCTIONS, LONG, MEMORY, SECONDS, Measure, in_turn, least, wanted
from bonsainet.bench.shapes import SHAPES, ring
from bonsainet.bench.states import kind, machine, names_of, told_of
from bonsainet.bench.turns import COMMANDS, LOOPBACKS_SIZES, SIZES, SUMMARY_SIZES, TRIALS, head, line, measured, plan
from bonsainet.cli.command_line import Refused
from bonsainet.ask.native import native
from bonsainet.ask.program import Program


@pytest.fixture
def programs() -> list:
    return [native(Program())] * 2


@pytest.fixture
def folder(tmp_path, monkeypatch):
    monkeypatch.setattr(kept, "FOLDER", tmp_path)
    return tmp_path


def row_of(command: str = "groups", before: float = 0.2, after: float = 0.1, **more: Any) -> Row:
    told: dict[str, Any] = {
        "shape": "ospf-ring",
        "size": 2048,
        "routers": 2048,
        "links": 2048,
        "classes": 2049,
        "bytes": 1000,
        "turns": 5,
        "load": 0.5,
    } | more
    return Row(command=command, least=((before, before / 2), (after, after / 2)), **told)


@pytest.mark.parametrize("shape", SHAPES)
def test_the_shapes_are_read_and_have_classes(shape: str) -> None:
    text = SHAPES[shape].text(32)
    assert Program().refusal(text) is None
    told = Program().summary(text)
    names, links = SHAPES[shape].graph(32)
    assert told and {(found.routers, found.links) for found in told} == {(len(names), len(links))}


def test_each_router_of_the_loopbacks_has_a_class() -> None:
    told = Program().classes(SHAPES["ospf-loopbacks"].text(32))
    assert sum(found.prefixes[0].endswith("/32") for found in told) == 32


def test_every_command_is_measured_on_a_ring(programs) -> None:
    found = list(
        measured(programs, plan(["ospf-ring"], COMMANDS, (8,), frozenset()) + [("fat-tree", "trial", (4,))], 1, SECONDS)
    )
    assert [row.command for row in found] == list(COMMANDS)
    assert all(len(row.least) == 2 and row.least[0][0] >= row.least[0][1] for row in found)
    told = {row.command: (row.routers, row.links, row.classes) for row in found}
    assert told["groups"] == (8, 8, 9) and told["trial"] == (20, 32, 8)
    assert len({row.bytes for row in found}) > 3


def test_paths_longer_than_all_rounds_come_to_rest(programs, tmp_path) -> None:
    file = tmp_path / "F"
    for shape in ("ospf-ring", "bgp-ring"):
        file.write_text(SHAPES[shape].text(256))
        assert {"labels", "small"} <= set(
            second_files(programs[0], tmp_path, file, SHAPES[shape].graph(256), ["check", "lift"])
        )


def test_routers_by_their_distance() -> None:
    assert outward(ring(5), "r4") == ["r4", "r3", "r0", "r2", "r1"]


def test_what_does_not_come_to_rest_is_told(programs, capsys, monkeypatch) -> None:
    monkeypatch.setattr("bonsainet.bench.inputs.outward", lambda _graph, _origin: [])
    found = list(measured(programs, [("ospf-ring", "run", (8, 256)), ("ospf-ring", "check", (8, 256))], 1, SECONDS))
    assert [(row.command, row.size) for row in found] == [("run", 8), ("run", 256), ("check", 8)]
    assert "do not come to rest" in capsys.readouterr().err


def test_a_program_that_refuses_ends_the_run(tmp_path) -> None:
    program = tmp_path / "program"
    program.write_text("#!/bin/sh\nexit 1\n")
    program.chmod(0o755)
    with pytest.raises(Refused, match="status 1"):
        list(measured([program], [("ospf-ring", "classes", (8,))], 1, SECONDS))


def test_other_answers_are_told(programs, tmp_path, capsys) -> None:
    other = tmp_path / "program"
    other.write_text("#!/bin/sh\necho other\n")
    other.chmod(0o755)
    assert (
        len(list(measured([programs[0], other], [("ospf-ring", it, (8,)) for it in ("groups", "certify")], 1, SECONDS)))
        == 2
    )
    assert capsys.readouterr().err == "turns: ospf-ring 8 groups: the programs write different answers\n"


def test_the_usual_plan_has_every_command_on_every_shape() -> None:
    whole = plan([*SHAPES, "fat-tree"], COMMANDS, None, frozenset())
    told = {(shape, size, command) for shape, command, sizes in whole for size in sizes}
    assert {(shape, command) for shape, _, command in told} == {
        (shape, command) for shape in SHAPES for command in COMMANDS[:-1]
    } | {("fat-tree", "trial")}
    for shape, sizes in (("ospf-loopbacks", LOOPBACKS_SIZES), ("ospf-ring", SUMMARY_SIZES), ("bgp-ring", SIZES)):
        assert [size for found, size, command in sorted(told) if (found, command) == (shape, "summary")] == list(sizes)
    assert {size for _, size, command in told if command == "groups"} == set(SIZES) and {
        size for shape, size, _ in told if shape == "fat-tree"
    } == set(TRIALS)
    assert not plan([*SHAPES, "fat-tree"], COMMANDS, None, frozenset(told))
    assert plan(["ospf-ring"], ("groups", "trial"), (8,), frozenset()) == [("ospf-ring", "groups", (8,))]


def test_short_runs_get_more_turns_and_long_ones_fewer() -> None:
    def turn(before: float, after: float) -> tuple:
        return ((before, before), (after, after))

    assert wanted([], 5, SECONDS) == 5
    assert wanted([turn(0.5, 0.4)], 5, SECONDS) == 5
    assert wanted([turn(0.01, 0.01)], 5, SECONDS) == 10
    assert wanted([turn(LONG / 2, LONG)], 5, SECONDS) == 1
    assert wanted([turn(0.5, 0.6)] * 5, 5, SECONDS) == wanted([turn(0.51, 0.5)] * 5, 5, SECONDS) == 20
    assert wanted([turn(0.6, 0.5)] * 5, 5, SECONDS) == wanted([turn(0.5, 0.6)] * 5 + [turn(0.5, 0.4)], 5, SECONDS) == 5
    assert wanted([turn(0.01, 0.2)], 5, MEMORY) == 5
    assert least([((3, 1), (5, 2)), ((2, 2), (6, 1))]) == ((2, 1), (5, 1))


def test_no_program_always_runs_first() -> None:
    ran = []

    def of(program: Path, _asked: list[str]) -> tuple[float, ...]:
        ran.append(program.name)
        return (len(ran) + 10.0 * (program.name == "b"),)

    programs = [Path("a"), Path("b")]
    assert in_turn(programs, [["x"]], 3, Measure("memory", "", "", 0, 0, of)) == [(((1.0,), (12.0,)), 3)]
    assert "".join(ran) == "abbaab"


def test_chance_makes_nothing_slower() -> None:
    assert SECONDS.is_more(1.0, 1.06) and not SECONDS.is_more(1.0, 1.04)
    assert not SECONDS.is_more(0.004, 0.0045) and SECONDS.is_more(0.004, 0.006)


def test_a_row_tells_factor_and_growth() -> None:
    assert line(row_of(), 0.05, SECONDS) == "| ospf-ring | 2,048 | `groups` | 0.2000 | 0.1000 | 0.50 | 2.0 |"
    assert line(row_of(), 0.001, SECONDS) == "| ospf-ring | 2,048 | `groups` | 0.2000 | 0.1000 | 0.50 |  |"
    assert head(2, SECONDS).splitlines()[0].count("|") == line(row_of(), None, SECONDS).count("|")


def test_memory_in_the_place_of_time(programs) -> None:
    found = list(measured(programs, [("ospf-ring", it, (8,)) for it in ("classes", "compress")], 1, MEMORY))
    assert [row.command for row in found] == ["classes", "compress"] and all(0.5 < row.before < 64 for row in found)
    assert head(2, MEMORY).startswith(
        "| network | routers | command | MiB, program 1 | MiB, program 2 | last to first |"
    )


def test_rows_are_kept_as_they_are(folder) -> None:
    for measure, least_figures in ((SECONDS, ((0.25, 0.125), (0.5, 0.25))), (MEMORY, ((20.5,), (10.5,)))):
        rows = [row_of(), row_of("certify")]
        rows = [dataclasses.replace(row, least=least_figures) for row in rows]
        table = Table.opened(measure, "two programs")
        for row in rows:
            table.append(row)
        again = Table.opened(measure, "two programs")
        assert again.rows == rows and again.told == "two programs" and (folder / f"{measure.name}.csv").is_file()
        assert Table.opened(measure, "others").rows == []


def test_a_row_that_was_cut_is_none(folder) -> None:
    table = Table.opened(SECONDS, "two programs")
    rows = [row_of(), row_of("certify")]
    for row in rows:
        table.append(row)
    whole = table.place.read_bytes()
    for cut in range(1, len(whole)):
        table.place.write_bytes(whole[:cut])
        kept_rows = [
            row for row, end in zip(rows, (whole.rindex(b"\n", 0, -1) + 1, len(whole)), strict=True) if cut >= end
        ]
        assert Table.read(SECONDS).rows == kept_rows
        again = Table.opened(SECONDS, "two programs")
        assert again.rows == kept_rows
        for row in rows[len(kept_rows) :]:
            again.append(row)
        assert table.place.read_bytes() == whole


def test_rows_that_are_dropped_are_told(folder, capsys) -> None:
    Table.opened(SECONDS, "two programs").append(row_of())
    Table.opened(SECONDS, "two programs")
    assert not capsys.readouterr().err
    assert Table.opened(SECONDS, "others").rows == []
    assert capsys.readouterr().err == "turns.csv: 1 rows of other programs are dropped (two programs)\n"


def test_names_have_any_letters(folder, tmp_path, monkeypatch) -> None:
    monkeypatch.setattr("bonsainet.bench.states.Path.read_text", lambda _file, *_more: "model name\t: Intel\xae Xeon\n")
    assert machine().endswith(" processors, Intel\\xae Xeon")
    program = tmp_path / "program"
    program.write_bytes(b"\x7fELF")
    told = told_of([program, program], ["fr\xfch", "a\nb"])
    assert told.isascii() and told.startswith("before: fr\\xfch (") and "; after: a?b (" in told
    Table.opened(SECONDS, told).append(row_of())
    assert Table.opened(SECONDS, told).rows == [row_of()]


def test_anew_is_for_what_is_kept(tmp_path) -> None:
    with pytest.raises(Refused, match="--keep"):
        turns.work(turns.words().parse_args([str(tmp_path), "--anew"]))


def test_what_is_kept_is_not_measured_again(folder, programs, capsys) -> None:
    asked = [
        *map(str, programs),
        "--keep",
        "--named",
        "old,new",
        "--shape",
        "ospf-ring",
        "--sizes",
        "8",
        "--runs",
        "1",
        "--command",
        "groups",
    ]
    tries: list[tuple[list[str], int]] = [([], 3), ([], 2), (["--command", "classes"], 3), (["--anew"], 3)]
    for more, lines in tries:
        turns.work(turns.words().parse_args([*asked, *more]))
        assert len(capsys.readouterr().out.splitlines()) == lines
    told = Table.read(SECONDS).told
    assert told.startswith(f"before: old ({kind(programs[0])}, SHA-256 ") and "; after: new (" in told
    assert [row.command for row in Table.read(SECONDS).rows] == ["classes", "groups"]


def test_two_states_have_two_names(tmp_path) -> None:
    assert names_of(None, [tmp_path / "a", tmp_path / "b"]) == ["a", "b"]
    for named, count in (("a", 2), ("a,b", 3)):
        with pytest.raises(Refused, match="two names"):
            names_of(named, [tmp_path] * count)


def test_an_unproved_build_is_told(tmp_path) -> None:
    program, made = tmp_path / "program", tmp_path / "program.made"
    for data, told in ((b"\x7fELF __asan_init", "an unproved build"), (b"\x7fELF", "of an unknown make")):
        program.write_bytes(data)
        assert kind(program) == told
    for first, told in (("0" * 64, "proved by ./build"), ("optimized, unproved", "optimized, unproved")):
        made.write_text(f"{first}\n{packing.sum_of(program)}\n", "utf-8")
        assert kind(program) == told
    for text in ("", "\n", f"\n{packing.sum_of(program)}\n", "proved\n"):
        made.write_text(text, "utf-8")
        assert kind(program) == "of an unknown make"
    made.write_text(f"proved\n{packing.sum_of(program)}\n", "utf-8")
    program.write_bytes(b"another")
    assert kind(program) == "of an unknown make"


def test_all_measurements_are_made_of_two_states(programs) -> None:
    found = everything.steps(everything.words().parse_args([*map(str, programs), "--named", "old,new"]))
    # (tools are measured where the programs are in checkouts)
    names = [tool.__name__.rpartition(".")[2] for tool, _ in found]
    assert [name for name in names if name != "tools"] == [
        "turns",
        "turns",
        "turns",
        "profile",
        "paper",
        "turns",
        "plot",
    ]
    for tool, asked in found:
        assert tool.words().parse_args(asked)


def test_what_a_later_step_needs_is_looked_for_first(tmp_path, monkeypatch) -> None:
    monkeypatch.setattr("shutil.which", lambda _name: None)
    monkeypatch.setattr("importlib.util.find_spec", lambda _name: None)
    monkeypatch.setattr("bonsainet.bench.paper.TIME", str(tmp_path / "time"))
    with pytest.raises(Refused, match="packages linux-perf, time, valgrind, python3-matplotlib"):
        everything.work(everything.words().parse_args([str(tmp_path), str(tmp_path)]))
    assert "z3" in everything.packages(True) and "z3" not in everything.packages(False)
    monkeypatch.setattr(everything, "packages", lambda _asks: [])
    (tmp_path / "bonsai").write_text("")
    (tmp_path / "bonsai").chmod(0o755)
    with pytest.raises(Refused, match="bonsai_ask and bonsai_all are not there beside"):
        everything.work(everything.words().parse_args([str(tmp_path / "bonsai"), str(tmp_path / "bonsai")]))


def test_instructions_go_without_memory(programs) -> None:
    with pytest.raises(Refused, match="--instructions"):
        turns.work(turns.words().parse_args([*map(str, programs), "--instructions", "--memory"]))


def test_kept_instructions_are_those_of_few_routers(folder, programs, monkeypatch, capsys) -> None:
    figures = iter((2.0, 1.0))
    monkeypatch.setattr(turns, "INSTRUCTIONS", dataclasses.replace(INSTRUCTIONS, of=lambda *_asked: (next(figures),)))
    asked = [*map(str, programs), "--keep", "--instructions", "--shape", "ospf-ring", "--command", "groups"]
    for lines in (3, 2):
        turns.work(turns.words().parse_args(asked))
        assert len(capsys.readouterr().out.splitlines()) == lines
    (row,) = Table.read(INSTRUCTIONS).rows
    assert (row.routers, row.turns, row.before, row.after) == (256, 1, 2.0, 1.0)


def test_the_figure_is_measured_where_the_program_is_given(tmp_path: Path, monkeypatch: pytest.MonkeyPatch) -> None:
    """FRR by root alone; what fails is reported."""
    program = tmp_path / "program"
    program.write_text("#!/bin/sh\n")
    program.chmod(0o755)
    called: list[list[str]] = []
    failing = "--nothing"

    def run(words: list[str], check: bool) -> subprocess.CompletedProcess[str]:
        called.append([str(word) for word in words[1:]])
        return subprocess.CompletedProcess(words, 1 if failing in words else 0)

    monkeypatch.setattr(everything.subprocess, "run", run)
    monkeypatch.setattr(everything.os, "geteuid", lambda: 0)
    assert not everything.figure(program, program)
    both = ["--bonsai", str(program), "--ask", str(program)]
    assert called == [[*both, "--keep"], [*both, "--frr"], ["--draw"]]
    failing = "--frr"
    assert everything.figure(program, program) == [f"bench/asked {' '.join(both)} --frr: status 1"] and len(called) == 6
    called.clear()
    failing = "--keep"
    assert len(everything.figure(program, program)) == len(called) == 1
    called.clear()
    monkeypatch.setattr(everything.os, "geteuid", lambda: 1000)
    failing = "--draw"
    assert everything.figure(program, program) == ["bench/asked --draw: status 1"] and len(called) == 2


def test_a_step_that_fails_keeps_no_other_from_its_work(programs, monkeypatch: pytest.MonkeyPatch) -> None:
    worked: list[str] = []

    class Step:
        """A step that notes its name, and fails where its name says so."""

        def __init__(self, name: str) -> None:
            self.__name__ = f"bench.{name}"

        def words(self) -> argparse.ArgumentParser:
            """No words."""
            return argparse.ArgumentParser()

        def work(self, _words: argparse.Namespace) -> None:
            """Its work."""
            worked.append(self.__name__)
            if "fails" in self.__name__:
                raise Refused("no machine")

    monkeypatch.setattr(everything, "packages", lambda _asks: [])
    monkeypatch.setattr(everything.questions, "programs_of", lambda _program: {})
    monkeypatch.setattr(everything, "steps", lambda _words: [(Step("fails"), []), (Step("plot"), [])])
    with pytest.raises(Refused, match="^fails: no machine$"):
        everything.work(everything.words().parse_args(list(map(str, programs))))
    assert worked == ["bench.fails", "bench.plot"]
