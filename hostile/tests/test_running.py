"""A short run of hostile use, and whether it sees a program that errs."""
from __future__ import annotations

import json
import stat
import subprocess
from collections.abc import Mapping
from pathlib import Path

import pytest

from hostile import laws, running, shrink
from hostile.asking import Asked, Asker, Counts
from hostile.compare import Comparison
from hostile.judge import answers
from bonsainet.ask.program import TOP, Answer, Program


def test_a_short_run_finds_no_difference(tmp_path: Path) -> None:
    """Twenty seconds at most, two jobs, the same texts on a fast machine; the log has the counts that are printed."""
    words = ["--seconds", "20", "--commands", "12000", "--jobs", "2", "--seed", "3"]
    words += ["--keep", str(tmp_path), "--log", str(tmp_path / "log")]
    ran = subprocess.run([str(TOP / "hostile" / "run"), *words], capture_output=True, text=True, check=False)
    assert ran.returncode == 0, ran.stdout + ran.stderr
    first, *_, last = map(json.loads, (tmp_path / "log").read_text().splitlines())
    assert first["jobs"] == 2 and last["differences"] == [] and sum(last["commands"].values()) == last["asked"]
    assert f"commands {last['asked']}: " in ran.stdout and f"runs {last['texts']}, " in ran.stdout


def test_a_run_that_asks_too_little_fails(tmp_path: Path) -> None:
    run = [str(TOP / "hostile" / "run"), "--seed", "1", "--jobs", "1", "--keep", str(tmp_path)]
    for words in (["--seconds", "0"], ["--seconds", "2", "--at-least", "100000"]):
        ran = subprocess.run([*run, *words], capture_output=True, text=True, check=False)
        assert ran.returncode == 1 and "texts were asked, and " in ran.stderr


def test_a_run_ends_where_enough_was_asked(tmp_path: Path, monkeypatch: pytest.MonkeyPatch) -> None:
    """By the number of commands, with answers that are kept or without."""
    monkeypatch.setattr(running, "SLICE", 0.1)
    runs = [
        running.run(running.Plan(7, 60, 1, tmp_path, commands=1, answers=tmp_path / "answers"))[0] for _ in range(2)
    ]
    assert all(found.asked > 0 and not found.differences for found in runs)
    assert {*runs[0].counts.commands} & {*runs[1].counts.commands}


def test_a_run_ends_where_enough_processor_time_is_used(tmp_path: Path, monkeypatch: pytest.MonkeyPatch) -> None:
    """Long before its seconds are over."""
    monkeypatch.setattr(running, "SLICE", 0.1)
    found, seconds = running.run(running.Plan(7, 600, 1, tmp_path, processor=0.05))
    assert found.processor >= 0.05 and seconds < 300


def test_a_reader_that_fails_is_told(monkeypatch: pytest.MonkeyPatch) -> None:
    """The text is kept as one that differs."""
    monkeypatch.setattr(answers, "classes", lambda net: 1 / 0)
    found = running.differences(Asker(), (TOP / "examples" / "inputs" / "fabric.cfg").read_bytes(), 1, Counts())
    assert [one.command for one in found] == ["reader"] and "ZeroDivisionError" in found[0].answered


class Turned(Asker):
    """A program that is right but for one word of `classes`."""

    def ask(self, *words: str, texts: Mapping[str, str | bytes] | None = None, seconds: float | None = 60) -> Answer:
        """The answer, with `prefix` for `prefixes`."""
        answer = super().ask(*words, texts=texts, seconds=seconds)
        return Answer(
            answer.status,
            answer.out.replace(b" prefixes ", b" prefix ") if words[0] == "classes" else answer.out,
            answer.err,
        )


def test_a_difference_ends_a_run_and_is_kept(tmp_path: Path, monkeypatch: pytest.MonkeyPatch) -> None:
    """The first one does; its text is shrunk and kept with its seed."""
    monkeypatch.setattr(running, "_program", lambda answers: Turned())
    monkeypatch.setattr(laws, "broken", lambda asked, text, seed: [])
    found, _ = running.run(running.Plan(5, 120, 1, tmp_path / "kept", first=True))
    assert len(found.differences) == 1 and found.differences[0].startswith("classes-")
    assert f"again: hostile/run --only {found.starts[0]}\n" in running.report(found, 1.0, 1)
    assert not running.differences(Asker(), running.text_of(found.starts[0]), found.starts[0], Counts())
    text, told = sorted((tmp_path / "kept").iterdir())
    assert (text.stem, told.stem) == (found.differences[0],) * 2 and text.read_bytes().count(b"\n") < 12
    seed = int(told.read_text().split()[1])
    whole, _ = running.run(running.Plan(5, 120, 1, tmp_path / "whole", first=True, unshrunk=True))
    assert (
        len(next((tmp_path / "whole").glob("*.cfg")).read_bytes()) > len(text.read_bytes()) and whole.runs == found.runs
    )
    assert running.still_differs(Turned(), text.read_bytes(), seed, "classes") and not running.still_differs(
        Asker(), text.read_bytes(), seed, "classes"
    )


def _erring(tmp_path: Path, edit: str) -> Program:
    """A program that is right but for one edit of its output."""
    file = tmp_path / "erring"
    file.write_text(f"#!/bin/bash\nset -o pipefail\n'{Program().path}' \"$@\" | sed '{edit}'\n")
    file.chmod(file.stat().st_mode | stat.S_IXUSR)
    return Program(str(file))


def test_a_program_that_errs_is_seen(tmp_path: Path) -> None:
    """A wrong group, a wrong cost and a wrong map differ each at their command."""
    fabric, ring = (TOP / "examples" / "inputs" / "fabric.cfg").read_bytes(), (
        TOP / "examples" / "inputs" / "ring-with-maps.cfg"
    ).read_bytes()
    edits = {
        "groups": (r"s/^group \([0-9]*\): /group \1 lone: /", fabric),
        "compress": ("s/ send-community$/ shutdown/", ring),
        "classes": ("s,/24,/25,", fabric),
    }
    for command, (edit, text) in edits.items():
        found = Comparison(Asked(_erring(tmp_path, edit), Counts()), text, 1).run()
        assert command in {one.command for one in found}, command


def test_the_smallest_text_keeps_what_holds() -> None:
    """Lines without bearing go."""
    assert shrink.smallest(b"a\nb\nx\nc\nd\n", lambda text: b"x" in text) == b"x\n"


def test_a_planted_line_is_refused_there() -> None:
    """The judge refuses a line at its place, whatever stands around it."""
    text = (TOP / "examples" / "inputs" / "fabric.cfg").read_bytes().splitlines(keepends=True)
    for place in range(0, len(text) + 1, 7):
        told = answers.read(b"".join([*text[:place], b"frobnicate\n", *text[place:]]))
        assert told == answers.Expected(1, f"refused: line {place + 1}: UnknownLine", "")


def test_wrong_words_end_with_two() -> None:
    """As for each tool."""
    ran = subprocess.run([str(TOP / "hostile" / "run"), "--seconds", "x"], capture_output=True, text=True, check=False)
    assert ran.returncode == 2
    assert running.report(running.Found(), 1, 1).startswith("runs 0")
