"""A short run of frames, and whether it sees a program that errs."""

from __future__ import annotations

import json
import random
import subprocess
from pathlib import Path

import pytest

from bonsainet.ask.program import TOP, Answer
from bonsainet.ask.where import named_by
from hostile import frames_run
from hostile.asking import Asker
from hostile.frames_judged import frames_of
from hostile.frames_run import COMMANDS, Found, Programs, difference, frame, over_text, ranges, wanted
from hostile.recording import keep_record, told_of

FABRIC = (TOP / "examples" / "inputs" / "fabric.cfg").read_bytes()


@pytest.fixture(name="programs", scope="module")
def programs_fixture() -> Programs:
    """Both programs."""
    return Programs(Asker(), Asker(named_by(str(TOP / "bonsai-all")).path))


def test_a_short_run_finds_no_difference() -> None:
    words = ["--texts", "40", "--jobs", "2", "--seed", "1"]
    ran = subprocess.run([str(TOP / "hostile" / "frames"), *words], capture_output=True, text=True, check=False)
    assert ran.returncode == 0, ran.stdout + ran.stderr
    told = json.loads(ran.stdout)
    assert told["texts"] == 40 and told["frames"] > 100 and not told["differences"]
    assert {key.split()[0] for key in told["by_command_and_status"]} == {*COMMANDS}
    assert {"status 0", "status 1", "status 2", "status 8"} <= {*told["by_end"]}


def test_a_frame() -> None:
    assert frame(3, Answer(0, b"two\nlines\n", b"")) == b"class 3 0 10\ntwo\nlines\n"
    assert frame(9, Answer(1, b"", b"refused: NoClass 9\n")) == b"class 9 1 19\nrefused: NoClass 9\n"


def test_ranges_reach_over_the_classes() -> None:
    made = [it for seed in range(50) for it in ranges(random.Random(seed), 3)]
    assert all(0 <= first <= last <= 999_999_999 for first, last in made)
    assert any(first == 0 for first, _ in made) and any(last > 3 for _, last in made)


class Errs(Asker):
    """A program that leaves out the last byte of what it writes."""

    def ask(self, *words: str, **more: object) -> Answer:
        answer = super().ask(*words, **more)  # type: ignore[arg-type]
        return Answer(answer.status, answer.out[:-1], answer.err)


def test_a_program_that_errs_is_seen(programs: Programs) -> None:
    assert not over_text(programs, FABRIC, 1).differences
    found = over_text(Programs(programs.one, Errs(programs.every.path)), FABRIC, 1)
    assert len(found.differences) == 4 * len(COMMANDS) and "from byte " in found.differences[0]


def test_what_is_wanted_of_classes_that_are_not_there(programs: Programs) -> None:
    found = Found()
    assert programs.one
    answer = wanted(programs.one, FABRIC, "report", range(2, 4), found)
    assert answer.status == 8 and answer.out.endswith(b"class 3 1 19\nrefused: NoClass 3\n")
    assert found.frames == {"report 0": 1, "report 1": 1}


def test_differences_in_words() -> None:
    assert "status 0 , got 5 out of memory" in difference(Answer(0, b"a", b""), Answer(5, b"a", b"out of memory\n"))
    assert difference(Answer(0, b"abc", b""), Answer(0, b"abd", b"")) == "from byte 2 wanted b'c', got b'd'"


def test_no_program_is_a_refusal(monkeypatch: pytest.MonkeyPatch, capsys: pytest.CaptureFixture[str]) -> None:
    monkeypatch.setattr(frames_run, "TOP", TOP / "nowhere")
    assert frames_run.main(["--one", "/bin/true", "--texts", "1"]) == 1
    assert "hostile/frames: refused: " in capsys.readouterr().err


def test_frames_are_taken_apart() -> None:
    made = frame(1, Answer(0, b"two\nclass 9 0 1\n", b"")) + frame(2, Answer(1, b"", b"refused: x\n"))
    assert frames_of(Answer(8, made, b"")) == {
        1: Answer(0, b"two\nclass 9 0 1\n", b""),
        2: Answer(1, b"", b"refused: x\n"),
    }
    assert frames_of(Answer(0, made[:-1], b"")) == frames_of(Answer(0, made + b"x", b"")) == {}


def test_the_second_reader_judges_frames(programs: Programs) -> None:
    found = over_text(Programs(None, programs.every), FABRIC, 1)
    assert not found.differences and found.ends == {"calls": len(COMMANDS)}
    assert {*found.frames} == {*COMMANDS} and len(set(found.frames.values())) == 1
    assert over_text(Programs(None, programs.every), b"x\n", 1).frames == {"refused": 1}
    assert over_text(Programs(None, Errs(programs.every.path)), FABRIC, 1).differences


class Swaps(Asker):
    """A program that writes the lines of each frame of `groups` in another order."""

    def ask(self, *words: str, **more: object) -> Answer:
        answer = super().ask(*words, **more)  # type: ignore[arg-type]
        if "groups" not in words:
            return answer
        frames = [
            frame(number, Answer(0, b"".join(reversed(one.out.splitlines(True))), b""))
            for number, one in frames_of(answer).items()
        ]
        return Answer(0, b"".join(frames), b"")


def test_a_frame_with_another_text_is_seen_by_the_second_reader(programs: Programs) -> None:
    found = over_text(Programs(None, Swaps(programs.every.path)), FABRIC, 1)
    assert found.differences and all(" groups: expected " in one for one in found.differences)


def test_a_run_is_kept_by_its_name(tmp_path: Path) -> None:
    keep_record(tmp_path / "kept.json", "one", {"texts": 1})
    keep_record(tmp_path / "kept.json", "two", {"texts": 2})
    assert json.loads((tmp_path / "kept.json").read_text()) == {"one": {"texts": 1}, "two": {"texts": 2}}
    assert told_of(Path("/bin/true")).startswith("of an unknown make, SHA-256 ")
