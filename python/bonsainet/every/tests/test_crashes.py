"""bonsai-every on a disk that is full, ended or killed at any moment, and resumed: an answer that is there is whole, and none is lost."""
from __future__ import annotations

import hashlib
import json
import os
import signal
import subprocess
from collections.abc import Callable, Iterator
from pathlib import Path

import pytest

from bonsainet.ask.program import ALL, TOP, Program, named
from bonsainet.nets.fat_tree import fat_tree_text
from bonsainet.tests.asking import LATEST, place_of, tool, wait_for

FEW = ["--jobs", "2"]


@pytest.fixture(name="text", scope="module")
def text_fixture(tmp_path_factory: pytest.TempPathFactory) -> Path:
    """The fat tree of 12, with 72 classes."""
    made = tmp_path_factory.mktemp("text") / "fat-tree-12.cfg"
    made.write_text(fat_tree_text(12))
    return made


@pytest.fixture(name="small_disk")
def small_disk_fixture(tmp_path: Path) -> Iterator[Callable[[int], Path]]:
    """A file system of as many KiB as is asked; asked again, it grows."""
    place = tmp_path / "disk"
    place.mkdir()
    if subprocess.run(
        ["mount", "-t", "tmpfs", "-o", "size=16k", "none", place], capture_output=True, check=False
    ).returncode:
        pytest.skip("a file system of its own needs root")

    def of_size(size: int) -> Path:
        subprocess.run(["mount", "-o", f"remount,size={size}k", place], check=True)
        return place

    try:
        yield of_size
    finally:
        subprocess.run(["umount", "-l", place], check=True)


def must_be_whole(folder: Path, text: Path, count: int) -> None:
    """Each answer that is there is that of the program, and `count` are there."""
    found = list(folder.glob("class-*.cfg"))
    program = Program()
    assert len(found) >= count
    for answer in found[:: max(1, len(found) // 4)]:
        assert answer.read_text() == program.compress(text.read_bytes(), int(answer.stem.split("-")[1]))
    assert all(answer.read_bytes().endswith(b"end\n") for answer in found)


def test_a_disk_that_gets_full(small_disk: Callable[[int], Path], text: Path, tmp_path: Path) -> None:
    """The disk gets full at each stage: before the plan is written, while the program is copied, and among the answers."""
    assert tool("bonsai-every", text, tmp_path / "whole", *FEW).returncode == 0
    whole = taken(tmp_path / "whole")
    before = whole - taken(tmp_path / "whole", "class-*")
    program = Path(named(ALL).path).stat().st_size // 1024
    plan = before - program
    for size in (
        plan // 4,
        plan // 2,
        before - program // 2,
        before + (whole - before) // 4,
        before + (whole - before) // 2,
    ):
        folder = small_disk(size) / "all"
        ran = tool("bonsai-every", text, folder, *FEW, "--resume")
        assert ran.returncode in (1, 4) and b"Traceback" not in ran.stderr
        if list(folder.glob("class-*.cfg")):
            must_be_whole(folder, text, 1)
    folder = small_disk(2 * whole + 20000) / "all"
    ran = tool("bonsai-every", text, folder, *FEW, "--resume")
    assert (ran.returncode, ran.stderr.splitlines()[-1]) == (0, b"bonsai-every: 72 of 72 answered")
    must_be_whole(folder, text, 72)


@pytest.mark.parametrize("words", [[], ["--resume"]], ids=["again", "resumed"])
def test_a_run_that_could_not_write_its_plan(words: list[str], tmp_path: Path) -> None:
    """The next one begins, and says so where it was to go on."""
    folder, place = tmp_path / "all", place_of("fabric.cfg")
    folder.mkdir()
    for name in ("lock", "input.cfg", ".bonsai-0123.part"):
        (folder / name).write_bytes(b"half")
    ran = tool("bonsai-every", place, folder, *words)
    begins = f"bonsai-every: {folder}: no plan.json is there, so no class was asked: the run begins with the first\n"
    assert ran.returncode == 0
    assert ran.stderr.decode() == (begins if words else "") + "bonsai-every: 2 of 2 answered\n"
    assert (folder / "input.cfg").read_bytes() == place.read_bytes() and not list(folder.glob(".bonsai-*"))


@pytest.mark.parametrize("plan", [None, "", "[]", '{"command": "compress"'])
def test_answers_without_a_plan_are_not_asked_again_in_silence(plan: str | None, tmp_path: Path) -> None:
    place = place_of("fabric.cfg")
    (tmp_path / "class-1.cfg").write_text("kept\n")
    if plan is not None:
        (tmp_path / "plan.json").write_text(plan)
    words: list[tuple[list[str], str]] = [([], "the folder is not empty"), (["--resume"], "nothing to resume: ")]
    for more, told in words:
        ran = tool("bonsai-every", place, tmp_path, *more)
        assert ran.returncode == 1 and f"{tmp_path}: {told}" in ran.stderr.decode() and ran.stderr.count(b"\n") == 1
        assert (tmp_path / "class-1.cfg").read_text() == "kept\n"


def taken(folder: Path, pattern: str = "*") -> int:
    """The KiB that the files of a folder take on a disk of pages of 4 KiB."""
    return sum(4 * -(-path.stat().st_size // 4096) for path in folder.glob(pattern))


def test_a_copy_of_the_program_that_does_not_fit(small_disk: Callable[[int], Path], text: Path) -> None:
    size = text.stat().st_size // 1024 + 100
    ran = tool("bonsai-every", text, small_disk(size) / "all", *FEW)
    assert ran.returncode == 4 and b"/all/bonsai-all: No space left on device" in ran.stderr
    assert not (small_disk(size) / "all/bonsai-all").exists()


@pytest.mark.parametrize("number", [signal.SIGTERM, signal.SIGHUP, signal.SIGKILL, signal.SIGINT])
def test_ended_and_resumed(number: signal.Signals, text: Path, tmp_path: Path) -> None:
    folder = tmp_path / "all"
    words = [str(TOP / "tools/bonsai-every"), str(text), str(folder), *FEW]
    started = subprocess.Popen(words, stderr=subprocess.DEVNULL, start_new_session=True)
    wait_for(lambda: len(list(folder.glob("class-*.cfg"))) > 4)
    started.send_signal(number)
    started.wait(LATEST)
    if number != signal.SIGKILL:
        assert not at_work(folder) and not list(folder.glob("class-*.part"))
        must_be_whole(folder, text, 1)
    wait_for(lambda: not at_work(folder))
    ran = tool("bonsai-every", text, folder, *FEW, "--resume")
    assert (ran.returncode, ran.stderr) == (0, b"bonsai-every: 72 of 72 answered\n")
    must_be_whole(folder, text, 72)
    assert not list(folder.glob("*.part*"))


def at_work(folder: Path) -> list[str]:
    """The processes that are run in a folder."""
    found = []
    for process in Path("/proc").glob("[0-9]*"):
        try:
            if os.readlink(process / "cwd") == str(folder):
                found.append((process / "cmdline").read_text("utf-8", "replace"))
        except OSError:
            continue
    return found


def test_two_runs_at_once(text: Path, tmp_path: Path) -> None:
    """The first run's jobs wait until the second run has ended."""
    folder, go = tmp_path / "all", tmp_path / "go"
    words = [str(text), str(folder), *FEW, "--then", f"while ! test -e '{go}'; do sleep 0.05; done; cat"]
    started = subprocess.Popen([TOP / "tools/bonsai-every", *words], stderr=subprocess.DEVNULL)
    wait_for(lambda: list(folder.glob("class-*.small")))
    ran = tool("bonsai-every", *words, "--resume")
    go.touch()
    assert ran.returncode == 1 and b"another run, or the last jobs of one, is at work there" in ran.stderr
    assert started.wait(LATEST) == 0
    assert len(list(folder.glob("class-*.out"))) == 72


@pytest.mark.parametrize(
    "harm",
    [
        lambda place: place.unlink(),
        lambda place: place.write_bytes(b""),
        lambda place: os.truncate(place, place.stat().st_size - 10),
        lambda place: place.write_bytes(place.read_bytes().replace(b"hostname", b"hostnome", 1)),
    ],
    ids=["gone", "empty", "cut", "changed"],
)
def test_an_answer_that_was_harmed_is_asked_again(harm: Callable[[Path], object], tmp_path: Path) -> None:
    folder, place = tmp_path / "all", place_of("fabric.cfg")
    assert tool("bonsai-every", place, folder, "--jobs", "1").returncode == 0
    before = (folder / "class-1.cfg").read_bytes()
    harm(folder / "class-1.cfg")
    ran = tool("bonsai-every", place, folder, "--jobs", "1", "--resume")
    assert (ran.returncode, ran.stderr.splitlines()[-1]) == (0, b"bonsai-every: 2 of 2 answered")
    assert (folder / "class-1.cfg").read_bytes() == before


def test_a_foreign_program_in_the_folder_is_not_run(tmp_path: Path) -> None:
    folder, place = tmp_path / "all", place_of("fabric.cfg")
    assert tool("bonsai-every", place, folder, "--jobs", "1").returncode == 0
    before = (folder / "class-1.cfg").read_bytes()
    (folder / "bonsai-all").write_text("#!/bin/sh\necho FOREIGN PROGRAM\n")
    (folder / "class-1.cfg").unlink()
    assert tool("bonsai-every", place, folder, "--jobs", "1", "--resume").returncode == 0
    assert (folder / "class-1.cfg").read_bytes() == before


def test_a_log_that_was_cut(tmp_path: Path) -> None:
    folder, place = tmp_path / "all", place_of("fabric.cfg")
    assert tool("bonsai-every", place, folder, "--jobs", "1").returncode == 0
    os.truncate(folder / "answers.tsv", (folder / "answers.tsv").stat().st_size - 9)
    ran = tool("bonsai-every", place, folder, "--jobs", "1", "--resume")
    assert (ran.returncode, ran.stderr.splitlines()[-1]) == (0, b"bonsai-every: 2 of 2 answered")
    assert tool("bonsai-every", place, folder, "--jobs", "1", "--resume").returncode == 0


@pytest.mark.parametrize("words", [["--command", "groups"], ["--then", "wc -l"]])
def test_a_folder_of_another_command(words: list[str], tmp_path: Path) -> None:
    place = place_of("fabric.cfg")
    assert tool("bonsai-every", place, tmp_path / "all", "--jobs", "1").returncode == 0
    ran = tool("bonsai-every", place, tmp_path / "all", "--resume", *words)
    assert ran.returncode == 1 and b"it was begun with another command" in ran.stderr


def test_a_folder_of_another_program(tmp_path: Path) -> None:
    place = place_of("fabric.cfg")
    assert tool("bonsai-every", place, tmp_path / "all", "--jobs", "1").returncode == 0
    other = tmp_path / "other"
    other.write_bytes(Path(named(ALL).path).read_bytes() + b"\0")
    other.chmod(0o755)
    env = {**os.environ, "BONSAI_ALL_PROGRAM": str(other)}
    ran = tool("bonsai-every", place, tmp_path / "all", "--resume", env=env)
    assert ran.returncode == 1 and b"it was begun with another program" in ran.stderr


def test_the_plan_says_which_program_answers(tmp_path: Path) -> None:
    assert tool("bonsai-every", place_of("fabric.cfg"), tmp_path / "all", "--jobs", "1").returncode == 0
    told = json.loads((tmp_path / "all/plan.json").read_text())
    assert told["program"] == hashlib.sha256((tmp_path / "all/bonsai-all").read_bytes()).hexdigest()
    assert told["identity"] == named(ALL).identity.plain


def test_what_stands_behind_then_is_left_as_it_is(tmp_path: Path) -> None:
    shell = """cat > /dev/null; echo "{} | {#} | {%} | {.} | {= 1 + 1 =} | $CLASS"; echo '$x "y"'; printf x"""
    env = {**os.environ, "PARALLEL": "--dry-run", "PARALLEL_SHELL": "/bin/false"}
    ran = tool("bonsai-every", place_of("fabric.cfg"), tmp_path / "all", "--jobs", "1", "--then", shell, env=env)
    assert ran.returncode == 0
    assert (tmp_path / "all/class-1.out").read_text() == '{} | {#} | {%} | {.} | {= 1 + 1 =} | 1\n$x "y"\nx'


def test_what_a_crash_of_the_machine_can_leave(tmp_path: Path) -> None:
    """Lines of the log that say nothing, and frames of a range of which nobody knows whether they are whole."""
    folder, place = tmp_path / "all", place_of("fabric.cfg")
    assert tool("bonsai-every", place, folder, "--jobs", "1").returncode == 0
    before = (folder / "class-1.cfg").read_bytes()
    (folder / "class-1.cfg").rename(folder / "class-0.cfg")
    with open(folder / "answers.tsv", "ab") as file:
        file.write(b"%s\t1\tx\n\xff\x00\n0\t%d\t%s\n" % (b"9" * 5000, len(before), sha256(before)))
    for name in ("class-1-2.part", "class-1-2-3.part", "class-a-b.part"):
        (folder / name).write_bytes(b"class 1 0 5\nwrong")
    ran = tool("bonsai-every", place, folder, "--jobs", "1", "--resume")
    assert (ran.returncode, ran.stderr.splitlines()[-1]) == (0, b"bonsai-every: 2 of 2 answered")
    assert (folder / "class-1.cfg").read_bytes() == before and not list(folder.glob("*.part"))


def sha256(data: bytes) -> bytes:
    """A checksum as the log has it."""
    return hashlib.sha256(data).hexdigest().encode()


@pytest.mark.parametrize(
    "name, status", [("plan.json", 1), ("answers.tsv", 4), ("class-1.cfg", 0), ("class-1-2.part", 0)]
)
def test_a_pipe_in_the_place_of_a_file_is_not_waited_for(name: str, status: int, tmp_path: Path) -> None:
    folder, place = tmp_path / "all", place_of("fabric.cfg")
    assert tool("bonsai-every", place, folder, "--jobs", "1").returncode == 0
    (folder / name).unlink(missing_ok=True)
    os.mkfifo(folder / name)
    ran = tool("bonsai-every", place, folder, "--jobs", "1", "--resume", timeout=LATEST)
    assert ran.returncode == status and b"Traceback" not in ran.stderr


def test_a_folder_of_files_for_its_user_alone(tmp_path: Path) -> None:
    ran = tool("bonsai-every", place_of("fabric.cfg"), tmp_path / "all", "--jobs", "1", umask=0o077)
    assert ran.returncode == 0
    assert all(path.stat().st_mode & 0o077 == 0 for path in (tmp_path / "all").iterdir())
