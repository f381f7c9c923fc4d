"""`./build`: what it reads of a run, and what it installs and packages, by a program made for the test."""
from __future__ import annotations

import os
import re
import shutil
import signal
import subprocess
import sys
import time
from pathlib import Path

import pytest

from bonsainet.cli.command_line import Refused
from bonsainet.repo import building, packing
from bonsainet.repo.proving import Told, at_work, closure, lines_of_failure, part_of, uses_of
from bonsainet.tests.asking import wait_for

OUTPUT = """== low
rt: low proved
== middle
fn middle::first: proved
note: a note
./src/lib.rt:3:1: error: the clause is not proved
statements std: modules loaded=1 checked=0
rt: middle NOT PROVED
== high: its tests
fn high::tests: proved
rt: high: its tests are NOT PROVED
== high
rt: high proved
rt: must-fail low/first.edit: refused, as it must be
rt: must-fail low/second.edit: NOT REFUSED: the crate is still proved with this edit
rt: low: its tests FAILED
rt: FAILED: middle low/second.edit low (tests)
2 passed, 3 failed
"""

NOTHING: dict[str, str] = {}
"""An environment without variables."""


def test_crates_and_what_lies_below() -> None:
    uses = uses_of("# crates\ntop: middle low std\nmiddle: low indexmap  # more\nlow:\nother staticlib: low\n")
    assert uses == {"top": ["middle", "low"], "middle": ["low"], "low": [], "other": ["low"]}
    assert closure(uses, "top") == ["low", "middle", "top"]


def test_what_a_run_tells() -> None:
    told = Told()
    for line in OUTPUT.splitlines():
        told.read(line)
    assert told == Told(["low", "high"], ["middle", "high: its tests", "low/second.edit", "low: its tests"], {"low": 2})


def test_a_crate_that_is_kept_counts_as_proved() -> None:
    told = Told()
    told.read("rt: low is kept: an earlier run on this machine proved the same files over the same libraries\n")
    assert told == Told(["low"], [], {})


def test_lines_of_a_failure() -> None:
    lines = OUTPUT.splitlines(keepends=True)
    assert lines_of_failure(lines, "middle") == ["./src/lib.rt:3:1: error: the clause is not proved"]
    assert lines_of_failure(lines, "low/second.edit") == [
        "rt: must-fail low/second.edit: NOT REFUSED: the crate is still proved with this edit"
    ]
    assert lines_of_failure(lines, "low: its tests")[-1] == "2 passed, 3 failed"


def test_what_a_check_is_for() -> None:
    assert part_of(["rattle", "build"], "/tmp/rt-edit-1-x") == "edits"
    assert part_of(["rattle", "build", "--test"], "/tmp/x") == "tests"
    assert part_of(["rattle", "build"], "/tmp/x") == "proof"


def test_the_checks_that_are_at_work(tmp_path: Path) -> None:
    # (a checker is known by its name; the second word is no word of `sleep`, but one of the shell's own)
    checker = tmp_path / "rattle"
    shutil.copy("/bin/sh", checker)
    shell = subprocess.Popen(
        ["/bin/sh", "-c", '"$@"; true', "", checker, "-c", "sleep 600; true", "--crate-name", "low"],
        start_new_session=True,
    )
    try:
        # (a child of the shell has its words for a moment)
        wait_for(lambda: [(work.crate, work.part) for work in at_work(shell.pid)] == [("low", "proof")])
    finally:
        os.killpg(shell.pid, signal.SIGKILL)
        shell.wait()


def test_the_copy_has_no_edits_and_only_the_crates(tmp_path: Path) -> None:
    listed = (building.TOP / "crates.txt").read_text("utf-8")
    building.copy_crates(["base_kit", "buckets"], listed, b"none\n", tmp_path / "room")
    room = tmp_path / "room"
    assert sorted(it.name for it in (room / "crates").iterdir()) == ["base_kit", "buckets"]
    assert not list(room.glob("crates/*/must-fail")) and not list(room.glob("crates/*/out"))
    assert uses_of((room / "crates.txt").read_text("utf-8")) == {"base_kit": [], "buckets": ["base_kit"]}


def parts_of(room: Path, ends: int = 0, *names: str) -> packing.Parts:
    """What is installed, with programs that tell their words."""
    programs = [room / "programs" / name for name in names or ("bonsai",)]
    for program in programs:
        program.parent.mkdir(exist_ok=True)
        program.write_text(f'#!/bin/sh\necho "words: $*"\nexit {ends}\n', "utf-8")
    return packing.Parts(building.TOP, programs, "0+1.abc", "kit-1")


def test_each_installed_part(tmp_path: Path) -> None:
    made = packing.install(parts_of(tmp_path, 6), tmp_path / "prefix")
    assert {tmp_path / "prefix/bin/bonsai", tmp_path / "prefix/lib/bonsai/bonsai"} <= set(made)
    ran = subprocess.run([tmp_path / "prefix/bin/bonsai", "check", "F"], capture_output=True, check=False, env=NOTHING)
    assert (ran.returncode, ran.stdout, ran.stderr) == (6, b"words: check F\n", b"")
    told = subprocess.run([tmp_path / "prefix/bin/bonsai", "--version"], capture_output=True, check=False, env=NOTHING)
    assert told.stdout.decode() == f"bonsai 0+1.abc\nprogram: proved, {tmp_path}/prefix/lib/bonsai/bonsai\nkit: kit-1\n"
    where = subprocess.run([tmp_path / "prefix/bin/bonsai", "--where"], capture_output=True, check=False, env=NOTHING)
    assert where.stdout.decode() == f"{tmp_path}/prefix/lib/bonsai/bonsai\n"


def test_each_installed_program(tmp_path: Path) -> None:
    packing.install(parts_of(tmp_path, 0, "bonsai", "bonsai_ask"), tmp_path / "prefix")
    ran = subprocess.run(
        [tmp_path / "prefix/bin/bonsai-ask", "F", "1", "count"], capture_output=True, check=False, env=NOTHING
    )
    assert (ran.returncode, ran.stdout) == (0, b"words: F 1 count\n")


def test_a_plain_python_finds_the_package(tmp_path: Path) -> None:
    """The link leads to what is installed, also behind a second time. What is no link of ours stays."""
    for _ in range(2):
        packing.install(parts_of(tmp_path), tmp_path / "prefix")
    words = ["-c", "import bonsainet, bonsainet.ask.program as it; print(bonsainet.Network.__name__, it.TOP)"]
    path = tmp_path / "prefix/lib/python3/dist-packages"
    ran = subprocess.run(
        ["/usr/bin/python3", *words],
        capture_output=True,
        text=True,
        check=False,
        cwd=tmp_path,
        env={"PYTHONPATH": str(path)},
    )
    assert ran.stdout == f"Network {tmp_path}/prefix/share/bonsai\n", ran.stderr
    (path / "bonsainet").unlink()
    (path / "bonsainet").mkdir()
    with pytest.raises(Refused, match="is no link"):
        packing.install(parts_of(tmp_path), tmp_path / "prefix")


def test_what_is_installed_is_for_all_users(tmp_path: Path) -> None:
    was = os.umask(0o077)
    try:
        packing.install(parts_of(tmp_path), tmp_path / "prefix")
    finally:
        os.umask(was)
    assert {path.stat().st_mode & 0o077 for path in (tmp_path / "prefix").rglob("*")} == {0o055, 0o044}


@pytest.mark.skipif(not shutil.which("dpkg-deb"), reason="no dpkg-deb here")
def test_the_package(tmp_path: Path) -> None:
    package = packing.make_deb(parts_of(tmp_path), tmp_path)
    subprocess.run(["dpkg-deb", "--extract", package, tmp_path / "root"], check=True)
    ran = subprocess.run(
        [tmp_path / "root/usr/bin/bonsai", "classes", "F"], capture_output=True, check=False, env=NOTHING
    )
    assert (ran.returncode, ran.stdout) == (0, b"words: classes F\n")
    told = subprocess.run(
        [tmp_path / "root/usr/bin/bonsai", "--version"], capture_output=True, text=True, check=False, env=NOTHING
    )
    assert told.stdout.splitlines()[0] == "bonsai 0+1.abc" and told.stdout.splitlines()[2] == "kit: kit-1"
    wanted = ["Package", "Version", "Depends"]
    fields = subprocess.run(["dpkg-deb", "--field", package, *wanted], capture_output=True, text=True, check=True)
    assert fields.stdout.startswith("Package: bonsai\nVersion: 0+1.abc\nDepends: libc6 (>= 2.34), python3 (>= 3.11), ")


@pytest.mark.skipif(not shutil.which("dpkg-deb"), reason="no dpkg-deb here")
def test_the_package_has_the_same_bytes_each_time(tmp_path: Path) -> None:
    made = []
    for number, mask in enumerate((0o022, 0o077)):
        was = os.umask(mask)
        try:
            made.append(packing.make_deb(parts_of(tmp_path), tmp_path / str(number)).read_bytes())
        finally:
            os.umask(was)
        time.sleep(1.1)
    assert made[0] == made[1]


@pytest.mark.skipif(not shutil.which("lintian"), reason="the package lintian is not there: no package is judged")
def test_lintian_finds_no_error(tmp_path: Path) -> None:
    parts = parts_of(tmp_path)
    shutil.copy("/bin/true", parts.programs[0])
    package = packing.make_deb(parts, tmp_path)
    told = subprocess.run(
        ["lintian", "--allow-root", "--fail-on", "error", package], capture_output=True, text=True, check=False
    )
    assert told.returncode == 0 and "E:" not in told.stdout


def test_versions_ascend_within_a_day(tmp_path: Path) -> None:
    versions = []
    (tmp_path / "VERSION").write_text("0.1.0\n")
    for time_of in ("2026-11-28T01:30:00+02:00", "2026-11-28T00:10:00+00:00", "2026-11-28T09:00:00+00:00"):
        env = {**os.environ, "GIT_AUTHOR_DATE": time_of, "GIT_COMMITTER_DATE": time_of}
        for words in (
            ["init", "-q"],
            ["-c", "user.name=a", "-c", "user.email=a@b", "commit", "-q", "--allow-empty", "-m", time_of],
        ):
            subprocess.run(["git", "-C", tmp_path, *words], check=True, env=env)
        versions.append(packing.version_of(tmp_path))
    assert versions == sorted(versions) and versions[0].startswith("0.1.0+20261127233000.")


# What stands for the kit's rt: it proves all crates of the folder that it is run in, from nothing and with their edits, but what BROKEN names.
# What an earlier run left it moves away first. It edits the file that EDITS names when it is at work.
RT = """#!/usr/bin/python3
import os, shutil, sys, time
assert sys.argv[1:] == ["ci"], sys.argv
for program in ("bonsai", "bonsai_ask"):
    shutil.rmtree(f"crates/{program}/out", ignore_errors=True)
broken = os.environ.get("BROKEN")
crates = [it for it in ("low", "other", "bonsai", "bonsai_ask") if os.path.isdir("crates/" + it) and it != os.environ.get("UNTOLD")]
for crate in crates:
    print(f"== {crate}")
    if crate == broken:
        print(f"{os.getcwd()}/crates/{crate}/src/lib.rt:1:1: error: not so")
        print(f"rt: {crate} NOT PROVED", flush=True)
        time.sleep(float(os.environ.get("SECONDS", "0")))
    else:
        print(f"rt: {crate} proved", flush=True)
for program in ("bonsai", "bonsai_ask"):
    if os.path.isdir("crates/" + program):
        os.mkdir(f"crates/{program}/out")
        with open(f"crates/{program}/out/{program}", "w") as made:
            made.write(f"#!/bin/sh\\necho proved {program}: $*\\n")
if "PROCESS" in os.environ:
    with open(os.environ["PROCESS"], "w") as process:
        process.write(str(os.getpid()))
if os.path.exists("crates/low/must-fail"):
    said = "NOT REFUSED: the crate is still proved with this edit" if broken == "low/one.edit" else "refused, as it must be"
    print(f"rt: must-fail low/one.edit: {said}")
time.sleep(float(os.environ.get("WAITS", "0")))
if "PUTS_BACK" in os.environ:
    with open(os.environ["PUTS_BACK"]) as source:
        text = source.read()
    for given in ("// other", text):
        with open(os.environ["PUTS_BACK"], "w") as source:
            source.write(given)
if "EDITS" in os.environ:
    with open(os.environ["EDITS"], "a") as edited:
        edited.write("// edited\\n")
with open(os.environ["CALLS"], "a") as calls:
    calls.write(f"rt {' '.join(crates)}\\n")
print(f"{len(crates) - bool(broken)} passed, {int(bool(broken))} failed")
sys.exit(bool(broken))
"""
BUILT, GATE = "rt low bonsai\n", "rt low other bonsai\n"


@pytest.fixture(name="clone")
def clone_fixture(tmp_path: Path) -> Path:
    """A repository with ./build, the launcher and two crates, and beside it a kit."""
    clone = tmp_path / "clone"
    shutil.copytree(building.TOP / "python", clone / "python", ignore=shutil.ignore_patterns("tests", "__pycache__"))
    for name in ("build", "bonsai", "HANDLES", "VERSION"):
        shutil.copy(building.TOP / name, clone / name)
    (clone / "crates.txt").write_text("low:\nbonsai: low\nother: low\n", "utf-8")
    for path in (
        "crates/low/src/lib.rt",
        "crates/low/must-fail/one.edit",
        "crates/bonsai/src/main.rt",
        "crates/other/src/lib.rt",
    ):
        (clone / path).parent.mkdir(parents=True, exist_ok=True)
        (clone / path).write_text("// text\n", "utf-8")
    (tmp_path / "kit/bin").mkdir(parents=True)
    (tmp_path / "kit/bin/rt").write_text(RT, "utf-8")
    (tmp_path / "kit/bin/rt").chmod(0o755)
    (tmp_path / "kit/WHAT").write_text("kit 1\n", "utf-8")
    (tmp_path / "kit/KIT-ID").write_text("kit-1 and more\n", "utf-8")
    return clone


def build(clone: Path, *words: str, **more: str) -> subprocess.CompletedProcess[str]:
    """Runs ./build with the clone's kit."""
    return subprocess.run(
        [clone / "build", *words], capture_output=True, text=True, check=False, env=environment(clone, **more)
    )


def environment(clone: Path, **more: str) -> dict[str, str]:
    """An environment with the clone's kit."""
    room = clone.parent
    return {"PATH": f"{room}/kit/bin:/usr/bin:/bin", "CALLS": str(room / "calls"), **more}


def calls(clone: Path) -> str:
    """The runs of rt, each a line with its crates."""
    return (clone.parent / "calls").read_text("utf-8")


def answer(clone: Path) -> subprocess.CompletedProcess[str]:
    """What the clone's launcher answers. It has no kit."""
    return subprocess.run(
        [clone / "bonsai", "classes", "F"],
        capture_output=True,
        text=True,
        check=False,
        env={"PATH": "/usr/bin:/bin", "HOME": str(clone.parent)},
    )


def test_the_program_is_built_once(clone: Path) -> None:
    first, second = build(clone), build(clone)
    assert (first.returncode, second.returncode) == (0, 0)
    assert first.stderr.splitlines()[-1] == "build: crates/bonsai/out/bonsai is proved"
    assert second.stderr == "build: crates/bonsai/out/bonsai is proved already\n"
    assert calls(clone) == BUILT
    ran = answer(clone)
    assert (ran.returncode, ran.stdout, ran.stderr) == (0, "proved bonsai: classes F\n", "")


def test_the_gate_keeps_the_program_that_it_proved(clone: Path) -> None:
    gate, after = build(clone, "--gate"), build(clone)
    assert (gate.returncode, after.returncode) == (0, 0)
    assert (
        gate.stdout.splitlines()[-1] == "3 passed, 0 failed"
        and gate.stderr.splitlines()[-1] == "build: crates/bonsai/out/bonsai is proved"
    )
    assert (clone / "out/build.log").read_text("utf-8") == gate.stdout
    assert (after.stdout, after.stderr) == ("", "build: crates/bonsai/out/bonsai is proved already\n")
    assert calls(clone) == GATE
    assert answer(clone).stdout == "proved bonsai: classes F\n"


def test_the_gate_runs_again_over_the_same_sources(clone: Path) -> None:
    build(clone)
    assert build(clone, "--gate").returncode == 0
    assert build(clone).stderr == "build: crates/bonsai/out/bonsai is proved already\n"
    assert calls(clone) == BUILT + GATE


@pytest.mark.parametrize(
    ("broken", "line"),
    [("other", "error: not so"), ("low/one.edit", "NOT REFUSED: the crate is still proved with this edit")],
)
def test_a_gate_that_fails_keeps_no_program(clone: Path, broken: str, line: str) -> None:
    build(clone)
    ran = build(clone, "--gate", BROKEN=broken)
    lines = ran.stderr.splitlines()
    assert ran.returncode == 1 and ran.stdout.splitlines()[-1] == "2 passed, 1 failed"
    assert lines[0].startswith(f"build: {broken}: not proved, after ") and lines[1].endswith(line)
    assert answer(clone).returncode == 9
    assert build(clone).returncode == 0 and calls(clone) == BUILT + GATE + BUILT


@pytest.mark.parametrize("words", [["--gate"], []])
def test_sources_that_change_meanwhile(clone: Path, words: list[str]) -> None:
    ran = build(clone, *words, EDITS=str(clone / "crates/low/src/lib.rt"))
    assert (ran.returncode, ran.stderr.splitlines()[-1]) == (
        1,
        "build: sources changed while they were proved; run it again",
    )
    assert not (clone / "crates/bonsai/out/bonsai").exists() and answer(clone).returncode == 9


def test_two_builds_at_once_prove_once(clone: Path) -> None:
    room = clone.parent
    env = {"PATH": f"{room}/kit/bin:/usr/bin:/bin", "CALLS": str(room / "calls")}
    both = [
        subprocess.Popen([clone / "build"], stdout=subprocess.DEVNULL, stderr=subprocess.DEVNULL, env=env)
        for _ in range(2)
    ]
    assert [one.wait() for one in both] == [0, 0]
    assert calls(clone) == BUILT


def test_the_gate_is_measured(clone: Path) -> None:
    room = clone.parent
    shutil.copytree(building.TOP / "dev", clone / "dev")
    env = {"PATH": f"{room}/kit/bin:/usr/bin:/bin", "CALLS": str(room / "calls")}
    ran = subprocess.run([clone / "dev/gate-times", "run"], capture_output=True, text=True, check=False, env=env)
    assert ran.returncode == 0 and re.search(r"\n +\d+:\d\d 3 passed, 0 failed\n", ran.stdout)
    again = subprocess.run([clone / "dev/gate-times", "table"], capture_output=True, text=True, check=True, env=env)
    assert ran.stdout.endswith(again.stdout) and again.stdout.splitlines()[-1].startswith("rt ci: status 0, ")
    assert build(clone).stderr == "build: crates/bonsai/out/bonsai is proved already\n"


@pytest.mark.parametrize("change", ["crates/low/src/lib.rt", "crates/bonsai/out/bonsai"])
def test_what_changed_is_built_again(clone: Path, change: str) -> None:
    build(clone)
    (clone / change).write_text("// other\n", "utf-8")
    assert build(clone).returncode == 0
    assert calls(clone) == BUILT * 2


def test_a_crate_that_the_program_does_not_use_is_left_alone(clone: Path) -> None:
    build(clone)
    (clone / "crates/other/src/lib.rt").write_text("// other\n", "utf-8")
    assert build(clone).stderr == "build: crates/bonsai/out/bonsai is proved already\n"


def test_a_crate_that_is_not_proved(clone: Path) -> None:
    ran = build(clone, BROKEN="low", SECONDS="600")
    lines = ran.stderr.splitlines()
    assert ran.returncode == 1 and not (clone / "crates/bonsai/out/bonsai").exists()
    assert lines[1].startswith("build: low: not proved, after ") and lines[1].endswith(
        f"; the log is {clone}/out/build.log"
    )
    assert lines[2:] == [f"{clone}/crates/low/src/lib.rt:1:1: error: not so"]
    assert (clone / "out/build.log").read_text("utf-8").endswith("rt: low NOT PROVED\n")


def test_build_installs_and_packages(clone: Path) -> None:
    ran = build(clone, "--install", str(clone.parent / "prefix"), "--deb", str(clone.parent / "packages"))
    assert ran.returncode == 0
    assert (clone.parent / "prefix/lib/bonsai/kit").read_text("utf-8") == "kit-1 and more\n"
    assert [path.suffix for path in (clone.parent / "packages").iterdir()] == [".deb"]


def test_the_gate_installs(clone: Path) -> None:
    assert build(clone, "--gate", "--install", str(clone.parent / "prefix")).returncode == 0
    assert calls(clone) == GATE and (clone.parent / "prefix/lib/bonsai/bonsai").is_file()


def test_a_prefix_that_cannot_be_written(clone: Path) -> None:
    (clone.parent / "prefix").write_text("", "utf-8")
    ran = build(clone, "--install", str(clone.parent / "prefix"))
    assert ran.returncode == 3 and "Traceback" not in ran.stderr and "prefix" in ran.stderr.splitlines()[-1]


@pytest.mark.parametrize(("words", "status"), [(["--help"], 0), (["--version"], 0), (["--nothing"], 2)])
def test_words(words: list[str], status: int) -> None:
    ran = subprocess.run([sys.executable, building.TOP / "build", *words], capture_output=True, check=False)
    assert ran.returncode == status


def test_without_a_kit() -> None:
    ran = subprocess.run(
        ["/usr/bin/python3", building.TOP / "build"], capture_output=True, check=False, env={"PATH": "/usr/sbin"}
    )
    assert (ran.returncode, ran.stderr) == (1, b"build: the command rt of the Rattle kit is not on the path\n")


def test_a_source_that_is_saved_while_the_build_looks(clone: Path) -> None:
    build(clone)
    (clone / "python/bonsainet/repo/packing.py").open("a", encoding="utf-8").write(SAVES)
    assert build(clone, SAVES=str(clone / "crates/low/src/lib.rt")).returncode == 0
    assert answer(clone).returncode == 9


SAVES = """
_plain_sum_of = sum_of


def sum_of(path):
    saved = os.environ.pop("SAVES", None)
    if saved:
        Path(saved).write_text("// saved")
        # (longer than a tick of the clock of files)
        __import__("time").sleep(0.1)
    return _plain_sum_of(path)
"""


@pytest.mark.parametrize("words", [["--gate"], []])
def test_a_source_that_is_changed_and_put_back_while_it_is_proved(clone: Path, words: list[str]) -> None:
    ran = build(clone, *words, PUTS_BACK=str(clone / "crates/low/src/lib.rt"))
    assert (ran.returncode, ran.stderr.splitlines()[-1]) == (
        1,
        "build: sources changed while they were proved; run it again",
    )


def test_a_run_that_does_not_tell_of_a_crate(clone: Path) -> None:
    ran = build(clone, UNTOLD="low")
    assert ran.returncode == 1 and not (clone / "crates/bonsai/out/bonsai").exists()
    assert ran.stderr.splitlines()[-1].startswith("build: low: rt ended well, and did not tell that it is proved")


@pytest.mark.parametrize("number", [signal.SIGTERM, signal.SIGHUP, signal.SIGKILL])
def test_a_build_that_is_ended_leaves_nothing(clone: Path, number: signal.Signals) -> None:
    room = clone.parent / "temporary"
    room.mkdir()
    told = clone.parent / "process"
    env = environment(clone, WAITS="600", TMPDIR=str(room), PROCESS=str(told))
    running = subprocess.Popen([clone / "build"], env=env, stderr=subprocess.DEVNULL)
    wait_for(lambda: told.exists() and told.read_text("utf-8"))
    process = Path("/proc", told.read_text("utf-8"))
    running.send_signal(number)
    running.wait()
    wait_for(lambda: not process.exists())
    for left in room.iterdir():
        os.utime(left, (0, 0))
    assert build(clone, TMPDIR=str(room)).returncode == 0
    assert list(room.glob("bonsai-build-*")) == []


def test_the_room_of_another_run_stays(clone: Path) -> None:
    room = clone.parent / "temporary"
    room.mkdir()
    told = clone.parent / "process"
    env = environment(clone, WAITS="2", TMPDIR=str(room), PROCESS=str(told))
    running = subprocess.Popen([clone / "build"], env=env, stderr=subprocess.DEVNULL)
    wait_for(lambda: told.exists() and told.read_text("utf-8"))
    for held in room.glob("bonsai-build-*"):
        os.utime(held, (0, 0))
    shutil.copytree(clone, clone.parent / "second", symlinks=True)
    second = environment(clone, TMPDIR=str(room))
    assert (
        subprocess.run([clone.parent / "second/build"], env=second, stderr=subprocess.DEVNULL, check=False).returncode
        == 0
    )
    assert running.wait() == 0


def test_each_program_of_the_repository_is_kept(clone: Path) -> None:
    (clone / "crates.txt").write_text("low:\nbonsai: low\nbonsai_ask: low\nother: low\n", "utf-8")
    (clone / "crates/bonsai_ask/src").mkdir(parents=True)
    (clone / "crates/bonsai_ask/src/main.rt").write_text("// text\n", "utf-8")
    (clone / "bonsai-ask").symlink_to("bonsai")
    first, second = build(clone), build(clone)
    assert (first.returncode, second.returncode, calls(clone)) == (0, 0, "rt low bonsai bonsai_ask\n")
    assert second.stderr.splitlines() == [
        f"build: crates/{name}/out/{name} is proved already" for name in ("bonsai", "bonsai_ask")
    ]
    ran = subprocess.run(
        [clone / "bonsai-ask", "F"], capture_output=True, text=True, check=False, env=environment(clone)
    )
    assert (ran.stdout, ran.stderr) == ("proved bonsai_ask: F\n", "")
