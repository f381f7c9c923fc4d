"""The launcher runs no program that was not made of the sources as they stand, by the kit that it names."""
from __future__ import annotations

import fcntl
import os
import signal
import subprocess
import time
from pathlib import Path

import pytest

from bonsainet.repo.tests.launching import beside, builds, calls, launch, make_clone, make_kit, proved, script
from bonsainet.tests.asking import LATEST, wait_for

ANSWER = b"words: classes F\n"


@pytest.fixture(name="clone")
def clone_fixture(tmp_path: Path) -> Path:
    """A repository with the launcher, and beside it a kit."""
    return make_clone(tmp_path)


def code_of(clone: Path) -> bytes:
    """The code of which the launcher's program was made, and what the launcher said of a build."""
    return launch(clone, "classes", "F", env=beside(clone, TELLS="1")).stdout.splitlines()[0]


def edit(clone: Path, text: str) -> None:
    """Writes the source of the lower crate anew."""
    (clone / "crates/low/src/lib.rt").write_text(f"// {text}\n", "utf-8")


def test_sources_that_change_while_another_run_builds(clone: Path) -> None:
    (clone.parent / "cache/bonsai").mkdir(parents=True, mode=0o700)
    with open(clone.parent / "cache/bonsai/lock", "w", encoding="utf-8") as lock:
        fcntl.flock(lock, fcntl.LOCK_EX)
        waiting = subprocess.Popen(
            [clone / "bonsai", "classes", "F"], env=beside(clone), stdout=subprocess.PIPE, stderr=subprocess.PIPE
        )
        assert waiting.stderr is not None
        waiting.stderr.readline()
        edit(clone, "two")
    assert waiting.communicate()[0] == ANSWER
    assert code_of(clone) == b"code: // two" and len(calls(clone)) == 1
    edit(clone, "one")
    assert code_of(clone) == b"code: // one" and len(calls(clone)) == 2


def test_sources_that_change_while_they_are_built(clone: Path) -> None:
    waiting = subprocess.Popen(
        [clone / "bonsai", "classes", "F"],
        env=beside(clone, SECONDS="1"),
        stdout=subprocess.PIPE,
        stderr=subprocess.DEVNULL,
    )
    wait_for(lambda: calls(clone))
    edit(clone, "two")
    assert waiting.communicate()[0] == ANSWER
    assert code_of(clone) == b"code: // two" and len(calls(clone)) == 2


def test_a_build_is_made_of_a_copy(clone: Path) -> None:
    launch(clone, "classes", "F")
    assert not calls(clone)[0][0].startswith(str(clone))
    assert [path.name for path in (clone.parent / "cache/bonsai").iterdir() if path.name.startswith("room-")] == []


@pytest.mark.parametrize("change", ["HANDLES", "crates/low/src/more.rt", "crates/bonsai/src/main.rt"])
def test_what_a_build_is_made_of(clone: Path, change: str) -> None:
    launch(clone, "classes", "F")
    with open(clone / change, "a", encoding="utf-8") as file:
        file.write("# more\n")
    launch(clone, "classes", "F")
    assert len(calls(clone)) == 2


def test_the_lines_of_the_crates_that_are_used(clone: Path) -> None:
    launch(clone, "classes", "F")
    listed = (clone / "crates.txt").read_text("utf-8")
    (clone / "crates.txt").write_text(listed + "another: low\n", "utf-8")
    launch(clone, "classes", "F")
    assert len(calls(clone)) == 1
    (clone / "crates.txt").write_text(listed.replace("low:\n", "low: indexmap\n"), "utf-8")
    launch(clone, "classes", "F")
    assert len(calls(clone)) == 2


def test_a_source_that_is_removed(clone: Path) -> None:
    edit(clone, "one")
    (clone / "crates/low/src/more.rt").write_text("// more\n", "utf-8")
    launch(clone, "classes", "F")
    (clone / "crates/low/src/more.rt").unlink()
    launch(clone, "classes", "F")
    assert len(calls(clone)) == 2


def test_another_kit(clone: Path) -> None:
    launch(clone, "classes", "F")
    (clone.parent / "kit/KIT-ID").write_text("kit-2\n", "utf-8")
    launch(clone, "classes", "F")
    assert len(calls(clone)) == 2


def test_a_crate_of_another_program_is_left_alone(clone: Path) -> None:
    launch(clone, "classes", "F")
    (clone / "crates/bonsai_ask/src/main.rt").write_text("// other\n", "utf-8")
    launch(clone, "classes", "F")
    assert len(calls(clone)) == 1


def test_a_build_that_was_cut(clone: Path) -> None:
    launch(clone, "classes", "F")
    kept = builds(clone)[0]
    os.truncate(kept, kept.stat().st_size // 2)
    assert launch(clone, "classes", "F").stdout == ANSWER and len(calls(clone)) == 2


def test_a_build_that_another_put_there(clone: Path) -> None:
    launch(clone, "classes", "F")
    script(builds(clone)[0], "#!/bin/sh\necho foreign\n")
    assert launch(clone, "classes", "F").stdout == ANSWER and len(calls(clone)) == 2


def test_a_cache_that_others_may_write(clone: Path) -> None:
    launch(clone, "classes", "F")
    (clone.parent / "cache/bonsai").chmod(0o777)
    ran = launch(clone, "classes", "F")
    assert (ran.returncode, ran.stdout) == (9, b"") and b"others may write it" in ran.stderr


def test_a_build_that_others_may_write(clone: Path) -> None:
    launch(clone, "classes", "F")
    builds(clone)[0].chmod(0o777)
    assert launch(clone, "classes", "F").stdout == ANSWER and len(calls(clone)) == 2


@pytest.mark.skipif(os.geteuid() != 0, reason="only root can give a folder to another user")
def test_a_cache_of_another_user(clone: Path) -> None:
    launch(clone, "classes", "F")
    os.chown(clone.parent / "cache/bonsai", 65534, 65534)
    assert launch(clone, "classes", "F").returncode == 9


def test_the_cache_is_for_its_user_alone(clone: Path) -> None:
    launch(clone, "classes", "F", umask=0)
    assert [
        path.stat().st_mode & 0o777 for path in (clone.parent / "cache", clone.parent / "cache/bonsai", *builds(clone))
    ] == [0o700] * 3


def test_a_cache_that_is_named_relatively(clone: Path, tmp_path: Path) -> None:
    launch(clone, "classes", "F", env=beside(clone, XDG_CACHE_HOME="c", HOME=str(tmp_path / "home")), cwd=tmp_path)
    assert not (tmp_path / "c").exists() and list((tmp_path / "home/.cache/bonsai").glob("unproved-*"))


def test_no_home(clone: Path) -> None:
    ran = launch(clone, "classes", "F", env=beside(clone, XDG_CACHE_HOME="", HOME="nowhere"))
    assert ran.returncode == 9 and b"XDG_CACHE_HOME" in ran.stderr


def test_a_foreign_program_beside_the_clone(clone: Path) -> None:
    script(clone.parent / "lib/bonsai/bonsai", "#!/bin/sh\necho foreign\n")
    assert launch(clone, "classes", "F").stdout == ANSWER


def test_many_answers_while_old_builds_go(clone: Path) -> None:
    launch(clone, "classes", "F")
    for number in range(40):
        script(clone.parent / f"cache/bonsai/unproved-bonsai-{number}", "#!/bin/sh\n")
    env = beside(clone)
    runs = [
        subprocess.Popen([clone / "bonsai", "classes", "F"], env=env, stdout=subprocess.PIPE, stderr=subprocess.DEVNULL)
        for _ in range(20)
    ]
    assert [run.communicate()[0] for run in runs] == [ANSWER] * 20


@pytest.mark.parametrize("number", [signal.SIGTERM, signal.SIGHUP, signal.SIGINT, signal.SIGKILL])
def test_a_build_that_is_ended_leaves_nothing(clone: Path, number: signal.Signals) -> None:
    started = subprocess.Popen(
        [clone / "bonsai", "classes", "F"],
        env=beside(clone, SECONDS="600"),
        stdout=subprocess.PIPE,
        stderr=subprocess.PIPE,
    )
    wait_for(lambda: calls(clone))
    process = Path("/proc") / calls(clone)[0][1]
    started.send_signal(number)
    out, _ = started.communicate(timeout=LATEST)
    assert out == b"" and started.returncode not in (0, 1)
    wait_for(lambda: not process.exists())
    assert launch(clone, "classes", "F").stdout == ANSWER
    assert [path.name for path in (clone.parent / "cache/bonsai").iterdir() if path.name.startswith("room-")] == []


def test_a_proved_program(clone: Path) -> None:
    proved(clone)
    assert launch(clone, "classes", "F").stdout == b"proved bonsai: classes F\n"


@pytest.mark.parametrize("removed", ["crates/low/src/lib.rt", "HANDLES"])
def test_a_proved_program_of_a_source_that_is_gone(clone: Path, removed: str) -> None:
    proved(clone)
    (clone / removed).unlink()
    assert b"program: none yet" in launch(clone, "--version").stdout


@pytest.mark.parametrize("change", ["HANDLES", "crates/low/proofs/More.antt", "crates/low/args"])
def test_a_proved_program_of_a_source_that_changed(clone: Path, change: str) -> None:
    proved(clone)
    time.sleep(0.02)
    (clone / change).parent.mkdir(exist_ok=True)
    (clone / change).write_text("Handles allowed: Net.\n", "utf-8")
    assert b"program: none yet" in launch(clone, "--version").stdout


def test_the_kit_that_proved_is_named(clone: Path) -> None:
    proved(clone)
    make_kit(clone.parent / "other")
    (clone.parent / "other/KIT-ID").write_text("kit-2\n", "utf-8")
    path = f"{clone.parent}/other/bin:{os.environ['PATH']}"
    assert launch(clone, "--version", env=beside(clone, PATH=path)).stdout.splitlines()[1:] == [
        b"program: proved, crates/bonsai/out/bonsai",
        b"kit: kit-0",
    ]


def test_where_names_the_program_that_answers(clone: Path) -> None:
    kept = launch(clone, "--where")
    assert kept.stdout.decode() == f"{builds(clone)[0]}\n" and len(calls(clone)) == 1
    assert kept.stderr.startswith(b"bonsai: this answer is from an unproved build")
    program = proved(clone)
    assert launch(clone, "--where").stdout.decode() == f"{program}\n"
    told = launch(clone, "--version").stdout.partition(b"\n")[2].decode()
    assert launch(clone, "--where", "--version").stdout.decode() == f"{program}\n{told}"
    named = launch(clone, "--where", env=beside(clone, BONSAI_PROGRAM=str(builds(clone)[0])))
    assert named.stdout == kept.stdout and named.stderr.endswith(b", which BONSAI_PROGRAM names\n")
    assert launch(clone, "--where", env=beside(clone, BONSAI_PROGRAM="/nowhere/bonsai")).returncode == 9


def test_a_program_that_the_environment_names_is_told(clone: Path) -> None:
    program = proved(clone)
    given = script(clone.parent / "given", '#!/bin/sh\necho "given: $*"\n')
    told = launch(clone, "classes", "F", env=beside(clone, BONSAI_PROGRAM=str(given)))
    assert (told.stdout, told.stderr) == (
        b"given: classes F\n",
        f"bonsai: this answer is from {given}, which BONSAI_PROGRAM names\n".encode(),
    )
    assert launch(clone, "classes", "F", env=beside(clone, BONSAI_PROGRAM=str(program))).stderr == b""
