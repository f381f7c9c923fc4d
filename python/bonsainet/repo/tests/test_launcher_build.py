"""The unproved build of the launcher: what is said while it lasts, and who waits for it."""
from __future__ import annotations

import fcntl
import subprocess
from pathlib import Path
from types import ModuleType

import pytest

from bonsainet.ask.where import without_notices
from bonsainet.repo.tests.launching import beside, launch, make_clone, script

ANSWER = b"words: classes F\n"


@pytest.fixture(name="clone")
def clone_fixture(tmp_path: Path) -> Path:
    """A repository with the launcher, and beside it a kit."""
    return make_clone(tmp_path)


@pytest.fixture(name="launcher")
def launcher_fixture(clone: Path) -> ModuleType:
    """The launcher of the clone as a module."""
    made = ModuleType("launcher")
    vars(made)["__file__"] = str(clone / "bonsai")
    exec(compile((clone / "bonsai").read_bytes(), clone / "bonsai", "exec"), vars(made))
    return made


def test_a_cache_whose_name_has_a_blank(clone: Path, tmp_path: Path) -> None:
    ran = launch(clone, "classes", "F", env=beside(clone, XDG_CACHE_HOME=str(tmp_path / "a 'b")))
    assert ran.stdout == ANSWER


def test_names_are_not_looked_at(clone: Path, launcher: ModuleType, tmp_path: Path) -> None:
    script(tmp_path / "kit/bin/rattle", '#!/bin/sh\necho "$@"\n')
    launcher.make_kit(str(tmp_path / "kit"), str(tmp_path / "made"), str(tmp_path / "to"))
    for words, told in ((["check", "--start", "no function"], ""), (["check", "--help"], "check --help\n")):
        ran = subprocess.run([tmp_path / "made/bin/rattle", *words], capture_output=True, text=True, check=True)
        assert ran.stdout == told


def test_a_build_says_what_it_does(launcher: ModuleType, tmp_path: Path, monkeypatch: pytest.MonkeyPatch) -> None:
    told: list[str] = []
    monkeypatch.setattr(launcher, "tell", told.append)
    watch = launcher.Watch(launcher.Program("bonsai"), str(tmp_path / "[room]"))
    watch.begun, watch.clock = 0, lambda: 40 * (len(told) + 1)
    for file in ("repository/crates", "temporary/rt/native/module.bc", "made"):
        (tmp_path / "[room]" / file).parent.mkdir(parents=True, exist_ok=True)
        (tmp_path / "[room]" / file).touch()
        watch.look()
        watch.look()
    assert told == [
        "bonsai: unproved build: step 1 of 3: reading 2 crates; next: compiling",
        "bonsai: unproved build: reading 2 crates took 40 s; step 2 of 3: compiling; next: a first run",
        "bonsai: unproved build: compiling took 40 s; step 3 of 3: a first run; next: the answer",
    ]
    assert without_notices("".join(f"{line}\n" for line in [*told, "bonsai: no file"]).encode()) == b"bonsai: no file\n"


def test_a_long_build_says_so_while_it_lasts(clone: Path) -> None:
    ran = launch(clone, "classes", "F", env=beside(clone, SECONDS="1.5"))
    assert (ran.returncode, ran.stdout, without_notices(ran.stderr)) == (0, ANSWER, b"")
    assert ran.stderr.splitlines()[1] == b"bonsai: unproved build: step 1 of 3: reading 2 crates; next: compiling"


def test_a_run_that_waits_for_another_says_so(clone: Path) -> None:
    (clone.parent / "cache/bonsai").mkdir(parents=True, mode=0o700)
    with open(clone.parent / "cache/bonsai/lock", "w", encoding="utf-8") as lock:
        fcntl.flock(lock, fcntl.LOCK_EX)
        waiting = subprocess.Popen(
            [clone / "bonsai", "classes", "F"], env=beside(clone), stdout=subprocess.PIPE, stderr=subprocess.PIPE
        )
        assert waiting.stderr is not None
        waiting.stderr.readline()
        assert waiting.stderr.readline() == b"bonsai: unproved build: waits, since another run builds\n"
    assert waiting.communicate()[0] == ANSWER
