"""One launcher, whose name says which program answers."""
from __future__ import annotations

from pathlib import Path

import pytest

from bonsainet.repo.tests.launching import beside, builds, calls, launch, make_clone, proved, script

NAMES = ("bonsai", "bonsai-ask", "bonsai-all")


@pytest.fixture(name="clone")
def clone_fixture(tmp_path: Path) -> Path:
    """A repository with the launchers, and beside it a kit."""
    return make_clone(tmp_path)


@pytest.mark.parametrize("name", NAMES)
def test_only_the_program_that_is_asked_is_built(clone: Path, name: str) -> None:
    ran = launch(clone, "F", "N", name=name)
    crate = name.replace("-", "_")
    assert (ran.returncode, ran.stdout) == (0, b"words: F N\n")
    assert ran.stderr.startswith(f"{name}: this answer is from an unproved build, made now".encode())
    assert len(builds(clone)) == 1 and builds(clone)[0].name.startswith(f"unproved-{crate}-")
    assert [call[0].rpartition("/")[2] for call in calls(clone)] == [crate]


def test_programs_share_a_cache_and_keep_their_builds(clone: Path) -> None:
    for number in range(5):
        (clone / "crates/low/src/lib.rt").write_text(f"// {number}\n", "utf-8")
        for name in NAMES:
            assert launch(clone, "F", "N", name=name).returncode == 0
    assert [path.name.split("-")[1] for path in builds(clone)] == ["bonsai"] * 3 + ["bonsai_all"] * 3 + [
        "bonsai_ask"
    ] * 3
    assert len(list((clone.parent / "cache/bonsai").glob("made-*"))) == 9 and len(calls(clone)) == 15
    for name in NAMES:
        launch(clone, "F", "N", name=name)
    assert len(calls(clone)) == 15


@pytest.mark.parametrize("name", NAMES)
def test_the_proved_program_of_a_name(clone: Path, name: str) -> None:
    crate = name.replace("-", "_")
    program = proved(clone, crate)
    assert launch(clone, "F", name=name).stdout == f"proved {crate}: F\n".encode()
    assert launch(clone, "--where", name=name).stdout.decode() == f"{program}\n"
    assert launch(clone, "--version", name=name).stdout.decode().splitlines()[1:] == [
        f"program: proved, crates/{crate}/out/{crate}",
        "kit: kit-0",
    ]


@pytest.mark.parametrize("name", NAMES)
def test_help_of_a_name(clone: Path, name: str) -> None:
    told = launch(clone, "--help", name=name).stdout.decode()
    assert told.startswith(f"Usage: {name} ") and f"man {name}," in told
    assert ("\n    8  NotAll: " in told) == (name != "bonsai") and ("\n    6  NotStable: " in told) == (
        name == "bonsai"
    )
    assert "\n    9  NoProgram: " in told and "--where" in told


@pytest.mark.parametrize("name", NAMES)
def test_the_environment_names_a_program_of_its_own(clone: Path, name: str) -> None:
    variable = f"{name.upper().replace('-', '_')}_PROGRAM"
    given = script(clone.parent / "given", '#!/bin/sh\necho "given: $*"\n')
    ran = launch(clone, "F", name=name, env=beside(clone, **{variable: str(given)}))
    assert ran.stdout == b"given: F\n" and variable.encode() in ran.stderr
    others = {
        other: str(given)
        for other in ("BONSAI_PROGRAM", "BONSAI_ASK_PROGRAM", "BONSAI_ALL_PROGRAM")
        if other != variable
    }
    assert launch(clone, "F", name=name, env=beside(clone, **others)).stdout == b"words: F\n"


def test_a_link_of_another_name(clone: Path) -> None:
    (clone.parent / "ask").symlink_to(clone / "bonsai-ask")
    (clone.parent / "bonsai-all").symlink_to(clone / "bonsai-all")
    (clone.parent / "bns").symlink_to("clone/bonsai")
    assert launch(clone.parent, "--help", name="ask", env=beside(clone)).stdout.startswith(b"Usage: bonsai-ask ")
    assert launch(clone.parent, "--help", name="bonsai-all", env=beside(clone)).stdout.startswith(b"Usage: bonsai-all ")
    assert launch(clone.parent, "--help", name="bns", env=beside(clone)).stdout.startswith(b"Usage: bonsai COMMAND")


def test_a_program_that_the_repository_does_not_have(clone: Path) -> None:
    (clone / "crates/bonsai_ask/src/main.rt").unlink()
    (clone / "crates/bonsai_ask/src").rmdir()
    (clone / "crates/bonsai_ask").rmdir()
    ran = launch(clone, "F", name="bonsai-ask")
    assert (ran.returncode, ran.stdout, ran.stderr) == (
        9,
        b"",
        b"bonsai-ask: this repository has no crate bonsai_ask\n",
    )
