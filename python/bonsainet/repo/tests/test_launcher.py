"""The launcher `bonsai`: statuses, streams, and the unproved build that it keeps, by programs and a kit made for the test."""
from __future__ import annotations

import os
import re
import subprocess
import time
from pathlib import Path
from typing import Any

import pytest

from bonsainet.ask.program import TOP
from bonsainet.ask.where import without_notices
from bonsainet.repo.tests.launching import PROGRAM, beside, calls, make_clone, proved, script

MANY_BYTES = '#!/bin/sh\nhead -c 3000000 /dev/zero 2>/dev/null || { echo "write fault" >&2; exit 4; }\n'


def launch(*words: str, at: Path = TOP, **more: Any) -> subprocess.CompletedProcess[bytes]:
    """Runs the launcher."""
    env = {**os.environ, **more.pop("env", {})}
    how: dict[str, Any] = {"stdin": subprocess.DEVNULL, **more}
    return subprocess.run([at / "bonsai", *words], capture_output=True, check=False, env=env, **how)


@pytest.fixture(name="given")
def given_fixture(tmp_path: Path) -> dict[str, str]:
    """An environment whose program is the one above."""
    return {"BONSAI_PROGRAM": str(script(tmp_path / "program", PROGRAM))}


@pytest.fixture(name="clone")
def clone_fixture(tmp_path: Path) -> Path:
    """A repository with the launcher, and beside it a kit."""
    return make_clone(tmp_path)


@pytest.mark.parametrize("status", range(8))
def test_a_status_is_kept(given: dict[str, str], status: int) -> None:
    ran = launch("classes", "F", env={**given, "STATUS": str(status)})
    assert (ran.returncode, ran.stdout) == (status, b"words: classes F\n")
    assert ran.stderr == f"bonsai: this answer is from {given['BONSAI_PROGRAM']}, which BONSAI_PROGRAM names\n".encode()


def test_dash_is_standard_input(given: dict[str, str]) -> None:
    ran = launch("classes", "-", env=given, stdin=None, input=b"hostname a\n")
    assert (ran.returncode, re.sub(rb"/fd/\d+", b"", ran.stdout)) == (0, b"words: classes /proc/self\nhostname a\n")


def test_dash_stands_for_one_file(given: dict[str, str]) -> None:
    ran = launch("check", "-", "1", "-", env=given)
    assert (ran.returncode, ran.stdout, ran.stderr.count(b"\n")) == (2, b"", 1)


@pytest.mark.parametrize("words", [["--help"], ["-h"], ["--version"]])
def test_own_answers(words: list[str]) -> None:
    ran = launch(*words)
    assert (ran.returncode, ran.stderr) == (0, b"")
    assert ran.stdout.startswith(b"bonsai " if words == ["--version"] else b"Usage: bonsai ")


def test_help_loads_few_modules() -> None:
    """Help comes at once: it loads no module but those that each start of the interpreter loads."""
    loaded = subprocess.run(
        ["/usr/bin/python3", "-X", "importtime", "-IS", TOP / "bonsai", "--help"], capture_output=True, check=True
    )
    plain = subprocess.run(
        ["/usr/bin/python3", "-X", "importtime", "-IS", "-c", "import os"], capture_output=True, check=True
    )
    assert loaded.stderr.count(b"\n") <= plain.stderr.count(b"\n")


def test_help_names_each_command_and_status_of_the_pages() -> None:
    page = (TOP / "docs" / "use" / "COMMANDS.md").read_text("utf-8")
    told = launch("--help").stdout.decode()
    forms = re.findall(r"^\| `([a-z]+(?: [A-Z])+)` \|", page.partition("\n## Statuses")[0], re.M)
    # (NotAll is a status of the two other programs)
    statuses = [it for it in re.findall(r"^\| (\d+) ([A-Z][a-z]\w+) \|", page, re.M) if it[1] != "NotAll"]
    assert len(forms) >= 14 and len(statuses) >= 9
    assert all(f"\n  {form} " in told for form in forms)
    assert all(re.search(rf"^ +{status}  {name}: ", told, re.M) for status, name in statuses)
    interrupted = re.search(r"^\| 130 Interrupted \| (.+?) \|", page, re.M)
    assert interrupted and f"  130  Interrupted: {interrupted[1]}\n" in told


@pytest.mark.parametrize("words", [["--help"], ["--version"]])
def test_own_output_on_a_full_device(words: list[str]) -> None:
    with open("/dev/full", "wb") as full:
        ran = subprocess.run([TOP / "bonsai", *words], stdout=full, stderr=subprocess.PIPE, check=False)
    assert (ran.returncode, ran.stderr) == (4, b"write fault\n")


def test_own_output_on_a_closed_pipe() -> None:
    reader, writer = os.pipe()
    os.close(reader)
    ran = subprocess.run([TOP / "bonsai", "--help"], stdout=writer, stderr=subprocess.PIPE, check=False)
    os.close(writer)
    assert (ran.returncode, ran.stderr) == (4, b"write fault\n")


def test_the_program_has_the_streams_itself(tmp_path: Path) -> None:
    env = {**os.environ, "BONSAI_PROGRAM": str(script(tmp_path / "program", MANY_BYTES))}
    with open("/dev/full", "wb") as full:
        ran = subprocess.run(
            [TOP / "bonsai", "compress", "F", "1"], stdout=full, stderr=subprocess.PIPE, check=False, env=env
        )
    assert (ran.returncode, ran.stderr.splitlines()[1:]) == (4, [b"write fault"])


def test_a_program_that_is_not_there() -> None:
    ran = launch("classes", "F", env={"BONSAI_PROGRAM": "/nowhere/bonsai"})
    assert (ran.returncode, ran.stdout) == (9, b"")
    assert ran.stderr.splitlines()[1:] == [b"bonsai: /nowhere/bonsai: No such file or directory"]


def test_a_program_that_names_the_launcher(clone: Path) -> None:
    assert launch("classes", "F", at=clone, env=beside(clone, BONSAI_PROGRAM=str(clone / "bonsai"))).returncode == 0


def test_the_unproved_build_is_kept_for_its_sources(clone: Path) -> None:
    first = launch("classes", "F", at=clone, env=beside(clone))
    second = launch("classes", "F", at=clone, env=beside(clone, STATUS="6"))
    assert (first.returncode, second.returncode, len(calls(clone))) == (0, 6, 1)
    assert first.stdout == second.stdout == b"words: classes F\n"
    assert all(it.stderr.startswith(b"bonsai: this answer is from an unproved build") for it in (first, second))
    assert without_notices(first.stderr) == b"" and second.stderr.count(b"\n") == 1
    (clone / "crates/low/src/lib.rt").write_text("// two\n", "utf-8")
    assert launch("classes", "F", at=clone, env=beside(clone)).returncode == 0
    assert len(calls(clone)) == 2


def test_few_unproved_builds_are_kept(clone: Path) -> None:
    for number in range(5):
        (clone / "crates/low/src/lib.rt").write_text(f"// {number}\n", "utf-8")
        assert launch("classes", "F", at=clone, env=beside(clone)).returncode == 0
    assert len(list((clone.parent / "cache/bonsai").glob("unproved-bonsai-*"))) == 3


def test_runs_at_once_build_once(clone: Path) -> None:
    env = beside(clone)
    runs = [
        subprocess.Popen([clone / "bonsai", "classes", "F"], env=env, stdout=subprocess.PIPE, stderr=subprocess.PIPE)
        for _ in range(4)
    ]
    assert [run.communicate()[0] for run in runs] == [b"words: classes F\n"] * 4
    assert len(calls(clone)) == 1


def test_an_unproved_build_that_fails(clone: Path) -> None:
    ran = launch("classes", "F", at=clone, env=beside(clone, ENDS="error: no such thing"))
    assert (ran.returncode, ran.stdout) == (9, b"")
    assert without_notices(ran.stderr).splitlines() == [
        b"error: no such thing",
        b"bonsai: the unproved build failed, as the lines above say",
    ]


def test_without_a_kit(clone: Path) -> None:
    path = ":".join(it for it in os.environ["PATH"].split(":") if not os.path.exists(f"{it}/rt"))
    ran = launch("classes", "F", at=clone, env=beside(clone, PATH=path))
    assert (ran.returncode, ran.stdout) == (9, b"")
    assert (
        ran.stderr.startswith(b"bonsai: the command rt of the Rattle kit is not on the path")
        and ran.stderr.count(b"\n") == 1
    )


def test_a_cache_that_cannot_be_written(clone: Path) -> None:
    (clone.parent / "cache").write_text("", "utf-8")
    ran = launch("classes", "F", at=clone, env=beside(clone))
    assert ran.returncode == 9
    assert b"XDG_CACHE_HOME" in ran.stderr and b"Traceback" not in ran.stderr


def test_the_proved_program_while_no_source_is_newer(clone: Path) -> None:
    proved(clone)
    assert launch("classes", "F", at=clone, env=beside(clone)).stdout == b"proved bonsai: classes F\n"
    os.utime(clone / "crates/low/src/lib.rt", (time.time() + 9, time.time() + 9))
    assert launch("classes", "F", at=clone, env=beside(clone)).stdout == b"words: classes F\n"


def test_a_source_that_is_put_back_with_an_old_time(clone: Path) -> None:
    program = proved(clone)
    source, was = clone / "crates/low/src/lib.rt", os.stat(program).st_mtime - 9
    time.sleep(0.05)
    source.write_text("// other\n", "utf-8")
    os.utime(source, (was, was))
    assert launch("classes", "F", at=clone, env=beside(clone)).stdout == b"words: classes F\n"


def test_a_program_that_build_has_not_made(clone: Path) -> None:
    program = proved(clone)
    script(program, '#!/bin/sh\necho "other: $*"\n')
    assert launch("classes", "F", at=clone, env=beside(clone)).stdout == b"words: classes F\n"
    proved(clone).with_name("bonsai.made").unlink()
    assert launch("classes", "F", at=clone, env=beside(clone)).stdout == b"words: classes F\n"
