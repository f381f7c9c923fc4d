"""Failing devices and failing memory, with the ends that docs/use/COMMANDS.md has."""
from __future__ import annotations

import os
import shutil
import signal
import subprocess
from pathlib import Path

import pytest

from hostile.failing import devices, memory
from bonsainet.cli.command_line import Refused
from bonsainet.ask.native import program_file

FAULT = (4, b"", b"write fault\n")


@pytest.mark.parametrize("program", devices.PROGRAMS)
def test_an_output_that_takes_nothing(program: str) -> None:
    """A full device, a pipe that nobody reads, and none at all."""
    assert devices.full(program) == FAULT
    assert devices.closed_pipe(program) == FAULT
    assert devices.closed_output(program) == FAULT


@pytest.mark.parametrize("program", devices.PROGRAMS)
def test_an_error_output_that_takes_nothing(program: str) -> None:
    """The usage line can't be said, nor a refusal, nor that a file cannot be read."""
    refused = {
        "bonsai": ["groups", devices.FABRIC, "9"],
        "bonsai-ask": [devices.FABRIC, "9", "count"],
        "bonsai-all": ["/dev/zero", "groups"],
    }[program]
    nothing: list[str] = []
    for words in (nothing, refused, devices.reading(program, "/nowhere.cfg")):
        assert devices.full_error(program, words) == 4
        assert devices.closed_error(program, words) == 4


@pytest.mark.parametrize("program", devices.PROGRAMS)
def test_an_output_that_ends(program: str, tmp_path: Path) -> None:
    """What was taken is a first part of the answer."""
    status, taken, err = devices.small_file(tmp_path, program)
    assert (status, err) == (4, b"write fault\n")
    assert len(taken) <= 512 < len(devices.plain(program)) and devices.plain(program).startswith(taken)


def test_a_reader_that_goes_away(tmp_path: Path) -> None:
    """What was taken is a first part of the answer."""
    status, taken, err = devices.reader_goes_away(tmp_path)
    assert (status, err) == (4, b"write fault\n") and taken.startswith(b"class 1 prefixes")


def test_a_reader_of_single_bytes() -> None:
    """The whole answer comes, however slowly it is taken."""
    assert devices.slow_reader() == (0, devices.plain(), b"")


FIRST = [devices.directory, devices.vanished, devices.dangling]
SECOND = [devices.second_directory, devices.second_vanished]


@pytest.mark.parametrize("program", devices.PROGRAMS)
@pytest.mark.parametrize("fault", FIRST + SECOND)
def test_a_file_that_cannot_be_read(fault, program: str, tmp_path: Path) -> None:
    """Status 3, and the name."""
    if program == "bonsai-all" and fault in SECOND:
        return
    status, out, err = fault(tmp_path, program)
    assert (status, out) == (3, b"") and err.startswith(b"read fault: ") and err.count(b"\n") == 1


@pytest.mark.parametrize("program", devices.PROGRAMS)
def test_a_file_that_fails_behind_its_beginning(program: str) -> None:
    """It can be opened and not be read."""
    assert devices.own_memory(program) == (3, b"", b"read fault: /proc/self/mem\n")


@pytest.mark.skipif(os.geteuid() == 0, reason="root may read every file")
def test_no_permission(tmp_path: Path) -> None:
    """Status 3, and the name."""
    (tmp_path / "secret").touch(mode=0)
    assert devices.end(["classes", str(tmp_path / "secret")])[0] == 3


@pytest.mark.parametrize("program", devices.PROGRAMS)
def test_files_without_end_or_content(program: str) -> None:
    """A file without an end is too long; an empty one has no class."""
    assert devices.endless(program) == (1, b"", b"refused: FileTooLong\n")
    assert devices.empty(program) == (0, b"", b"")


@pytest.mark.parametrize("fault", [devices.growing, devices.removed])
def test_a_file_that_changes_while_it_is_read(fault, tmp_path: Path) -> None:
    """The answer is that of what was read: more comments change nothing, and a file without a name has its content."""
    assert fault(tmp_path) == devices.end(["classes", devices.FABRIC])


def test_a_fifo_that_ends_early(tmp_path: Path) -> None:
    """What came is read: the broken line decides."""
    status, out, err = devices.early_fifo(tmp_path)
    assert (status, out) == (1, b"") and err.startswith(b"refused: line ")


def test_a_fifo_of_single_bytes(tmp_path: Path) -> None:
    """The answer is that of the file."""
    assert devices.slow_fifo(tmp_path) == devices.end(["classes", devices.FABRIC])


@pytest.mark.parametrize("number", [signal.SIGINT, signal.SIGTERM, signal.SIGHUP])
def test_a_signal_ends_it_without_output(number: int, tmp_path: Path) -> None:
    """As the system does it by itself."""
    assert devices.ended_by(number, tmp_path) == (-number, b"")


def _is_unproved() -> bool:
    try:
        return "unproved" in Path(program_file()).name
    except Refused:
        return True


CHECKED = "an unproved build has an allocator of its own and reserves address space for its checks: memory is not tried"


@pytest.mark.skipif(shutil.which("gcc") is None, reason="the package gcc is not there: nothing is compiled")
@pytest.mark.skipif(_is_unproved(), reason=CHECKED)
def test_memory_that_fails_in_turn(tmp_path: Path) -> None:
    """Each command on four networks of either protocol: `out of memory`, or as without the fault.
    `hostile/failing/measure` tries each allocation."""
    library = memory.allocator(tmp_path)
    wrong = [
        one
        for words in memory.commands(memory.networks(tmp_path), tmp_path)
        for one in memory.wrong(words, library, tmp_path, 8)
    ]
    assert not wrong


@pytest.mark.skipif(shutil.which("gcc") is None, reason="the package gcc is not there: nothing is compiled")
def test_a_program_whose_memory_cannot_fail(tmp_path: Path, monkeypatch: pytest.MonkeyPatch) -> None:
    """Refused, and nothing is said to have been tried."""
    script = tmp_path / "program"
    script.write_text('#!/bin/sh\necho 0 > "$COUNT_TO"\n')
    script.chmod(0o755)
    monkeypatch.setattr(memory, "program_file", lambda: str(script))
    with pytest.raises(Refused):
        memory.count(("classes", "F"), Path("/dev/null"), tmp_path)


@pytest.mark.skipif(_is_unproved(), reason=CHECKED)
def test_memory_that_is_short() -> None:
    """Under a limit of the address space, from 8 MB up, it ends with `out of memory` or with the answer."""
    for size in (8000, 12_000, 20_000):
        ran = subprocess.run(
            ["bash", "-c", f'ulimit -v {size}; exec "$0" trial 8', program_file()], capture_output=True, check=False
        )
        assert ran.returncode == 0 or (ran.returncode, ran.stdout, ran.stderr) == memory.OUT_OF_MEMORY, size
