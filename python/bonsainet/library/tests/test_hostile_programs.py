"""What the library says where a program crashes, ends within its answer, or is another one."""
from __future__ import annotations

import os
import signal
import subprocess
import sys
import time
from collections.abc import Callable
from pathlib import Path

import pytest

import bonsainet
from bonsainet.ask.program import ALL, ASK, TOP, Program, named
from bonsainet.library import calls
from bonsainet.library.tests.fakes import Fake, fake_fixture

__all__ = ["fake_fixture"]
INPUTS = TOP / "examples" / "inputs"
Asked = Callable[[bonsainet.Network], object]
ASKED: dict[str, Asked] = {
    "classes": lambda network: bonsainet.Network.from_text(network.text),
    "groups": lambda network: network.class_of(10).groups(),
    "size": lambda network: network.class_of(10).size(),
    "groups of all": lambda network: list(network.groups()),
    "compressed": lambda network: list(network.compressed()),
    "route": lambda network: network.class_of(10).ask.route("*"),
    "route of all": lambda network: network.ask.route("*"),
    "count": lambda network: network.class_of(10).ask.count(),
    "count of all": lambda network: network.ask.count(),
    "solutions": lambda network: network.class_of(10).solutions(),
    "forwards": lambda network: network.class_of(10).forwards(),
    "replies": lambda network: network.replies("10 count\n"),
    "check": lambda network: network.class_of(10).check({}),
    "lift": lambda network: network.class_of(10).lift({}),
    "frame": lambda network: network.frame(),
    "diff": lambda network: bonsainet.diff(network, bonsainet.Network(f"{network.text}!\n")),
}


@pytest.fixture(name="campus")
def campus_fixture() -> bonsainet.Network:
    """A network whose classes are known, so that only what is asked next is asked."""
    network = bonsainet.Network.from_file(INPUTS / "campus.cfg")
    assert network.classes and named(ALL).path and named(ASK).path
    return network


@pytest.mark.parametrize("asked", ASKED)
@pytest.mark.parametrize(
    "script, status",
    [
        ("exit 1", 1),
        ("echo ls: no such file >&2; exit 2", 2),
        ("echo usage: ls FILE >&2; exit 2", 2),
        ("echo refused: something else >&2; exit 1", 1),
        ("echo not quite >&2; exit 6", 6),
        ("kill -KILL $$", -9),
        ("echo out of memory >&2; exit 5", 5),
        ("echo anything", 0),
        ("printf 'class 1'", 0),
        ("echo class 10 yes; exit 99", 99),
    ],
)
def test_another_program(asked: str, script: str, status: int, fake: Fake, campus: bonsainet.Network) -> None:
    fake(script)
    with pytest.raises(bonsainet.ProgramFailed) as found:
        ASKED[asked](campus)
    assert found.value.status == status and found.value.reason


@pytest.mark.parametrize("asked", sorted({*ASKED} - {"classes", "groups", "lift", "solutions", "forwards", "diff"}))
def test_a_program_that_says_nothing(asked: str, fake: Fake, campus: bonsainet.Network) -> None:
    """No classes, groups, labels or solutions can be an answer. Where something has to be said, it is missed."""
    fake("true")
    with pytest.raises(bonsainet.ProgramFailed):
        ASKED[asked](campus)


@pytest.mark.parametrize("end", ["exit 0", "exit 8", "kill -KILL $$"])
@pytest.mark.parametrize("length", [0, 1, 20, -1, -30])
def test_frames_that_are_cut(end: str, length: int, fake: Fake, campus: bonsainet.Network) -> None:
    fake(f'{named(ALL).path} "$@" | head -c {length}; {end}')
    with pytest.raises(bonsainet.ProgramFailed):
        list(campus.groups())


@pytest.mark.parametrize("end", ["exit 0", "exit 8", "kill -KILL $$"])
@pytest.mark.parametrize("less", [1, 7, 200])
@pytest.mark.parametrize("asked", ["forwards", "route", "count", "solutions"])
def test_answers_that_are_cut(asked: str, end: str, less: int, fake: Fake, campus: bonsainet.Network) -> None:
    fake(f'{named(ASK).path} "$@" | head -c -{less}; {end}')
    with pytest.raises(bonsainet.ProgramFailed):
        made = ASKED[asked](campus)
        assert made == []
        raise bonsainet.ProgramFailed(0, "nothing is left of it")


def test_solutions_of_which_one_program_lists_less(fake: Fake, campus: bonsainet.Network) -> None:
    other = bonsainet.Network.from_text(campus.text.replace("ip ospf cost 10", "ip ospf cost 11"))
    assert other.text != campus.text
    fake(f'if [ "$3" = forwards ]; then {named(ASK).path} "$@" | head -n -3; else {named(ASK).path} "$@"; fi')
    with pytest.raises(bonsainet.ProgramFailed):
        bonsainet.diff(campus, other)


def test_a_program_that_cannot_be_started(
    campus: bonsainet.Network, tmp_path: Path, monkeypatch: pytest.MonkeyPatch
) -> None:
    (tmp_path / "no-program").write_text("#!/bin/sh\n")
    for path in (tmp_path / "no-program", tmp_path / "nothing", tmp_path):
        monkeypatch.setattr(calls, "named", lambda name: Program(str(path)))
        with pytest.raises(bonsainet.ProgramFailed) as found:
            campus.class_of(10).groups()
        assert found.value.status == 9 and str(path) in found.value.reason
        folder = TOP / "examples" / "folders" / "campus"
        with pytest.raises(bonsainet.ProgramFailed):
            bonsainet.Network.from_folder(folder / "configs", folder / "decisions")


def test_a_text_is_judged_also_without_asserts() -> None:
    words = [sys.executable, "-O", "-c", "import bonsainet; bonsainet.Network.from_text('nonsense')"]
    ran = subprocess.run(words, cwd=TOP / "python", capture_output=True, check=False)
    assert ran.returncode == 1 and b"TextRefused: text: line 1: " in ran.stderr


def test_standard_streams_that_are_closed(tmp_path: Path) -> None:
    told = tmp_path / "told"
    script = f"import bonsainet; open({str(told)!r}, 'w').write(str(bonsainet.Network.from_text('').classes))"
    ran = subprocess.run(
        ["sh", "-c", 'exec "$@" <&- >&- 2>&-', "sh", sys.executable, "-c", script], cwd=TOP / "python", check=False
    )
    assert ran.returncode == 0 and told.read_text() == "()"


@pytest.mark.parametrize("number", [signal.SIGTERM, signal.SIGKILL])
def test_a_question_ends_where_its_caller_is_killed(number: signal.Signals, tmp_path: Path) -> None:
    slow, started = tmp_path / "slow", tmp_path / "started"
    slow.write_text(f"#!/bin/sh\necho $$ > {started}.new\nmv {started}.new {started}\nexec sleep 600\n")
    slow.chmod(0o755)
    script = f"from bonsainet.ask.program import Program; Program({str(slow)!r}, 'bonsai-ask').ask('F')"
    with subprocess.Popen([sys.executable, "-c", script], cwd=TOP / "python") as caller:
        assert _comes_true(started.exists)
        caller.send_signal(number)
    assert _comes_true(lambda: not os.path.exists(f"/proc/{started.read_text().strip()}"))


def _comes_true(is_true: Callable[[], bool]) -> bool:
    """Whether something is true before a minute is over."""
    until = time.monotonic() + 60
    while not is_true() and time.monotonic() < until:
        time.sleep(0.05)
    return is_true()
