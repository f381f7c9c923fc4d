"""Tools say which program answers, and whether it is proved."""
from __future__ import annotations

import hashlib
import json
import os
import subprocess
from pathlib import Path

import pytest

from bonsainet.ask.program import TOP, Program
from bonsainet.ask.where import Identity, NoProgram, identity_of, judged_by, named_by, without_notices
from bonsainet.tests.asking import LATEST, needs, place_of, tool

LAUNCHER = """#!/bin/sh
case $1 in
--where) echo "bonsai: this answer is from NOTICE" >&2; printf 'PROGRAM\\nprogram: KIND\\nkit: kit-1\\n' ;;
*) echo "bonsai: this answer is from NOTICE" >&2; exec 'PROGRAM' "$@" ;;
esac
"""


def launcher(room: Path, kind: str, program: str) -> Path:
    """What stands for the launcher."""
    made = room / "bonsai"
    made.write_text(LAUNCHER.replace("PROGRAM", program).replace("KIND", kind))
    made.chmod(0o755)
    return made


@pytest.mark.parametrize(
    ("kind", "is_proved"), [("proved, x", True), ("unproved, x; y", False), ("x, which Y names", False)]
)
def test_what_the_launcher_says(
    kind: str, is_proved: bool, tmp_path: Path, program: Program, capsys: pytest.CaptureFixture[str]
) -> None:
    named = named_by(str(launcher(tmp_path, kind, program.path)))
    assert named.path == program.path
    assert capsys.readouterr().err == "bonsai: this answer is from NOTICE\n"
    digest = hashlib.sha256(Path(program.path).read_bytes()).hexdigest()
    assert identity_of(named) == Identity(digest, is_proved, "kit-1")


@pytest.mark.parametrize(
    ("does", "told"),
    [("echo 'bonsai: no kit' >&2; exit 9", "^bonsai: no kit$"), ("echo /nowhere", "names no program$")],
)
def test_a_launcher_that_names_no_program(does: str, told: str, tmp_path: Path) -> None:
    made = tmp_path / "bonsai"
    made.write_text(f"#!/bin/sh\n{does}\n")
    made.chmod(0o755)
    with pytest.raises(NoProgram, match=told):
        named_by(str(made))


def test_a_program_that_is_no_launcher_is_asked_nothing_else(tmp_path: Path) -> None:
    made = tmp_path / "program"
    made.write_text(f'#!/bin/sh\necho "$1" >> {tmp_path}/asked\n')
    made.chmod(0o755)
    assert Program(str(made)).ask("classes", "F").status == 0
    assert (tmp_path / "asked").read_text() == "classes\n"


def test_no_descriptor_of_a_standard_stream_is_handed_over(tmp_path: Path, program: Program) -> None:
    words = f"import sys; sys.path.insert(0, {str(TOP / 'python')!r}); from bonsainet.ask.program import Program\n"
    words += f"answer = Program({program.path!r}).ask('classes', 'F', texts={{'F': b'bogus'}}); sys.exit(answer.status)"
    command = ["/bin/sh", "-c", 'exec /usr/bin/python3 -c "$0" <&- >&- 2>&-', words]
    assert subprocess.run(command, check=False, timeout=LATEST, cwd=tmp_path).returncode == 1


@pytest.mark.parametrize("name", ["bonsai-json", "bonsai-refusals", "bonsai-doubts", "bonsai-page", "bonsai-import"])
def test_a_tool_says_once_that_a_program_is_not_proved(name: str, tmp_path: Path, program: Program) -> None:
    needs(name)
    other = tmp_path / "other"
    other.write_bytes(Path(program.path).read_bytes() + b"\0")
    other.chmod(0o755)
    words = [str(TOP / "tools" / name), str(place_of("campus.cfg"))]
    ran = subprocess.run(words, capture_output=True, check=False, env={**os.environ, "BONSAI_PROGRAM": str(other)})
    notice = f"bonsai: this answer is from {other}, which BONSAI_PROGRAM names\n".encode()
    assert ran.returncode == 0 and ran.stderr.count(notice) == 1 and notice not in without_notices(ran.stderr)


@pytest.mark.parametrize("name", ["bonsai-json", "bonsai-refusals", "bonsai-doubts"])
def test_documents_say_which_program_answered(name: str, program: Program) -> None:
    words = [] if name == "bonsai-json" else ["--json"]
    told = json.loads(tool(name, place_of("two-routers.cfg"), *words).stdout)["program"]
    assert told == Program().identity.plain and set(told) == {"sha256", "proved", "kit"}


@pytest.mark.parametrize("name", ["bonsai-refusals", "bonsai-doubts"])
def test_texts_say_which_program_answered(name: str, program: Program) -> None:
    lines = tool(name, place_of("two-routers.cfg")).stdout.decode().splitlines()
    assert lines[-2:] == ["", judged_by(Program().identity)]


def test_reports_of_exports_say_which_program_read(tmp_path: Path, program: Program) -> None:
    words = ["--to", "frr", place_of("two-routers.cfg")]
    told = tool("bonsai-export", *words, tmp_path / "one").stderr.decode()
    assert told.splitlines()[-1] == judged_by(Program().identity)
    record = json.loads(tool("bonsai-export", "--json", *words, tmp_path / "two").stderr)
    assert record["program"] == Program().identity.plain


def test_reports_of_imports_say_which_program_judged(tmp_path: Path, program: Program) -> None:
    (tmp_path / "a.cfg").write_bytes(place_of("two-routers.cfg").read_bytes())
    assert tool("bonsai-import", tmp_path).stderr.decode().splitlines()[-1] == f"Judged by {Program().identity.told}"
    assert json.loads(tool("bonsai-import", "--json", tmp_path).stderr)["program"] == Program().identity.plain


@pytest.mark.parametrize("form", ["dot", "svg", "png"])
def test_pictures_say_which_program_answered(form: str, program: Program) -> None:
    needs("bonsai-draw")
    drawn = tool("bonsai-draw", place_of("two-routers.cfg"), 1, "-f", form)
    if drawn.returncode:
        pytest.skip(drawn.stderr.decode())
    assert f"bonsai-draw, by {Program().identity.told}".encode() in drawn.stdout
    if form == "png":
        assert drawn.stdout.endswith(b"IEND\xaeB`\x82") and drawn.stdout.count(b"tEXt") >= 1
