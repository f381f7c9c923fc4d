"""The program `bonsai-all` by its launcher, over an example and over what it refuses."""

from __future__ import annotations

import os
import subprocess
from pathlib import Path

import pytest

from bonsainet.ask.program import TOP, Program, classes_of
from bonsainet.ask.where import without_notices

FABRIC = TOP / "examples" / "inputs" / "fabric.cfg"
USAGE = b"usage: bonsai-all F groups|compress|report|json|canon|certify [FROM TO]\n"
End = tuple[int, bytes, bytes]


def every(*words: str, data: bytes = b"", out: int = subprocess.PIPE) -> End:
    """The status, the output and the line on standard error."""
    ran = subprocess.run([TOP / "bonsai-all", *words], input=data, stdout=out, stderr=subprocess.PIPE, check=False)
    return ran.returncode, ran.stdout or b"", without_notices(ran.stderr)


def frames(text: bytes, command: str, *numbers: int) -> bytes:
    """What it must write, from what `bonsai` writes for each class."""
    program, found = Program(), b""
    for number in numbers:
        answer = program.ask(command, "F", str(number), texts={"F": text})
        told = answer.err if answer.status else answer.out
        found += b"class %d %d %d\n" % (number, answer.status, len(told)) + told
    return found


def test_the_launcher_is_a_link() -> None:
    assert os.readlink(TOP / "bonsai-all") == "bonsai"


@pytest.mark.parametrize("command", ["groups", "compress", "report", "json", "canon", "certify"])
def test_all_classes_of_a_file(command: str) -> None:
    text = FABRIC.read_bytes()
    count = len(classes_of(Program().done("classes", "F", texts={"F": text})))
    assert count > 1 and every(str(FABRIC), command) == (0, frames(text, command, *range(1, count + 1)), b"")


def test_a_range_and_numbers_that_no_class_has() -> None:
    text = FABRIC.read_bytes()
    assert every(str(FABRIC), "groups", "2", "2") == (0, frames(text, "groups", 2), b"")
    status, out, err = every(str(FABRIC), "groups", "0", "3")
    assert (status, err) == (8, b"") and out == frames(text, "groups", 0, 1, 2, 3)
    assert out.startswith(b"class 0 1 19\nrefused: NoClass 0\n") and out.endswith(b"refused: NoClass 3\n")


def test_standard_input_is_a_file() -> None:
    assert every("-", "report", data=FABRIC.read_bytes()) == every(str(FABRIC), "report")


def test_no_classes_are_no_frames(tmp_path: Path) -> None:
    (tmp_path / "empty.cfg").touch()
    assert every(str(tmp_path / "empty.cfg"), "json") == (0, b"", b"")


def test_a_text_that_is_refused_and_one_that_is_not_there(tmp_path: Path) -> None:
    (tmp_path / "odd.cfg").write_text("hostname a\nend\nstrange\n", "ascii")
    for words in (["groups"], ["groups", "7", "9"]):
        told = Program().ask("classes", str(tmp_path / "odd.cfg"))
        assert every(str(tmp_path / "odd.cfg"), *words) == (1, b"", told.err)
    nowhere = str(tmp_path / "nowhere.cfg")
    assert every(nowhere, "groups") == (3, b"", f"read fault: {nowhere}\n".encode())


@pytest.mark.parametrize(
    "words",
    [[], ["groups"], ["F", "classes"], ["F", "groups", "1"], ["F", "groups", "2", "1"], ["F", "groups", "1", "02"]],
)
def test_words_of_no_form(words: list[str]) -> None:
    assert every(*words) == (2, b"", USAGE)


def test_an_output_that_takes_nothing() -> None:
    with open("/dev/full", "wb") as full:
        assert every(str(FABRIC), "compress", out=full.fileno()) == (4, b"", b"write fault\n")
    reader, writer = os.pipe()
    os.close(reader)
    try:
        assert every(str(FABRIC), "compress", out=writer) == (4, b"", b"write fault\n")
    finally:
        os.close(writer)
