"""The quick asker, and answers that are kept."""
from __future__ import annotations

import subprocess
from pathlib import Path

import pytest

from hostile.asking import Asked, Asker, Counts
from hostile.kept_answers import KeptAsker
from bonsainet.ask.program import TOP, Program

FABRIC = (TOP / "examples" / "inputs" / "fabric.cfg").read_bytes()
ASKED: list[tuple[tuple[str, ...], dict[str, str | bytes]]] = [
    (("classes", "F"), {"F": FABRIC}),
    (("classes", "F"), {"F": FABRIC.decode()}),
    (("classes", "F"), {"F": b"x\n"}),
    (("classes", "F"), {"F": b""}),
    ((), {}),
    (("classes", "/nowhere"), {}),
    (("compress", "F", "1"), {"F": FABRIC}),
    (("check", "F", "1", "S"), {"F": FABRIC, "S": b"spine1 none\n"}),
    (("groups", "F", "9"), {"F": FABRIC}),
]


@pytest.mark.parametrize(("words", "texts"), ASKED)
def test_the_answers_are_those_of_the_program(
    words: tuple[str, ...], texts: dict[str, str | bytes], tmp_path: Path
) -> None:
    """Status, output and line on standard error, asked, kept, and from what was kept."""
    plain = Program().ask(*words, texts=texts)
    assert Asker().ask(*words, texts=texts) == plain
    for _ in range(2):
        assert KeptAsker(tmp_path / "answers").ask(*words, texts=texts) == plain


def test_what_is_kept_is_not_asked_again(tmp_path: Path) -> None:
    """A program that counts its calls is called once for each question."""
    program, calls = tmp_path / "program", tmp_path / "calls"
    program.write_text(f'#!/bin/sh\necho >> {calls}\ncat "$2"\n')
    program.chmod(0o755)
    for _ in range(3):
        asker = KeptAsker(tmp_path / "answers", str(program))
        assert [asker.ask("classes", "F", texts={"F": text}).out for text in (b"a", b"b", b"a")] == [b"a", b"b", b"a"]
        asker.close()
    assert len(calls.read_text()) == 2
    asked = Asked(Asker(str(program)), Counts())
    assert (
        [asked.ask(b"c", "classes").out for _ in range(3)] == [b"c"] * 3
        and asked.counts.commands == {"classes": 1}
        and len(calls.read_text()) == 3
    )


def test_an_answer_that_never_comes(tmp_path: Path) -> None:
    """The child is ended."""
    program = tmp_path / "program"
    program.write_text("#!/bin/sh\nexec sleep 600\n")
    program.chmod(0o755)
    with pytest.raises(subprocess.TimeoutExpired):
        Asker(str(program)).ask("classes", "F", texts={"F": b""}, seconds=0.2)


def test_ends_are_counted() -> None:
    """The last word of a refusal, and statuses."""
    asked = Asked(Asker(), Counts())
    asked.ask(FABRIC, "groups", "9")
    asked.ask(b"x\n", "classes")
    asked.ask(FABRIC, "nonsense")
    assert asked.counts.kinds == {"NoClass": 1, "UnknownLine": 1, "status 2": 1}
