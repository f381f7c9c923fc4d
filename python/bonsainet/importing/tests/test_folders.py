"""The folders of examples/folders: what is imported answers right, and what mere deletion leaves answers wrong."""
from __future__ import annotations

import shlex
from pathlib import Path

import pytest

from bonsainet.importing.decisions import read_decisions
from bonsainet.importing.rules.options import Options
from bonsainet.importing.tool import import_folder
from bonsainet.ask.program import TOP, Program
from bonsainet.configs.text import text_of

FOLDERS = sorted(path for path in (TOP / "examples" / "folders").iterdir() if path.is_dir())
ROUNDS = "*\n" * 12
SECTIONS = ("class", "groups", "rest", "none")


def sections(path: Path) -> list[tuple[str, str, list[str]]]:
    """The sections of an answer: what is asked, of which prefix, and the lines."""
    found: list[tuple[str, str, list[str]]] = []
    for line in path.read_text().splitlines():
        words = line.split()
        if line.startswith("#"):
            continue
        if len(words) == 2 and words[0] in SECTIONS:
            found.append((words[0], words[1], []))
        else:
            found[-1][2].append(line)
    return found


def imported(folder: Path, decisions: str, program: Program) -> str:
    """The text of a folder with a file of decisions."""
    words = shlex.split((folder / "words").read_text()) if (folder / "words").is_file() else []
    options = Options.of("--own-as" in words, [word for before, word in zip(words, words[1:]) if before == "--stub"])
    file = folder / decisions
    report = import_folder(
        str(folder), program, read_decisions(file.read_text(), decisions) if file.is_file() else None, options
    )
    assert not report.folder.log.refusals, report.text
    return text_of(report.folder.routers)


def compare(program: Program, text: str, answer: Path) -> None:
    """Asks what an answer tells of, and compares."""
    classes = program.classes(text)
    for kind, prefix, lines in sections(answer):
        found = next((one for one in classes if prefix in one.prefixes), None)
        if kind == "none":
            assert found is None, prefix
            continue
        assert found, prefix
        if kind == "class":
            told = [name if cost is None else f"{name}:{cost}" for name, cost in found.origins]
            assert lines == [" ".join(["prefixes", *found.prefixes, "origins", *told])]
        elif kind == "groups":
            assert program.done("groups", "F", str(found.number), texts={"F": text}).splitlines() == lines
        else:
            rested = program.done("run", "F", str(found.number), "S", texts={"F": text, "S": ROUNDS}).splitlines()
            assert rested == ["rest", *lines]


@pytest.mark.parametrize("folder", FOLDERS, ids=lambda path: path.name)
def test_imported_answers_right(folder: Path, program: Program) -> None:
    compare(program, imported(folder, "decisions", program), folder / "answer")


@pytest.mark.parametrize("folder", FOLDERS, ids=lambda path: path.name)
def test_deletion_answers_wrong(folder: Path, program: Program) -> None:
    compare(program, imported(folder, "deletion", program), folder / "wrong-answer")


@pytest.mark.parametrize("folder", FOLDERS, ids=lambda path: path.name)
def test_a_folder_is_large_and_read_whole(folder: Path, program: Program) -> None:
    lines = sum(len(path.read_bytes().splitlines()) for path in (folder / "configs").iterdir())
    assert lines >= 300
