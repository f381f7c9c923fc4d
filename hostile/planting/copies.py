"""Copies of the program, built without proofs, and of the second reader, each with a fault planted."""
from __future__ import annotations

import contextlib
import importlib.machinery
import importlib.util
import shutil
import tempfile
from collections.abc import Iterator, Mapping, Sequence
from pathlib import Path
from types import ModuleType

from hostile.planting.fault import Fault
from bonsainet.ask.program import TOP


class Unfit(Exception):
    """A fault that cannot be planted: its right piece stands not once in the file, or the copy is not built."""


def planted(fault: Fault, source: Path) -> None:
    """Puts the wrong piece in the place of the right one."""
    text = source.read_text()
    if text.count(fault.right) != 1:
        raise Unfit(f"{fault.name}: the piece stands {text.count(fault.right)} times in {fault.file}")
    source.write_text(text.replace(fault.right, fault.wrong))


CLANG = '#!/bin/sh\nfor word do\n    shift\n    case $word in -O0) word=-O1 ;; -fsanitize=*) continue ;; esac\n    set -- "$@" "$word"\ndone\nexec %s/clang "$@"\n'
LINKER = '#!/bin/sh\nfor word do\n    shift\n    case $word in */asan.a) continue ;; esac\n    set -- "$@" "$word"\ndone\n%s/ld.lld "$@" || exit\n[ ! -f program ] || cp program %s\n'
"""In the place of the launcher's: without the checks of memory, by which an answer takes six times as long, and which
have an allocator of their own."""


def launcher_of(folder: Path) -> ModuleType:
    """The launcher of a copy of the sources, which builds without checks of memory."""
    loader = importlib.machinery.SourceFileLoader("launcher_of_a_copy", str(folder / "bonsai"))
    spec = importlib.util.spec_from_loader(loader.name, loader)
    assert spec is not None, "a loader of a file gives one"
    made = importlib.util.module_from_spec(spec)
    loader.exec_module(made)
    vars(made).update(CLANG=CLANG, LINKER=LINKER)
    return made


def program(fault: Fault | None, folder: Path, called: str = "bonsai") -> Path:
    """The program of a name with a fault of its sources, or without one, kept in a folder and built where it is not
    there."""
    name = fault.name if fault else "as-it-is" if called == "bonsai" else f"{called}-as-it-is"
    return program_with([fault] if fault else [], folder.resolve() / name, called)


def program_with(faults: Sequence[Fault], kept: Path, called: str) -> Path:
    """The program of a name with faults of its sources, built where the file is not there."""
    if not kept.is_file():
        with copied() as room:
            for fault in faults:
                planted(fault, room / "crates" / fault.file)
            build(launcher_of(room), room, kept, called)
    return kept


@contextlib.contextmanager
def copied() -> Iterator[Path]:
    """A folder with a copy of the crates and the launcher, which is gone at the end of the context."""
    with tempfile.TemporaryDirectory(prefix="planted-") as name:
        room = Path(name).resolve()
        shutil.copytree(TOP / "crates", room / "crates", ignore=shutil.ignore_patterns("out", "target"))
        for file in ("bonsai", "crates.txt"):
            shutil.copy2(TOP / file, room / file)
        yield room


def build(launcher: ModuleType, room: Path, kept: Path, called: str, more: Mapping[str, bytes] | None = None) -> None:
    """Builds the program of a name from a copy of the sources, and files besides by their names. Unfit where it is not
    built."""
    if not launcher.kit():
        raise Unfit("the command rt of the Rattle kit is not on the path")
    kept.parent.mkdir(parents=True, exist_ok=True)
    try:
        asked = launcher.Program(called)
        code = {**launcher.code_of(asked), **(more or {})}
        kept.write_bytes(launcher.built(asked, launcher.kit(), code, str(room / "build")))
        kept.chmod(0o755)
    except launcher.NoProgram as why:
        raise Unfit(f"{kept.name}: {why}") from why


def reader(fault: Fault, room: Path) -> Path:
    """The script `run` of a copy of this folder, in which the second reader has a fault."""
    leave = shutil.ignore_patterns("__pycache__", "tests", "out")
    for name in ("hostile", "python", "examples"):
        shutil.copytree(TOP / name, room / name, ignore=leave)
    (room / "docs" / "use").mkdir(parents=True)
    shutil.copy2(TOP / "docs" / "use" / "LINES.md", room / "docs" / "use")
    planted(fault, room / "hostile" / "judge" / fault.file)
    return room / "hostile" / "run"
