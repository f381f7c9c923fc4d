"""Faults of the tools, planted one at a time in a copy of the repository, whose tests must see each."""
from __future__ import annotations

import dataclasses
import json
import re
import shutil
import subprocess
import sys
import tempfile
import time
from pathlib import Path

from bonsainet.ask.program import TOP, Program
from hostile.planting.copies import Unfit, planted
from hostile.planting.tool_faults import FAULTS, ToolFault

KEPT = TOP / "hostile" / "measured" / "tools-planted.json"
PAGE = TOP / "hostile" / "README.md"
BEGIN, END = (
    "<!-- tool faults: this table is written by hostile/plant --tools --record -->",
    "<!-- tool faults: end -->",
)
COPIED = (
    "bonsai",
    "build",
    "HANDLES",
    "README.md",
    "CONTRIBUTING.md",
    "VERSION",
    "crates.txt",
    "pyproject.toml",
    "setup.cfg",
)
FOLDERS = ("python", "hostile", "tools", "dev", "docs", "examples", "bench")


@dataclasses.dataclass(frozen=True)
class Seen:
    """Which test saw a fault first (empty: none), and after how many seconds."""

    fault: ToolFault
    test: str
    seconds: float


def tried(fault: ToolFault) -> Seen:
    """Plants a fault, and runs the tests of its part until one fails."""
    begun = time.monotonic()
    with tempfile.TemporaryDirectory(prefix="planted-tools-") as name:
        room = Path(name) / "repository"
        copy_repository(room)
        planted(fault, room / fault.file)
        words = [sys.executable, "-m", "pytest", "-q", "-x", "-p", "no:cacheprovider", *fault.tests]
        ran = subprocess.run(words, cwd=room, capture_output=True, text=True, check=False)
    if ran.returncode not in (0, 1):
        raise Unfit(f"{fault.name}: {(ran.stdout + ran.stderr)[-2000:]}")
    found = re.search(r"^(?:FAILED|ERROR) \S+?::(\w+)", ran.stdout, re.M)
    return Seen(fault, found[1] if found else "", time.monotonic() - begun)


def copy_repository(room: Path) -> None:
    """A copy of the repository, whose crates are those of this one. It asks the same unproved build."""
    room.mkdir()
    for file in COPIED:
        shutil.copy2(TOP / file, room / file)
    for folder in FOLDERS:
        shutil.copytree(TOP / folder, room / folder, ignore=shutil.ignore_patterns("__pycache__", "out"), symlinks=True)
    (room / "crates").symlink_to(TOP / "crates")


def plant(names: list[str], is_kept: bool) -> int:
    """Tries the faults, and tells which were seen. Status 0 where all were."""
    missed = failed = 0
    # (so that no copy has to build)
    _ = Program().path
    for fault in [fault for fault in FAULTS if not names or fault.name in names]:
        try:
            seen = tried(fault)
        except Unfit as why:
            failed += 1
            print(f"hostile/plant: {why}", file=sys.stderr)
            continue
        missed += not seen.test
        print(row(fault, seen.test, seen.seconds), flush=True)
        if is_kept:
            keep(seen)
    return 1 if missed or failed else 0


def row(fault: ToolFault, test: str, seconds: float) -> str:
    """A line of the table."""
    return f"| {fault.layer} | {fault.means} | {f'`{test}`' if test else '**not seen**'} | {seconds:.0f} |"


def keep(seen: Seen, file: Path = KEPT, page: Path = PAGE) -> None:
    """Keeps one more outcome, and writes the table."""
    found = json.loads(file.read_text("utf-8")) if file.is_file() else {}
    found[seen.fault.name] = {"test": seen.test, "seconds": round(seen.seconds, 1)}
    file.write_text(json.dumps(dict(sorted(found.items())), indent=1) + "\n", "utf-8")
    head, _, rest = page.read_text("utf-8").partition(BEGIN)
    page.write_text(f"{head}{BEGIN}\n{table(found)}\n{END}{rest.partition(END)[2]}", "utf-8")


def table(found: dict[str, dict[str, object]]) -> str:
    """The table, in the order of the faults, with a line that counts."""
    rows = ["| part | fault | seen by | seconds |", "|---|---|---|---:|"]
    faults = [fault for fault in FAULTS if fault.name in found]
    kept = [(fault, str(found[fault.name]["test"]), float(str(found[fault.name]["seconds"]))) for fault in faults]
    rows += [row(*one) for one in kept]
    return "\n".join([*rows, "", f"Seen: {sum(bool(test) for _, test, _ in kept)} of {len(faults)}."])
