"""Tools as a person runs them, with streams closed, on a disk that is full, killed at any moment, and resumed."""
from __future__ import annotations

import functools
import os
import random
import shutil
import signal
import subprocess
import time
from collections.abc import Iterator
from pathlib import Path

from bonsainet.ask.program import TOP, Program
from bonsainet.ask.where import without_notices
from bonsainet.cli.streams import ending_with_this
from bonsainet.nets.fat_tree import fat_tree_text
from hostile.makers import networks

SIGNALS = (signal.SIGTERM, signal.SIGHUP, signal.SIGINT, signal.SIGKILL)
# (seconds: many more than a slow machine takes)
LATEST = 600
# The words of each tool: TEXT is an accepted text, FOLDER a folder of configurations, MADE what is made.
WRITERS = {
    "bonsai-page": "TEXT -o MADE",
    "bonsai-draw": "TEXT 1 -f dot -o MADE",
    "bonsai-export": "--to frr TEXT MADE",
    "bonsai-import": "FOLDER --report MADE",
}
READERS = {
    "bonsai-json": "TEXT --compact",
    "bonsai-doubts": "TEXT",
    "bonsai-refusals": "TEXT",
    "bonsai-draw": "TEXT 1 -f dot",
    "bonsai-import": "FOLDER",
    "bonsai-diff": "TEXT TEXT",
}


def text_by_chance(chance: random.Random, program: Program) -> bytes:
    """A text that the program accepts, with a class."""
    while True:
        raw = networks.text(chance).encode()
        answer = program.ask("classes", "F", texts={"F": raw})
        if answer.status == 0 and answer.out:
            return raw


class Run:
    """A tool in a folder of its own."""

    def __init__(self, name: str, words: str, room: Path, made: Path) -> None:
        named = {"TEXT": str(room / "text.cfg"), "FOLDER": str(room / "folder"), "MADE": str(made)}
        self.words = [str(TOP / "tools" / name), *(named.get(word, word) for word in words.split())]
        self.room = room

    def whole(self, closing: str = "") -> tuple[int, bytes, bytes]:
        """The tool run to its end, with streams closed as the shell closes them."""
        with open(self.room / "out", "wb") as out, open(self.room / "err", "wb") as err:
            command = ["/bin/sh", "-c", f'exec "$@" {closing}', "sh", *self.words]
            ran = subprocess.run(
                command, stdin=subprocess.DEVNULL, stdout=out, stderr=err, check=False, timeout=LATEST, cwd=self.room
            )
        return ran.returncode, (self.room / "out").read_bytes(), without_notices((self.room / "err").read_bytes())

    def killed(self, number: signal.Signals, after: float) -> int:
        """The tool with a signal after some seconds."""
        words = [*ending_with_this(), *self.words]
        nothing = subprocess.DEVNULL
        with subprocess.Popen(words, stdin=nothing, stdout=nothing, stderr=nothing, cwd=self.room) as started:
            time.sleep(after)
            started.send_signal(number)
            return started.wait(LATEST)


def prepared(chance: random.Random, room: Path, program: Program) -> None:
    """What tools read."""
    (room / "text.cfg").write_bytes(text_by_chance(chance, program))
    shutil.copytree(chance.choice(sorted((TOP / "examples/folders").glob("*/configs"))), room / "folder")


def content(place: Path) -> object:
    """What stands at a place: the bytes of a file, or those of each file of a folder. None where nothing does, or an empty folder."""
    if place.is_dir():
        return {str(path.relative_to(place)): path.read_bytes() for path in place.rglob("*") if path.is_file()} or None
    return place.read_bytes() if place.exists() else None


def closed(chance: random.Random, room: Path, program: Program) -> list[str]:
    """Closed streams: what is read and written otherwise is the same, or the tool fails."""
    prepared(chance, room, program)
    name = chance.choice(sorted(READERS))
    run = Run(name, READERS[name], room, room / "made")
    plain, closing = run.whole(), [word for word in ("<&-", ">&-", "2>&-") if chance.random() < 0.6]
    status, out, err = run.whole(" ".join(closing))
    wanted = plain[0] if ">&-" not in closing or not plain[1] else 4
    faults = []
    if status != wanted:
        faults.append(f"{name} {' '.join(closing)}: status {status}, and not {wanted}")
    if out != (b"" if ">&-" in closing else plain[1]):
        faults.append(f"{name} {' '.join(closing)}: another output")
    if "2>&-" in closing and err:
        faults.append(f"{name} {' '.join(closing)}: {err!r} on standard error, which is closed")
    return faults


def full(chance: random.Random, room: Path, program: Program) -> list[str]:
    """A disk that may be too small: what is made is whole, or nothing is."""
    prepared(chance, room, program)
    name = chance.choice(sorted(WRITERS))
    plain = Run(name, WRITERS[name], room, room / "plain")
    status, wanted = plain.whole()[0], content(room / "plain")
    disk = room / "disk"
    disk.mkdir()
    size = chance.choice((4, 8, 16, 32, 64, 256))
    mount = ["mount", "-t", "tmpfs", "-o", f"size={size}k", "none", str(disk)]
    if subprocess.run(mount, capture_output=True, check=False).returncode:
        return []
    try:
        ran = Run(name, WRITERS[name], room, disk / "made").whole()
        found, left = content(disk / "made"), sorted(path.name for path in disk.iterdir())
    finally:
        subprocess.run(["umount", "-l", disk], check=False)
    if found == wanted and ran[0] == status:
        return [] if left == ["made"] else [f"{name}: left {left}"]
    if found is None and ran[0] == 4 and left in ([], ["made"]):
        return []
    return [
        f"{name} on a disk of {size} KiB: status {ran[0]}, {'nothing' if found is None else 'a part'} is there, {left}: {ran[2]!r}"
    ]


def killed(chance: random.Random, room: Path, program: Program) -> list[str]:
    """A tool that is killed at any moment: what is made is whole, or nothing is, and what was there before stays."""
    prepared(chance, room, program)
    name = chance.choice(sorted(WRITERS))
    begun = time.monotonic()
    Run(name, WRITERS[name], room, room / "plain").whole()
    took, wanted = time.monotonic() - begun, content(room / "plain")
    if name != "bonsai-export" and chance.random() < 0.5:
        (room / "made").write_bytes(b"before")
    before, number = content(room / "made"), chance.choice(SIGNALS)
    Run(name, WRITERS[name], room, room / "made").killed(number, chance.random() * took * 1.2)
    found = content(room / "made")
    parts = [path.name for path in room.iterdir() if "part" in path.name]
    if found not in (before, wanted):
        return [f"{name}: a part is there after {number.name}"]
    return [f"{name}: left {parts} after {number.name}"] if parts and number != signal.SIGKILL else []


@functools.cache
def _tree() -> tuple[bytes, dict[int, bytes]]:
    """A fat tree, and what the program writes of each of its classes."""
    raw, program = fat_tree_text(6).encode(), Program()
    numbers = [found.number for found in program.classes(raw)]
    return raw, {number: program.compress(raw, number).encode() for number in numbers}


def resumed(chance: random.Random, room: Path, _program: Program) -> list[str]:
    """bonsai-every killed at any moment, harmed, and resumed until it is done: each answer that is there is whole, and in the end all are."""
    raw, wanted = _tree()
    (room / "text.cfg").write_bytes(raw)
    folder = room / "all"
    words = "TEXT MADE --jobs 2"
    faults: list[str] = []
    for turn in range(chance.randint(1, 3)):
        again = " --resume" if turn else ""
        Run("bonsai-every", words + again, room, folder).killed(chance.choice(SIGNALS), chance.random() * 4)
        faults += _halves(folder, wanted)
        if chance.random() < 0.3:
            _harm(chance, folder)
    for _ in range(20):
        status, _, err = Run("bonsai-every", f"{words} --resume", room, folder).whole()
        if b"is at work there" not in err:
            break
        time.sleep(0.5)
    found = {int(path.stem.split("-")[1]) for path in folder.glob("class-*.cfg")}
    if status or found != set(wanted):
        faults.append(f"bonsai-every: status {status}, {len(found)} of {len(wanted)} are there at the end: {err!r}")
    return [*faults, *_halves(folder, wanted)]


def _halves(folder: Path, wanted: dict[int, bytes]) -> Iterator[str]:
    for path in sorted(folder.glob("class-*.cfg")):
        if path.read_bytes() != wanted[int(path.stem.split("-")[1])]:
            yield f"bonsai-every: {path.name} is not what the program writes"


def _harm(chance: random.Random, folder: Path) -> None:
    """Removes an answer or a log, or cuts a log, as a crash of the machine can."""
    places = [path for path in folder.glob("*") if path.suffix in (".cfg", ".log", ".tsv") and path.name != "input.cfg"]
    if places:
        place = chance.choice(sorted(places))
        if chance.random() < 0.5:
            place.unlink()
        elif place.suffix != ".cfg":
            os.truncate(place, place.stat().st_size // 2)
