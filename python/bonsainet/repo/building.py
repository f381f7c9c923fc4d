"""`./build`: proves the programs with the crates below them, installs them, and packages them.

The proofs are those of `rt ci`, over a copy of the crates below the programs, without their must-fail edits. `--gate` runs it over the
repository as it stands, with all crates and edits, and keeps the programs of that run. `rt` keeps what it proved beside the kit, by the
checksums of all that a proof reads, so an interrupted run goes on with the crates that are left.
"""
from __future__ import annotations

import argparse
import contextlib
import dataclasses
import fcntl
import hashlib
import json
import os
import shutil
import sys
import tempfile
import time
from collections.abc import Callable, Iterable, Iterator
from pathlib import Path

from bonsainet.cli import command_line
from bonsainet.repo import packing
from bonsainet.cli.command_line import Refused
from bonsainet.ask.program import TOP
from bonsainet.repo.proof_run import Ran, run_ci
from bonsainet.repo.proving import closure, lines_of_failure, uses_of

PROGRAMS = ("bonsai", "bonsai_ask", "bonsai_all")
LOG = TOP / "out" / "build.log"
FIGURES = LOG.with_name("gate-times.json")
LEFT_OUT = ("out", "must-fail")
ROOM = "bonsai-build-"
LEFT_AFTER = 60.0
# (the clock of files can be behind by a tick)
TICK = 0.02


def kit_folder() -> Path:
    """The folder of the Rattle kit whose `rt` is on the path."""
    found = shutil.which("rt")
    if not found:
        raise Refused("the command rt of the Rattle kit is not on the path")
    return Path(found).resolve().parent.parent


def files_of(crates: Iterable[str], top: Path) -> list[Path]:
    """The files of crates that their proofs read, by their places below the top."""
    files = []
    for crate in sorted(crates):
        for folder, below, names in os.walk(top / "crates" / crate):
            below[:] = sorted(it for it in below if it not in LEFT_OUT)
            files += [Path(folder, name).relative_to(top) for name in sorted(names)]
    return files


@dataclasses.dataclass(frozen=True)
class Made:
    """What stands beside a proved program: checksums of all that its proof read and of the program, the kit, and how many files were read."""

    sources: str
    program: str
    kit: str
    files: int

    def write(self, place: Path) -> None:
        """Writes it beside the program."""
        place.write_text(f"{self.sources}\n{self.program}\n{self.kit}\n{self.files}\n", "utf-8")


def copy_crates(crates: list[str], listed: str, handles: bytes, room: Path) -> None:
    """Copies the crates to a repository of their own."""
    (room / ".git").mkdir(parents=True)
    (room / "HANDLES").write_bytes(handles)
    lines = listed.splitlines(keepends=True)
    named = [line for line in lines if (line.partition("#")[0].partition(":")[0].split() or [""])[0] in crates]
    (room / "crates.txt").write_text("".join(named), "utf-8")
    for crate in crates:
        shutil.copytree(TOP / "crates" / crate, room / "crates" / crate, ignore=shutil.ignore_patterns(*LEFT_OUT))


@contextlib.contextmanager
def own_room() -> Iterator[Path]:
    """A folder for one run, which goes with it, or with the next run where it was killed."""
    for left in Path(tempfile.gettempdir()).glob(f"{ROOM}*"):
        if is_left(left):
            shutil.rmtree(left, ignore_errors=True)
    with tempfile.TemporaryDirectory(prefix=ROOM) as folder:
        held = os.open(folder, os.O_RDONLY)
        try:
            fcntl.flock(held, fcntl.LOCK_EX)
            yield Path(folder).resolve()
        finally:
            os.close(held)


def is_left(folder: Path) -> bool:
    """Whether a folder is of this user, and of a run that has ended without removing it."""
    try:
        found = folder.lstat()
        if found.st_uid != os.geteuid() or time.time() - found.st_mtime < LEFT_AFTER:
            return False
        held = os.open(folder, os.O_RDONLY | os.O_NOFOLLOW | os.O_DIRECTORY)
    except OSError:
        return False
    try:
        fcntl.flock(held, fcntl.LOCK_EX | fcntl.LOCK_NB)
        return True
    except OSError:
        return False
    finally:
        os.close(held)


def proved_in(
    room: Path, crates: Iterable[str], is_gate: bool, pass_on: Callable[[str], None] = lambda line: None
) -> Ran:
    """Runs `rt ci` in a folder of these crates, with its words in the log, and refuses where it does not pass, or does not tell of each crate that it is proved."""
    start, wanted = time.monotonic(), set(crates)
    LOG.parent.mkdir(exist_ok=True)
    with open(LOG, "w", encoding="utf-8") as log:

        def take(line: str) -> None:
            log.write(line.replace(str(room), str(TOP)))
            log.flush()
            pass_on(line)

        ran = run_ci(room, len(wanted), take, is_whole=is_gate)
    FIGURES.write_text(json.dumps(ran.figures()), "utf-8")
    if ran.status:
        output = LOG.read_text("utf-8").splitlines()
        name = ran.told.failed[0] if ran.told.failed else ""
        raise Refused(
            f"{name or 'the run of rt'}: not proved, after {minutes_since(start)}; the log is {LOG}",
            lines_of_failure(output, name),
        )
    proved = wanted & set(ran.told.proved)
    print(f"build: {len(proved)} of {len(wanted)} crates proved, after {minutes_since(start)}", file=sys.stderr)
    if proved != wanted:
        raise Refused(f"{min(wanted - proved)}: rt ended well, and did not tell that it is proved; the log is {LOG}")
    return ran


def minutes_since(start: float) -> str:
    """How long it is since then, in words."""
    seconds = int(time.monotonic() - start)
    return f"{seconds} seconds" if seconds < 120 else f"{seconds // 60} minutes"


@contextlib.contextmanager
def only_run() -> Iterator[None]:
    """Waits until no other run builds here."""
    LOG.parent.mkdir(exist_ok=True)
    with open(LOG.with_name("build.lock"), "w", encoding="utf-8") as lock:
        try:
            fcntl.flock(lock, fcntl.LOCK_EX | fcntl.LOCK_NB)
        except BlockingIOError:
            print("build: waiting for another run that builds here", file=sys.stderr)
            fcntl.flock(lock, fcntl.LOCK_EX)
        yield


class Sources:
    """The sources of the programs as they stand: when they were read, and the checksums of what the proof of each program reads."""

    def __init__(self) -> None:
        self.kit = kit_folder()
        self.begun = time.time() - TICK
        self.listed = (TOP / "crates.txt").read_text("utf-8")
        self.handles = (TOP / "HANDLES").read_bytes()
        self.uses = uses_of(self.listed)
        self.programs = [name for name in PROGRAMS if name in self.uses]
        self.crates = [
            name for name in self.uses if any(name in closure(self.uses, program) for program in self.programs)
        ]
        self.sums = self.sums_of(TOP)

    def sums_of(self, top: Path) -> dict[str, tuple[str, int]]:
        """Of each program the checksum of all that its proof reads of the crates below the top, and how many files that are."""
        return {program: self._sum_of(program, top) for program in self.programs}

    def _sum_of(self, program: str, top: Path) -> tuple[str, int]:
        made = hashlib.sha256((self.kit / "WHAT").read_bytes() + (self.kit / "KIT-ID").read_bytes())
        files = files_of(closure(self.uses, program), top)
        read = {"crates.txt": self.listed.encode(), "HANDLES": self.handles}
        for name, data in (*read.items(), *((str(file), (top / file).read_bytes()) for file in files)):
            made.update(f"{name} {len(data)}\n".encode() + data)
        return made.hexdigest(), len(read) + len(files)

    def are_made(self) -> bool:
        """Whether the programs that are kept are the proved ones of these sources."""
        return all(self._is_made(program) for program in self.programs)

    def _is_made(self, program: str) -> bool:
        place = place_of(program)
        if not place.is_file() or not made_of(place).is_file():
            return False
        return made_of(place).read_text("utf-8").splitlines()[:2] == [self.sums[program][0], packing.sum_of(place)]

    def are_unchanged(self) -> bool:
        """Whether the sources are those that were read, and none was written since, be it with what it had."""
        files = [TOP / "crates.txt", TOP / "HANDLES", *(TOP / file for file in files_of(self.crates, TOP))]
        is_old = all(max(found.st_mtime, found.st_ctime) < self.begun for found in map(os.stat, files))
        is_listed = (TOP / "crates.txt").read_text("utf-8") == self.listed and (
            TOP / "HANDLES"
        ).read_bytes() == self.handles
        return is_old and is_listed and self.sums_of(TOP) == self.sums

    def keep(self, folder: Path) -> None:
        """Keeps the programs that a run has proved in a folder. Refused, with none left, where a source changed meanwhile."""
        new = {program: self._beside(program, folder) for program in self.programs}
        for program in self.programs:
            made_of(place_of(program)).unlink(missing_ok=True)
            os.replace(new[program], place_of(program))
        if not self.are_unchanged():
            for program in self.programs:
                place_of(program).unlink()
            raise Refused("sources changed while they were proved; run it again")
        self.tell_made("is proved")

    def _beside(self, program: str, folder: Path) -> Path:
        """A copy of a program beside its place."""
        place = place_of(program)
        place.parent.mkdir(exist_ok=True)
        new = place.with_name(f"{program}.new")
        shutil.copyfile(place_of(program, folder), new)
        new.chmod(0o755)
        return new

    def tell_made(self, told: str) -> None:
        """Says beside each program of what it was made. Its time is that of when the sources were read, so that one that is written later is newer."""
        kit = (self.kit / "KIT-ID").read_text("utf-8").strip()
        for program in self.programs:
            place, (digest, count) = place_of(program), self.sums[program]
            os.utime(place, (self.begun, self.begun))
            Made(digest, packing.sum_of(place), kit, count).write(made_of(place))
            print(f"build: {place.relative_to(TOP)} {told}", file=sys.stderr)


def place_of(program: str, top: Path = TOP) -> Path:
    """Where `rt` leaves a program, and where it is kept."""
    return top / "crates" / program / "out" / program


def made_of(program: Path) -> Path:
    """What stands beside a program and says of what it was made."""
    return program.with_name(f"{program.name}.made")


def build() -> None:
    """Makes the proved programs, if they are not there for these sources."""
    sources = Sources()
    if sources.are_made():
        # (a checkout can write the same sources anew)
        sources.tell_made("is proved already")
        return
    print(
        f"build: proving {len(sources.crates)} crates; those that rt has proved on this machine as they stand count as proved",
        file=sys.stderr,
    )
    with own_room() as folder:
        room = folder / "repository"
        copy_crates(sources.crates, sources.listed, sources.handles, room)
        if sources.sums_of(room) != sources.sums:
            raise Refused("sources changed while they were copied; run it again")
        proved_in(room, sources.crates, is_gate=False)
        sources.keep(room)


def gate(pass_on: Callable[[str], None]) -> Ran:
    """Runs the gate, and keeps the programs that it proved, where all of it passes. Each line of rt is passed on."""
    with only_run():
        sources = Sources()
        ran = proved_in(TOP, sources.uses, True, pass_on)
        # (rt ci moves what stood there away before it begins, so the programs are its own)
        sources.keep(TOP)
    return ran


def aloud(line: str) -> None:
    """Writes a line of rt to standard output."""
    print(line, end="", flush=True)


def main(words: list[str] | None = None) -> None:
    """The command line of ./build."""
    given = command_line.parser("build", (__doc__ or "").partition("\n")[0])
    given.add_argument(
        "--gate",
        action="store_true",
        help="run the whole gate, `rt ci`, with its words on standard output, and keep the program that it proved",
    )
    given.add_argument(
        "--install",
        nargs="?",
        const="/usr/local",
        metavar="PREFIX",
        help="then install program, manual page and completions (default: /usr/local)",
    )
    given.add_argument(
        "--deb",
        nargs="?",
        const="out",
        metavar="FOLDER",
        help="then make a Debian package in the folder (default: out)",
    )
    given.epilog = "Exit status: 0 done; 1 not proved, or no kit; 2 the words are wrong; 3 a file could not be read or written; 130 interrupted."
    asked = given.parse_args(words)
    carry_out(asked)


def carry_out(asked: argparse.Namespace) -> None:
    """Builds, installs and packages as the words ask."""
    if asked.gate:
        gate(aloud)
    else:
        with only_run():
            build()
    programs = [place_of(program) for program in PROGRAMS if place_of(program).is_file()]
    parts = packing.Parts(
        TOP, programs, packing.version_of(TOP), made_of(programs[0]).read_text("utf-8").splitlines()[2]
    )
    if asked.install is not None:
        python = f"python{sys.version_info.major}.{sys.version_info.minor}"
        for path in packing.install(parts, Path(asked.install), python):
            print(f"build: installed {path}", file=sys.stderr)
    if asked.deb is not None:
        print(f"build: made {packing.make_deb(parts, Path(asked.deb))}", file=sys.stderr)
