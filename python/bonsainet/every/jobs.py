"""The jobs of a plan: each asks bonsai-all for a range of classes, here, or by GNU parallel on other machines."""
from __future__ import annotations

import contextlib
import fcntl
import os
import shlex
import shutil
import signal
import subprocess
import tempfile
import time
from collections.abc import Callable
from dataclasses import dataclass
from pathlib import Path
from typing import IO

from bonsainet.ask.running import of_this_thread
from bonsainet.ask.shares import LONGEST_RANGE, processors, ranges, side_by_side
from bonsainet.ask.where import sum_of
from bonsainet.cli.command_line import Refused, not_written
from bonsainet.cli.progress import progress
from bonsainet.cli.streams import ending_with_this
from bonsainet.every.answers import Answers, tidy
from bonsainet.every.plan import JOB, LOCK, LOG, PROGRAM, TEXT, THEN, Plan, put

ENDING = 10.0
# (what stands behind --then may take long, so that few answers wait for one; how many machines there are, parallel knows)
RANGES_EACH = 8
NO_MEMORY = b"out of memory"
PIPE_BYTES = 1 << 20
# A job that hands each answer to the command behind --then, and writes frames, as bonsai-all does.
SCRIPT = """\
./{program} {text} {command} "$1" "$2" | while read -r _ number status length; do
    small=class-$number.small made=class-$number.made
    head -c "$length" > "$small"
    if [ "$status" = 0 ]; then
        CLASS=$number sh ./{then} < "$small" > "$made" 2> "$made.err"
        status=$?
        [ "$status" = 0 ] || mv "$made.err" "$made"
    else
        mv "$small" "$made"
    fi
    printf 'class %s %s %s\\n' "$number" "$status" "$(($(wc -c < "$made")))"
    cat "$made"
    rm -f "$small" "$made" "$made.err"
done
"""

Range = tuple[int, int]


@dataclass(frozen=True)
class Where:
    """On which machines, how many at a time, and whether progress is shown."""

    machines: str | None = None
    ssh: str | None = None
    jobs: str | None = None
    has_bar: bool = False

    @property
    def count(self) -> int:
        """How many jobs are at work at once, as far as that is known here."""
        return int(self.jobs) if self.jobs and self.jobs.isdigit() and int(self.jobs) else processors()

    def must_fit(self) -> None:
        """Refused where other machines are named and GNU parallel is not there, or what only it takes is given without
        them."""
        if self.machines and not shutil.which("parallel"):
            raise Refused("the program parallel is not there: install the package parallel")
        if not self.machines and self.jobs and not (self.jobs.isascii() and self.jobs.isdigit() and int(self.jobs)):
            raise Refused(f"--jobs {self.jobs}: without --machines it is a number from 1 on")


class Lock:
    """The lock of a folder, which its jobs hold too: so no other run, and no job of one that was killed, is at work there."""

    def __init__(self, folder: Path) -> None:
        self.folder = folder
        self.file = -1

    def __enter__(self) -> Lock:
        if not self._take():
            raise Refused(f"{self.folder}: another run, or the last jobs of one, is at work there")
        return self

    def __exit__(self, *_: object) -> None:
        os.close(self.file)

    def wait_for_jobs(self) -> None:
        """Waits for the jobs that were told to end."""
        os.close(self.file)
        until = time.monotonic() + ENDING
        while not self._take() and time.monotonic() < until:
            os.close(self.file)
            time.sleep(0.05)

    def _take(self) -> bool:
        try:
            self.file = os.open(self.folder / LOCK, os.O_RDWR | os.O_CREAT, 0o644)
            fcntl.flock(self.file, fcntl.LOCK_EX | fcntl.LOCK_NB)
        except BlockingIOError:
            return False
        except OSError as fault:
            raise not_written(self.folder, fault) from None
        return True


def run(folder: Path, made: Plan, executable: Path, where: Where, lock: Lock) -> int:
    """Runs the jobs that are not done yet and gives the number of the classes without an answer.

    Where a job ends before its last class, the class at which it ended has failed, and those behind it are asked again.
    """
    _put_program(folder, made, executable)
    put(folder / THEN, made.then.encode())
    put(folder / JOB, SCRIPT.format(program=PROGRAM, text=TEXT, command=made.command, then=THEN).encode())
    answers = Answers(folder, made)
    tidy(folder)
    try:
        with progress("classes", made.classes) as advance:
            advance(len(answers.done))
            _rounds(answers, where, lock, advance)
    finally:
        tidy(folder)
    return made.classes - len(answers.done)


def _rounds(answers: Answers, where: Where, lock: Lock, advance: Callable[[int], None]) -> None:
    """Runs jobs until no class is left, or twice nothing is answered."""
    empty = 0
    while answers.left and empty < 2:
        before = len(answers.done)
        each = RANGES_EACH if answers.made.then or where.machines else 1
        # (here answers are taken as they come, so a job may answer for its whole share, and reads the text once. Where a job
        # has ended early, and where nobody knows here how many machines there are, shares are short)
        longest = LONGEST_RANGE if where.machines or answers.failed else len(answers.left)
        parts = ranges(answers.left, where.count * each, longest)
        if where.machines:
            _elsewhere(answers, parts, where, lock)
        else:
            _here(answers, parts, where.count, lock, advance)
        has_room = all(_ran_out_of_memory(answers, number) for number in answers.failed)
        empty = 0 if len(answers.done) > before or has_room else empty + 1


def _ran_out_of_memory(answers: Answers, number: int) -> bool:
    told = Path(f"{answers.place(number)}.err")
    return told.exists() and NO_MEMORY in told.read_bytes()


def _put_program(folder: Path, made: Plan, executable: Path) -> None:
    """Copies the program into the folder, where it is not there as the plan names it."""
    copied = folder / PROGRAM
    if copied.is_file() and os.access(copied, os.X_OK) and sum_of(copied) == made.program:
        return
    put(copied, executable.read_bytes(), 0o755)


def _job(made: Plan) -> list[str]:
    """The words of a job, before the numbers of its first and its last class."""
    return ["sh", f"./{JOB}"] if made.then else [f"./{PROGRAM}", TEXT, made.command]


def _here(answers: Answers, parts: list[Range], jobs: int, lock: Lock, advance: Callable[[int], None]) -> None:
    """Runs jobs here, and takes what they write as they write it."""

    def work(part: Range) -> None:
        first, last = part
        told = answers.folder / f"class-{first}-{last}.part.err"
        running = of_this_thread()
        with open(told, "wb") as err, subprocess.Popen(
            [*_job(answers.made), str(first), str(last)],
            cwd=answers.folder,
            stdin=subprocess.DEVNULL,
            stdout=subprocess.PIPE,
            stderr=err,
            pass_fds=[lock.file],
            process_group=0,
        ) as job:
            assert job.stdout
            _widen(job.stdout)
            try:
                with running.holding(lambda: _end(job)):
                    fault = answers.take_all(job.stdout, first, last, advance)
            except BaseException:
                _end(job)
                raise
            if fault:
                _end(job)
        if not running.is_over:
            status = f"the job ended with status {job.returncode}\n"
            answers.end(first, last, f"{fault}\n".encode() if fault else told.read_bytes() or status.encode())

    try:
        for _ in side_by_side(work, parts, jobs):
            pass
    except BaseException:
        lock.wait_for_jobs()
        raise


def _widen(pipe: IO[bytes]) -> None:
    """Lets a job go on with its next answers while one is put in its place. Where the system gives no more, the pipe stays as it is."""
    with contextlib.suppress(OSError):
        fcntl.fcntl(pipe, fcntl.F_SETPIPE_SZ, PIPE_BYTES)


def _end(job: subprocess.Popen[bytes]) -> None:
    """Ends a job with all that it has started."""
    if job.poll() is None:
        os.killpg(job.pid, signal.SIGKILL)


def _elsewhere(answers: Answers, parts: list[Range], where: Where, lock: Lock) -> None:
    """Runs jobs by GNU parallel, on other machines in a folder of the name that one made here has, so that the machine
    `:` finds its copies too."""
    folder = answers.folder
    with tempfile.TemporaryDirectory(prefix="bonsai-every-") as room:
        for name in (PROGRAM, TEXT, THEN, JOB):
            shutil.copy(folder / name, room)
        try:
            status = _parallel(folder, _words(answers.made, where, room), parts, lock)
            if status in (-signal.SIGINT, 128 + signal.SIGINT):
                raise KeyboardInterrupt
        finally:
            for first, last in parts:
                _take(answers, folder / f"class-{first}-{last}.part", first, last)


def _take(answers: Answers, part: Path, first: int, last: int) -> None:
    """Takes the frames that a job wrote to a file, which goes. Nothing is said of a job that did not begin."""
    if not part.exists():
        return
    with open(part, "rb") as file:
        fault = answers.take_all(file, first, last, lambda more: None)
    told = Path(f"{part}.err")
    answers.end(first, last, f"{fault}\n".encode() if fault else told.read_bytes() if told.exists() else b"")
    tidy(answers.folder, f"{part.name}*")


def _words(made: Plan, where: Where, room: str) -> list[str]:
    words = ["parallel", "--will-cite", "--joblog", f"+{LOG}", "--colsep", " ", "--results", "class-{1}-{2}.part"]
    words += ["--halt", "never", "--tagstring", "classes {1} to {2}"]
    if where.jobs:
        words += ["--jobs", where.jobs]
    if where.has_bar:
        words.append("--bar")
    files = [word for name in (PROGRAM, TEXT, THEN, JOB) for word in ("--basefile", f"./{name}")]
    words += ["--sshlogin", str(where.machines), *files, "--workdir", room, "--cleanup"]
    if where.ssh:
        words += ["--ssh", where.ssh]
    return [*words, f"{shlex.join(_job(made))} {{1}} {{2}}"]


def _parallel(folder: Path, words: list[str], parts: list[Range], lock: Lock) -> int:
    """Runs parallel in the folder, with a home of its own. Its answers go to files, so its own output is dropped. It ends where this process does."""
    with tempfile.TemporaryDirectory(prefix="bonsai-parallel-") as home:
        own = {"PARALLEL_HOME": os.environ.get("PARALLEL_HOME", home), "PARALLEL_SHELL": "/bin/sh"}
        environment = {name: value for name, value in os.environ.items() if name != "PARALLEL"} | own
        started = subprocess.Popen(
            [*ending_with_this(), *words],
            cwd=folder,
            stdin=subprocess.PIPE,
            stdout=subprocess.DEVNULL,
            text=True,
            env=environment,
            pass_fds=[lock.file],
        )
        try:
            started.communicate("".join(f"{first} {last}\n" for first, last in parts))
        except BaseException:
            # (at the first signal parallel begins no job, at the second it ends those that run)
            started.send_signal(signal.SIGTERM)
            started.send_signal(signal.SIGTERM)
            started.wait()
            lock.wait_for_jobs()
            raise
        return started.returncode
