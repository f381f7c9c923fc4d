"""Runs the cases of `limits.texts` and tells what differs, with time and memory of each."""
from __future__ import annotations

import argparse
import dataclasses
import subprocess
import sys
import tempfile
from pathlib import Path

from hostile.limits.texts import Case, cases, worst
from bonsainet.ask.native import program_file

WATCH = """
import resource, subprocess, sys, time
start, limit = time.monotonic(), int(sys.argv[2]) * 1024
bound = (lambda: resource.setrlimit(resource.RLIMIT_AS, (limit, limit))) if limit else None
status = subprocess.run(sys.argv[3:], preexec_fn=bound).returncode
used = resource.getrusage(resource.RUSAGE_CHILDREN)
with open(sys.argv[1], "w") as file:
    print(status, used.ru_utime + used.ru_stime, time.monotonic() - start, used.ru_maxrss / 1024, file=file)
"""
"""Starts a command from a process that is small, as the most memory of a process counts from before it became another
program."""


@dataclasses.dataclass(frozen=True)
class Measured:
    """A case that ran: what was wrong about its answer (empty: nothing), processor seconds, seconds, and MiB at
    most."""

    case: Case
    wrong: str
    processor: float
    seconds: float
    memory: float


def is_left_out(case: Case) -> bool:
    """Whether a case bounds the address space, of which an unproved build reserves much for its checks."""
    return case.memory is not None and "unproved" in Path(program_file()).name


def measured(case: Case, folder: Path) -> Measured:
    """Runs one case, with its texts and its output in files of a folder."""
    files = {"F": folder / "F", "S": folder / "S"}
    files["F"].write_bytes(case.make())
    files["S"].write_bytes(case.second() if case.second else b"")
    words = [str(files[word]) if word in files else word for word in case.words]
    with (folder / "out").open("wb") as out, (folder / "err").open("wb") as err:
        watch = [sys.executable, "-c", WATCH, str(folder / "used"), str(case.memory or 0)]
        subprocess.run([*watch, program_file(case.program), *words], stdout=out, stderr=err, check=True)
    status, processor, seconds, memory = (folder / "used").read_text().split()
    reason = (folder / "err").read_text().strip()
    written = (folder / "out").read_bytes()
    lines, size = written.count(b"\n"), len(written)
    told = (int(status), reason, lines if case.lines is not None else None, size if case.size is not None else None)
    wrong = (
        ""
        if told == (case.status, case.reason, case.lines, case.size)
        else f"status {status} {reason} {lines} lines {size} bytes"
    )
    return Measured(case, wrong, float(processor), float(seconds), float(memory))


def main(arguments: list[str] | None = None) -> int:
    """`hostile/limits/measure`: a line for each case; status 1 where one has another answer."""
    parser = argparse.ArgumentParser(
        prog="hostile/limits/measure",
        description="Each limit at its value and one beyond, with time and memory; or the worst texts.",
    )
    parser.add_argument(
        "--worst",
        type=int,
        metavar="SCALE",
        help="in place of the limits, texts made against hash tables, of up to 4,000 times SCALE keys, and against diagrams",
    )
    given = parser.parse_args(arguments)
    failed = False
    print("| limit | command | ends with | processor seconds | MiB |\n|---|---|---|---:|---:|")
    with tempfile.TemporaryDirectory() as folder:
        for case in cases() if given.worst is None else worst(given.worst):
            if is_left_out(case):
                print(
                    f"hostile/limits/measure: left out, as the program is an unproved build: {case.name}",
                    file=sys.stderr,
                )
                continue
            one = measured(case, Path(folder))
            failed |= bool(one.wrong)
            end = f"**{one.wrong}**" if one.wrong else case.reason or "done"
            print(f"| {case.name} | `{case.command}` | {end} | {one.processor:.2f} | {one.memory:.0f} |", flush=True)
    return 1 if failed else 0
