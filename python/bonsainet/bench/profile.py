"""bench/profile: the functions in which programs spend their time, for a few commands, as `perf` samples them.

The clock of the processor is sampled while the program runs, many times over where a run is short. What the kernel does
for the program is one row.
"""
from __future__ import annotations

import argparse
import csv
import os
import re
import shlex
import shutil
import subprocess
import tempfile
import time
from collections import Counter
from pathlib import Path

from bonsainet.bench.inputs import READ_BY, ROUNDS, output, second_files
from bonsainet.bench.kept import FOLDER
from bonsainet.bench.shapes import SHAPES
from bonsainet.bench.states import add_named, names_of, program_at, told_of
from bonsainet.bench.turns import OF_CLASS, OF_TEXT
from bonsainet.cli.command_line import Refused, parser

KEPT = FOLDER / "profile.csv"
CASES = (("summary", "ospf-loopbacks", 1024), ("certify", "ospf-ring", 4096), ("classes", "bgp-leaf-spine", 4096))
PER_SECOND = 4999
SECONDS = 4.0
SHOWN = 8
KERNEL = "(the kernel)"
COLUMNS = ("command", "shape", "size", "symbol", "before", "after")
COMMANDS = (*OF_TEXT, *OF_CLASS, *READ_BY)
Shares = dict[str, float]
Case = tuple[str, str, int]


def words() -> argparse.ArgumentParser:
    """The words of the command line."""
    cases = ", ".join(f"{command} {shape} {size}" for command, shape, size in CASES)
    made = parser("profile", "Samples two programs with perf, and prints the functions that take most of the time.")
    made.add_argument("programs", nargs=2, type=Path, metavar="PROGRAM", help="the state before, and the state after")
    made.add_argument(
        "--case", nargs=3, action="append", metavar=("COMMAND", "SHAPE", "SIZE"), help=f"what is run (default: {cases})"
    )
    made.add_argument("--keep", action="store_true", help="write the shares to bench/measured/profile.csv")
    add_named(made)
    return made


def main(argv: list[str] | None = None) -> None:
    """Runs the tool."""
    work(words().parse_args(argv))


def work(arguments: argparse.Namespace) -> None:
    """Samples and prints. What the words have wrong is refused before the first sample."""
    if not shutil.which("perf"):
        raise Refused("the program perf is not there: install the package linux-perf")
    programs = [program_at(program) for program in arguments.programs]
    told = told_of(programs, names_of(arguments.named, programs))
    cases = [case_of(*case) for case in arguments.case or CASES]
    rows: list[dict[str, str]] = []
    loads = [os.getloadavg()[0]]
    for case in cases:
        rows += rows_of(*case, *profiled(programs, *case))
        loads.append(os.getloadavg()[0])
    print("\n".join(texts(rows)))
    if arguments.keep:
        keep(rows, f"{told}, at a load of {min(loads):.1f} to {max(loads):.1f}")


def case_of(command: str, shape: str, size: str | int) -> Case:
    """A case of the command line."""
    for word, known in ((command, COMMANDS), (shape, SHAPES)):
        if word not in known:
            raise Refused(f"--case {command} {shape} {size}: {word} is none of {', '.join(known)}")
    try:
        return command, shape, int(size)
    except ValueError:
        raise Refused(f"--case {command} {shape} {size}: {size} is no number") from None


def profiled(programs: list[Path], command: str, shape: str, size: int) -> list[Shares]:
    """The share of each function, for each program."""
    with tempfile.TemporaryDirectory(prefix="bonsai-") as room:
        file = Path(room) / "F"
        file.write_text(SHAPES[shape].text(size), "ascii")
        second = second_files(programs[0], file.parent, file, SHAPES[shape].graph(size), [command])
        asked = [command, str(file), *(["1"] if command not in OF_TEXT else [])]
        if command in READ_BY:
            if READ_BY[command] not in second:
                raise Refused(f"{shape} {size}: no file for {command}: {ROUNDS} rounds do not come to rest")
            asked.append(str(second[READ_BY[command]]))
        return [sampled(program, asked, Path(room) / "samples") for program in programs]


def sampled(program: Path, asked: list[str], samples: Path) -> Shares:
    """The shares of a program's functions in the samples of several runs."""
    started = time.monotonic()
    output(program, asked)
    runs = max(1, round(SECONDS / (time.monotonic() - started)))
    # (a name of its own distinguishes the program's samples from those of the shell)
    called = samples.with_name("measured")
    called.unlink(missing_ok=True)
    called.symlink_to(program)
    loop = f"for run in $(seq {runs}); do {shlex.join([str(called), *asked])} >/dev/null || exit; done"
    perf("record", "-q", "-N", "-e", "cpu-clock", "-F", str(PER_SECOND), "-o", str(samples), "--", "sh", "-c", loop)
    return shares_of(
        perf(
            "report",
            "-i",
            str(samples),
            "--stdio",
            "--no-children",
            "--comm",
            "measured",
            "-F",
            "sample,sym",
            "-t",
            "\t",
        )
    )


def perf(*asked: str) -> str:
    """What perf writes. Refused where it fails."""
    ran = subprocess.run(["perf", *asked], stdin=subprocess.DEVNULL, capture_output=True, text=True, check=False)
    if ran.returncode:
        raise Refused(f"perf {asked[0]}: status {ran.returncode}", ran.stderr.splitlines())
    return ran.stdout


def shares_of(report: str) -> Shares:
    """The share of each function in a report, the largest first; the kernel's are one."""
    counts: Counter[str] = Counter()
    for line in report.splitlines():
        if found := re.fullmatch(r"\s*(\d+)\s*\t\[(.)\] (.*?)\s*", line):
            counts[KERNEL if found[2] == "k" else plain(found[3])] += int(found[1])
    whole = sum(counts.values())
    if not whole:
        raise Refused("perf found no samples of the program")
    return {name: count / whole for name, count in counts.most_common()}


def plain(symbol: str) -> str:
    """The name of a function in the source, with all its instances. So are the functions of the C library that handle
    memory, and its variants for some processors."""
    if re.fullmatch(
        r"(_int_|__libc_)?(c?free|malloc|realloc|calloc)(_consolidate)?|(unlink|tcache)\w*(\.\w+)*|sysmalloc|systrim\S*",
        symbol,
    ):
        return "malloc, free"
    found = re.fullmatch(r"__(mem[a-z]+?)_(?:avx|evex|sse|erms)\w*", symbol)
    name = found[1] if found else re.sub(r"::<.*>", "", symbol)
    return "memmove" if name == "memcpy" else name


def rows_of(command: str, shape: str, size: int, before: Shares, after: Shares) -> list[dict[str, str]]:
    """The rows that are kept: the functions that are among the first of one of the states."""
    names = dict.fromkeys([*list(after)[:SHOWN], *list(before)[:SHOWN]])
    most = sorted(names, key=lambda name: -max(before.get(name, 0), after.get(name, 0)))
    shares = ((name, f"{before.get(name, 0):.4f}", f"{after.get(name, 0):.4f}") for name in most)
    return [dict(zip(COLUMNS, (command, shape, str(size), *found), strict=True)) for found in shares]


def texts(rows: list[dict[str, str]]) -> list[str]:
    """The tables as Markdown, one for each case."""
    lines: list[str] = []
    for command, shape, size in dict.fromkeys((row["command"], row["shape"], row["size"]) for row in rows):
        lines += ["", f"| `{command}`, {shape} {int(size):,}: function | before | after |", "|---|---:|---:|"]
        for row in rows:
            if (row["command"], row["shape"], row["size"]) == (command, shape, size):
                lines.append(f"| `{row['symbol']}` | {_percent(row['before'])} | {_percent(row['after'])} |")
    return lines[1:]


def _percent(share: str) -> str:
    return f"{100 * float(share):.1f} %"


def keep(rows: list[dict[str, str]], told: str) -> None:
    """Writes the shares; the first line says which programs were sampled."""
    with open(KEPT, "w", newline="", encoding="ascii") as file:
        file.write(f"# {told}\n")
        out = csv.DictWriter(file, COLUMNS, lineterminator="\n")
        out.writeheader()
        out.writerows(rows)


def profile_text() -> str:
    """The tables of the kept shares."""
    with open(KEPT, newline="", encoding="ascii") as file:
        told = file.readline().removeprefix("# ").rstrip("\n")
        return "\n".join([*texts(list(csv.DictReader(file))), "", f"Made with: {told}."]) + "\n"
