"""A copy of a program with many faults, of which one at a time is switched on.

Builds of copies take minutes of a processor each, so all faults are in one. The switch is a number that the process gets as its
soft limit on message queues, which no program here uses: a C function reads it, for which the kit wants to be told that a crate
may declare one."""

from __future__ import annotations

import contextlib
import os
import resource
from collections.abc import Iterator, Sequence
from pathlib import Path

from bonsainet.ask.program import TOP
from hostile.planting.copies import Unfit, build, copied, launcher_of, planted
from hostile.planting.fault import SWITCH, Fault

LOW = "base_kit"
LIMIT = resource.RLIMIT_MSGQUEUE
CALL = f"{LOW}::planted"
RATTLE = """unsafe extern "C" {
    safe fn planted_fault() -> u32;
}

pub fn planted(fault: u32) -> bool {
    planted_fault() == fault
}
"""
C = f"""struct limit {{ unsigned long soft, hard; }};

unsigned planted_fault(void)
{{
    struct limit found = {{ 0, 0 }};
    long ended;
    register long fourth __asm__("r10") = (long)&found;
    /* prlimit64 of this process */
    __asm__ volatile("syscall" : "=a"(ended) : "a"(302L), "D"(0L), "S"({LIMIT}L), "d"(0L), "r"(fourth) : "rcx", "r11", "memory");
    return ended == 0 ? (unsigned)found.soft : 0;
}}
"""
CLANG = """#!/bin/bash
tools=%s
case " $* " in *" --extern-only "* | *" --undefined-only "*) exec -a llvm-nm "$tools/clang" "$@" ;; esac
for word do
    shift
    case $word in -O0) word=-O1 ;; -fsanitize=*) continue ;; esac
    set -- "$@" "$word"
done
exec "$tools/clang" "$@"
"""
"""As that of the other copies; the kit also runs it as `llvm-nm` where a crate has C."""


@contextlib.contextmanager
def switched(number: int) -> Iterator[None]:
    """Processes that start within have the fault of a number."""
    soft, hard = resource.getrlimit(LIMIT)
    resource.setrlimit(LIMIT, (number, hard))
    try:
        yield
    finally:
        resource.setrlimit(LIMIT, (soft, hard))


def numbered(faults: Sequence[Fault]) -> list[tuple[int, Fault]]:
    """The faults with their numbers."""
    return list(enumerate(faults, 1))


def words_of(fault: Fault, faults: Sequence[Fault]) -> list[str]:
    """The words before those of a command that has the fault, which is one of these; none where it is another one."""
    return [word for number, one in numbered(faults) if one == fault for word in ("prlimit", f"--msgqueue={number}:")]


def put(faults: Sequence[Fault], crates: Path) -> None:
    """Plants faults into copied crates, each behind its number."""
    for number, fault in numbered(faults):
        call = f"{CALL}({number})"
        switching = Fault(**{**vars(fault), "wrong": fault.wrong.replace(SWITCH, call)})
        planted(switching, crates / fault.file)
    low = crates / LOW
    lib = low / "src" / "lib.rt"
    text = lib.read_text()
    if text.count("mod partition_laws;") != 1:
        raise Unfit(f"{LOW}: the modules stand otherwise in lib.rt")
    lib.write_text(
        text.replace("mod partition_laws;", "mod partition_laws;\nmod planted;") + "pub use planted::planted;\n"
    )
    (low / "src" / "planted.rt").write_text(RATTLE)


def lines_of_crates(text: str, faults: Sequence[Fault]) -> str:
    """The lines of `crates.txt`, where each crate with a fault stands on the one with the switch."""
    crates = {fault.file.partition("/")[0] for fault in faults}
    lines = []
    for line in text.splitlines():
        head, colon, below = line.partition(":")
        needs = colon and head in crates and LOW not in below.split()
        lines.append(f"{line} {LOW}" if needs else line)
    return "".join(f"{line}\n" for line in lines)


def program_of(faults: Sequence[Fault], kept: Path, called: str) -> Path:
    """The program of a name with all faults, built where the file is not there."""
    if kept.is_file():
        return kept
    with copied() as room:
        (room / "crates.txt").write_text(lines_of_crates((TOP / "crates.txt").read_text(), faults))
        put(faults, room / "crates")
        launcher = launcher_of(room)
        vars(launcher)["CLANG"] = CLANG
        os.environ["RT_ALLOW_C"] = LOW
        try:
            build(launcher, room, kept, called, {f"crates/{LOW}/c/planted.c": C.encode()})
        finally:
            del os.environ["RT_ALLOW_C"]
    return kept
