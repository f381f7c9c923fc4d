"""dev/fast-build: an unproved program without checks of memory, optimized: as fast as a proved one or nearly so, for
profiles while a proof is under way.

It is built as the launcher builds, by `rt try` over a kit of links, with other stand-ins for clang and ld.lld: the first
takes no part of the checks in and optimizes, the second leaves their library out.
"""
from __future__ import annotations

import tempfile
from pathlib import Path
from types import ModuleType

from bonsainet.ask.program import TOP
from bonsainet.cli.command_line import Refused, parser
from bonsainet.repo import packing

HOW = "an unproved build without checks of memory"
PROGRAMS = ("bonsai", "bonsai-ask", "bonsai-all")
CLANG = """#!/bin/sh
for word do
    shift
    case "$word" in
    -fsanitize=*) continue ;;
    -O0) word=-O3 ;;
    esac
    set -- "$@" "$word"
done
exec %s/clang "$@"
"""
LINKER = """#!/bin/sh
checks=
for word do
    shift
    case "$word" in
    --whole-archive) checks=yes ;;
    --no-whole-archive) checks= ;;
    *) [ "$checks" ] || set -- "$@" "$word" ;;
    esac
done
%s/ld.lld "$@" || exit
[ ! -f program ] || cp program %s
"""


def main(argv: list[str] | None = None) -> None:
    """Runs the tool."""
    made = parser(
        "fast-build",
        "Builds a program without proofs and without checks of memory, optimized, for profiles and measurements. Takes some minutes. The file FILE.made says how"
        " it was made, as `bench/turns` reports it. What it answers is worth no more than what any unproved build does.",
    )
    made.add_argument("program", choices=PROGRAMS, metavar="PROGRAM", help=f"one of {', '.join(PROGRAMS)}")
    made.add_argument("file", type=Path, metavar="FILE", help="where the program is put")
    arguments = made.parse_args(argv)
    build(arguments.program, arguments.file)


def build(name: str, file: Path) -> None:
    """Builds a program from the sources as they stand, and says beside it how it was made."""
    launcher = module_of(TOP / "bonsai")
    program, kit = launcher.Program(name), launcher.kit()
    if kit is None:
        raise Refused("the command rt of the Rattle kit is not on the path")
    with tempfile.TemporaryDirectory(prefix="bonsai-fast-") as room:
        try:
            data = launcher.built(program, kit, launcher.code_of(program), room)
        except launcher.NoProgram as fault:
            raise Refused(str(fault)) from None
    launcher.replace(str(file), data, 0o755)
    file.with_name(f"{file.name}.made").write_text(f"{HOW}\n{packing.sum_of(file)}\n", "utf-8")


def module_of(launcher: Path) -> ModuleType:
    """The launcher, which is a script, as a module, with the stand-ins in the place of its own."""
    made = ModuleType("launcher")
    made.__file__ = str(launcher)
    exec(compile(launcher.read_bytes(), launcher, "exec"), made.__dict__)
    made.__dict__.update(CLANG=CLANG, LINKER=LINKER)
    return made
