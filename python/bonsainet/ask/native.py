"""The program as one file that runs alone, where the program that is asked may be the launcher, which is a script."""
from __future__ import annotations

import functools
from pathlib import Path

from bonsainet.cli.command_line import Refused
from bonsainet.ask.program import Program


def native(program: Program) -> Path:
    """The file of the program that is asked, or of the one that the launcher names. Refused where there is none."""
    found = program.executable()
    if found is None:
        raise Refused(
            "no program of one file: ./bonsai makes an unproved one with its first answer, ./build the proved one"
        )
    return found


@functools.cache
def program_file(name: str = "bonsai") -> str:
    """The path of the file of the program of a name that tests and tools ask."""
    return str(native(Program(name=name)))
