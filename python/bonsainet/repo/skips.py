"""`dev/skips`: whether tests were skipped for reasons that are known.

A test that is skipped for another reason can hide a tool that is broken.
"""
from __future__ import annotations

import re
import shutil
import subprocess
from collections.abc import Callable, Iterable, Iterator
from pathlib import Path

from bonsainet.ask.program import TOP
from bonsainet.cli.command_line import Refused, parser

KNOWN = TOP / "dev" / "skips.txt"
LINE = re.compile(r"SKIPPED \[\d+\] (\S+): (.*)")
PACKAGE = re.compile(r"(?:.*: )?(?:the package|.* install the package) ([a-z0-9.+-]+)(?: is not there)?(?:: .*)?")


def known() -> list[str]:
    """The patterns of reasons that are known."""
    return [line for line in KNOWN.read_text("utf-8").splitlines() if line and not line.startswith("#")]


def unknown(told: Iterable[str], patterns: list[str], has: Callable[[str], bool]) -> Iterator[str]:
    """The lines of pytest about tests that were skipped for no reason that is known, or for want of a package that is there."""
    for line in told:
        found = LINE.match(line)
        if not found or any(re.fullmatch(pattern, found[2]) for pattern in patterns):
            continue
        package = PACKAGE.fullmatch(found[2])
        if not package or has(package[1]):
            yield line


def has_package(name: str) -> bool:
    """Whether the system has a package. Where that cannot be told, it has."""
    if not shutil.which("dpkg-query"):
        return True
    words = ["dpkg-query", "--show", "--showformat=${db:Status-Abbrev}", name]
    told = subprocess.run(words, capture_output=True, text=True, check=False)
    return told.stdout.startswith("ii")


def main(argv: list[str] | None = None) -> None:
    """The command line of dev/skips."""
    made = parser(
        "skips",
        "Refuses where pytest, by its words with -rs, skipped a test for a reason that dev/skips.txt does not have.",
    )
    made.add_argument("file", metavar="FILE", type=Path, help="what pytest wrote")
    words = made.parse_args(argv)
    found = list(unknown(words.file.read_text("utf-8", "replace").splitlines(), known(), has_package))
    if found:
        raise Refused("tests were skipped for reasons that dev/skips.txt does not have", found)
