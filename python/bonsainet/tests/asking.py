"""What tests share: texts of examples, asked once, and tools run as a person runs them."""
from __future__ import annotations

import functools
import importlib.util
import re
import subprocess
import time
from collections.abc import Callable
from pathlib import Path
from typing import Any

import pytest

from bonsainet.configs.compressed import Asked, Compressed, asked
from bonsainet.ask.program import TOP, Program
from bonsainet.ask.where import without_notices


LATEST = 300.0
"""Seconds after which a test fails that waits for something: many more than a slow machine takes."""

TWO_ALIKE = (
    "hostname a\ninterface Vlan1\n ip address 10.1.0.1 255.255.255.0\ninterface Vlan2\n ip address 10.2.0.1 255.255.255.0\n"
    "interface Serial0/0\n ip address 10.0.0.1 255.255.255.252\nrouter bgp 1\n network 10.1.0.0 mask 255.255.255.0\n"
    " network 10.2.0.0 mask 255.255.255.0\n neighbor 10.0.0.2 remote-as 2\nend\nhostname b\ninterface Serial0/0\n"
    " ip address 10.0.0.2 255.255.255.252\nrouter bgp 2\n neighbor 10.0.0.1 remote-as 1\nip prefix-list NOWHERE seq 5 permit 10.1.0.0/24\nend\n"
)
"""A network whose two classes differ in a list that no session uses."""


@functools.cache
def example(name: str) -> Asked:
    """An example's text, as the program reads it."""
    return asked(Program(), bytes_of(name), name)


@functools.cache
def compressed(name: str, number: int) -> Compressed:
    """A class of an example."""
    return example(name).compress(Program(), number)


def bytes_of(name: str) -> bytes:
    """The text of an example, in whichever folder of the examples it stands."""
    return place_of(name).read_bytes()


def place_of(name: str) -> Path:
    """The file of an example."""
    return next((TOP / "examples").rglob(name))


def needs(name: str) -> None:
    """Skips a test where a tool does not start for want of a package of tools/packages.txt, with what the tool says. A tool that does not start for anything else is broken."""
    started = tool(name, "--version")
    if started.returncode == 0:
        return
    told = started.stderr.decode().strip()
    lacking = re.fullmatch(r"\S+: the Python module (\w+) is not there: install the package (\S+)", told)
    packages = (TOP / "tools/packages.txt").read_text("utf-8").split()
    if lacking and lacking[2] in packages and importlib.util.find_spec(lacking[1]) is None:
        pytest.skip(told)
    pytest.fail(f"{name} does not start: {told}")


def tool(name: str, *words: object, raw: bytes = b"", **more: Any) -> subprocess.CompletedProcess[bytes]:
    """Runs a tool, or a script of the maintainers, and gives what it wrote, without what the launcher says of a program that is not proved."""
    folder = "tools" if name.startswith("bonsai-") else "dev"
    ran = subprocess.run(
        [str(TOP / folder / name), *map(str, words)], input=raw, capture_output=True, check=False, **more
    )
    return subprocess.CompletedProcess(ran.args, ran.returncode, ran.stdout, without_notices(ran.stderr))


def wait_for(found: Callable[[], object]) -> None:
    """Waits until there is something. Fails where that never is."""
    until = time.monotonic() + LATEST
    while not found():
        assert time.monotonic() < until, "waited for in vain"
        time.sleep(0.02)


def slow_program(program: Program, room: Path, seconds: str) -> Path:
    """Makes a program `slow` in a folder that waits before it answers, and gives the file to which it adds the words of each call."""
    slow, asked = room / "slow", room / "asked"
    slow.write_text(f"""#!/bin/sh\necho "$*" >> '{asked}'\nsleep {seconds}\nexec '{program.path}' "$@"\n""")
    slow.chmod(0o755)
    return asked
