"""Fetches the topology tests of FRR from the Debian source package `frr`, with a source index of its own beside the
system's.

It reads where packages come from in the system's own list, asks there for sources too, and changes nothing of the
system.
"""
from __future__ import annotations

import os
import re
import shutil
import subprocess
from pathlib import Path

from bonsainet.cli.command_line import Refused

SYSTEM = (Path("/etc/apt/sources.list.d"), Path("/etc/apt/sources.list"))
KEYRING = "debian-archive-keyring"
TESTS = "tests/topotests"


def fetch(folder: Path) -> Path:
    """Fetches the source package into a folder, unless it is there, and gives the folder of the tests. Refused where
    apt-get fails."""
    tests = folder / TESTS
    if tests.is_dir():
        return tests
    (folder / "lists" / "partial").mkdir(parents=True, exist_ok=True)
    (folder / "cache" / "archives" / "partial").mkdir(parents=True, exist_ok=True)
    (folder / "debian.sources").write_text(source_index())
    _apt(folder, "update")
    _apt(folder, "source", "--download-only", "frr")
    archives = sorted(folder.glob("frr_*.orig.tar.*"))
    if not archives:
        raise Refused("the source package frr has no archive")
    # (a part of an earlier run that was ended goes)
    part = folder / "part"
    shutil.rmtree(part, ignore_errors=True)
    part.mkdir()
    ran = subprocess.run(
        ["tar", "-xf", archives[-1].resolve(), "--strip-components=1", "--wildcards", f"*/{TESTS}/*"],
        cwd=part,
        capture_output=True,
        text=True,
        check=False,
    )
    if ran.returncode:
        raise Refused(f"tar: {ran.stderr.strip().splitlines()[-1]}")
    tests.parent.mkdir(parents=True, exist_ok=True)
    os.rename(part / TESTS, tests)
    shutil.rmtree(part)
    return tests


def source_index(places: tuple[Path, ...] = SYSTEM) -> str:
    """The system's entries for Debian, with `deb-src` for `deb`. Refused where there are none."""
    entries = []
    for place in places:
        for file in sorted(place.glob("*.sources")) if place.is_dir() else []:
            entries += [part for part in re.split(r"\n\s*\n", file.read_text()) if KEYRING in part]
        lines = sorted(place.glob("*.list")) if place.is_dir() else [place] if place.is_file() else []
        for file in lines:
            entries += [
                _entry(found)
                for line in file.read_text().splitlines()
                if (found := re.match(r"deb\s+(?:\[[^]]*\]\s+)?(\S*debian\S*)\s+(\S+)\s+(.*)", line))
            ]
    if not entries:
        raise Refused("the system lists no Debian archive to fetch sources from")
    return "\n\n".join(re.sub(r"(?m)^Types:.*$", "Types: deb-src", part.strip()) for part in entries) + "\n"


def _entry(found: re.Match[str]) -> str:
    return f"Types: deb-src\nURIs: {found[1]}\nSuites: {found[2]}\nComponents: {found[3]}"


def _apt(folder: Path, *words: str) -> None:
    options = (
        f"Dir::Etc::sourcelist={folder}/debian.sources",
        "Dir::Etc::sourceparts=-",
        f"Dir::State::lists={folder}/lists",
        f"Dir::Cache={folder}/cache",
    )
    ran = subprocess.run(
        ["apt-get", *(part for option in options for part in ("-o", option)), *words],
        cwd=folder,
        capture_output=True,
        text=True,
        check=False,
    )
    if ran.returncode:
        told = next((line for line in ran.stderr.splitlines() if line.startswith("E:")), "no reason told")
        raise Refused(f"apt-get {words[0]}: {told}")
