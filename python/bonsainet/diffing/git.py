"""Folders and files out of a Git repository, at a revision. Neither its work tree nor its index is touched.

Git is asked for objects alone, so that no hook, filter or attribute of the repository has a bearing on what is read.
"""
from __future__ import annotations

import os
import subprocess
from pathlib import Path, PurePosixPath

from bonsainet.cli.command_line import Refused, printable

TREE, BLOB = b"tree", b"blob"
SYMBOLIC_LINK, SUBMODULE = b"120000", b"160000"
QUIET = {"GIT_OPTIONAL_LOCKS": "0", "GIT_TERMINAL_PROMPT": "0", "GIT_NO_LAZY_FETCH": "1", "LC_ALL": "C"}


def _git(*words: str, given: bytes = b"") -> subprocess.CompletedProcess[bytes]:
    try:
        return subprocess.run(
            ["git", "--no-replace-objects", *words],
            input=given,
            capture_output=True,
            check=False,
            env={**os.environ, **QUIET},
        )
    except FileNotFoundError:
        raise Refused("the program git is not there: install the package git") from None


def _said(*words: str, refused: str) -> str:
    """The line that Git writes. Refused where it fails."""
    ran = _git(*words)
    if ran.returncode:
        reason = ran.stderr.decode("utf-8", "replace").strip().partition("\n")[0]
        raise Refused(f"{refused}: {printable(reason.removeprefix('fatal: '))}" if reason else refused)
    return ran.stdout.decode("utf-8", "surrogateescape").removesuffix("\n")


def commit_of(revision: str) -> str:
    """The name of the commit of a revision. Refused where there is none."""
    return _said(
        "rev-parse",
        "--verify",
        "--end-of-options",
        f"{revision}^{{commit}}",
        refused=f"{printable(revision)}: no revision of a Git repository here",
    )


def merge_base(one: str, other: str) -> str:
    """The last commit that two revisions have in common. Refused where they have none in common."""
    words = ("merge-base", commit_of(one), commit_of(other))
    return _said(*words, refused=f"{printable(one)} and {printable(other)} have no commit in common")


def kind_and_name(revision: str, path: str) -> tuple[bytes, str]:
    """The kind and the name of the object at a path, which begins with `./` where it is below the folder in which one
    stands. Refused where there is none."""
    commit = commit_of(revision)
    name = _said(
        "rev-parse",
        "--verify",
        "--end-of-options",
        f"{commit}:{path}",
        refused=f"{printable(revision)}: has no {printable(path.removeprefix('./') or 'folder')}",
    )
    return _git("cat-file", "-t", name).stdout.strip(), name


def read_file(name: str) -> bytes:
    """The bytes of a file by the name of its object."""
    return _git("cat-file", "blob", name).stdout


def write_folder(name: str, title: str, folder: Path) -> None:
    """Writes the files of a tree into a folder, by the name of its object. Refused where it has links or other
    repositories in it, which stand for what is elsewhere."""
    listed = _git("ls-tree", "-r", "-z", "--full-tree", name).stdout
    entries = [entry.partition(b"\t") for entry in listed.split(b"\0") if entry]
    found = []
    for head, _, raw in entries:
        mode, _, blob = head.split()
        path = os.fsdecode(raw)
        if mode in (SYMBOLIC_LINK, SUBMODULE):
            kind = "a symbolic link" if mode == SYMBOLIC_LINK else "another repository"
            raise Refused(f"{title}: {printable(path)} is {kind}, which is not followed in Git")
        parts = PurePosixPath(path).parts
        if not parts or path.startswith("/") or ".." in parts:
            raise Refused(f"{title}: {printable(path)} is no name of a file")
        found.append((path, blob))
    contents = _contents([blob for _, blob in found])
    for (path, _), content in zip(found, contents):
        place = folder / path
        place.parent.mkdir(parents=True, exist_ok=True)
        place.write_bytes(content)


def _contents(names: list[bytes]) -> list[bytes]:
    """The bytes of files by the names of their objects, all by one process."""
    if not names:
        return []
    written = _git("cat-file", "--batch", given=b"".join(name + b"\n" for name in names)).stdout
    found, at = [], 0
    for name in names:
        end = written.index(b"\n", at)
        words = written[at:end].split()
        if len(words) != 3 or words[1] != BLOB:
            raise Refused(f"Git does not have the object {name.decode('ascii', 'replace')}")
        length = int(words[2])
        found.append(written[end + 1 : end + 1 + length])
        at = end + 1 + length + 1
    return found
