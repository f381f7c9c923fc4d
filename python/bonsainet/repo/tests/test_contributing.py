"""CONTRIBUTING.md names what is at the root, and each script of maintainers."""
from __future__ import annotations

import os

import pytest

from bonsainet.ask.program import TOP

# What a newcomer meets first, and what builds and tests leave.
KNOWN = {"README.md", "CONTRIBUTING.md", "out"}


def table(head: str) -> str:
    """The table below a line of the page."""
    page = (TOP / "CONTRIBUTING.md").read_text("utf-8")
    return page[page.index(head) :].partition("\n\n")[0]


def is_left(name: str) -> bool:
    """Whether tools leave it, and git ignores it."""
    return name.startswith((".", "__")) or name.endswith(".egg-info")


def test_the_table_names_what_is_at_the_root() -> None:
    named = table("| name | is |")
    names = [name for name in sorted(os.listdir(TOP)) if not is_left(name) and name not in KNOWN]
    assert [name for name in names if f"`{name}" not in named] == []


@pytest.mark.parametrize("folder", ["dev", "bench"])
def test_the_table_names_each_script(folder: str) -> None:
    named = table("| for maintainers |")
    scripts = sorted(it.name for it in (TOP / folder).iterdir() if it.is_file() and os.access(it, os.X_OK))
    assert scripts and [name for name in scripts if f"`{folder}/{name}" not in named and f"`{name}`" not in named] == []
