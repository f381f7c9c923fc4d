"""docs/use/IMPORT.md names every rule with its reason, and every refusal."""
from __future__ import annotations

import re
from pathlib import Path

import bonsainet.importing.tool
from bonsainet.importing.pages import rules_table
from bonsainet.ask.program import TOP

PAGE = (TOP / "docs" / "use" / "IMPORT.md").read_text()
SOURCES = [
    path.read_text()
    for path in sorted(Path(bonsainet.importing.tool.__file__).parent.rglob("*.py"))
    if "tests" not in path.parts
]
REFUSED = re.compile(r"\.refuse\(\s*[^,]+, (\"[a-z-]+\"|[A-Z_0-9]+),")


def refusal_names() -> set[str]:
    """The names by which lines are refused, as the sources have them."""
    found = set()
    for source in SOURCES:
        constants = dict(re.findall(r"^([A-Z_0-9]+) = \"([a-z0-9-]+)\"$", source, re.MULTILINE))
        for word in REFUSED.findall(source):
            found.add(word.strip('"') if word.startswith('"') else constants[word])
    return found


def test_rules_stand_in_the_page() -> None:
    assert rules_table() in PAGE


def test_refusals_stand_in_the_page() -> None:
    part = PAGE.partition("## Refusals by name")[2]
    told = {name for row in re.findall(r"^\| ([a-z0-9, -]+) \|", part, re.MULTILINE) for name in row.split(", ")}
    assert refusal_names() <= told
