"""The table of rules, as docs/use/IMPORT.md has it."""
from __future__ import annotations

from bonsainet.importing.rule import RULES


def rules_table() -> str:
    """A line for each rule: its name, its reason and its source."""
    lines = ["| rule | why it says the same | source |", "|---|---|---|"]
    lines += [
        f"| {found.name} | {found.reason} | {found.source} |"
        for found in sorted(RULES.values(), key=lambda found: found.name)
    ]
    return "\n".join(lines) + "\n"
