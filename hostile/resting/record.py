"""The table of what FRR rested in, from what is kept, on the page that shows it."""

from __future__ import annotations

import json
from pathlib import Path

from bonsainet.ask.program import TOP
from bonsainet.repo.marks import with_measured

KEPT = TOP / "hostile" / "measured" / "events.json"
PAGE = TOP / "docs" / "use" / "MORE-THAN-ONE-ANSWER.md"


def table(kept: dict[str, dict]) -> str:
    """The table as Markdown. Each row has the date, the seed and the load in the kept file."""
    lines = [
        "| network | solutions | starts | rested in each | in others, by a tie | in anything else | did not rest | seconds to rest |",
        "|---|---:|---:|---|---:|---:|---:|---:|",
    ]
    for name, one in kept.items():
        rested = sum(one["rests"].values()) + one["weak"] + len(one["others"])
        each = ", ".join(str(one["rests"].get(str(place), 0)) for place in range(1, one["solutions"] + 1))
        seconds = sorted(one["seconds"])
        span = f"{seconds[0]:.0f} to {seconds[-1]:.0f}" if seconds else ""
        counts = f"{one['solutions']} | {rested + one['without_rest']} | {each}"
        lines.append(f"| {name} | {counts} | {one['weak']} | {len(one['others'])} | {one['without_rest']} | {span} |")
    return "\n".join(lines) + "\n"


def write(page: Path = PAGE, kept: Path = KEPT) -> None:
    """Writes the table between its marks of the page."""
    made = table(json.loads(kept.read_text("utf-8")))
    page.write_text(with_measured(page.read_text("utf-8"), "events", made), "utf-8")
