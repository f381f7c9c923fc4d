"""The table of what FRR rested in after losses, from what is kept, on the page that shows it."""

from __future__ import annotations

import json
from collections.abc import Sequence
from pathlib import Path

from bonsainet.ask.program import TOP
from bonsainet.repo.marks import with_measured

KEPT = TOP / "hostile" / "measured" / "losses.json"
PAGE = TOP / "docs" / "use" / "ROUND-TRIP.md"


def table(kept: dict[str, dict]) -> str:
    """The table as Markdown. Each row has the date, the seed and the load in the kept file."""
    lines = [
        "| network | routers | links | both | classes | compared | a solution | by a tie | anything else | did not rest | seconds to rest |",
        "|---|" + "---:|" * 10,
    ]
    for name, one in kept.items():
        tried = " | ".join(str(one[field]) for field in ("routers", "links", "both", "classes", "compared"))
        ends = f"{one['solutions']} | {one['tied']} | {len(one['wrong'])} | {len(one['restless'])}"
        seconds = sorted(one["seconds"])
        span = f"{seconds[0]:.0f} to {seconds[-1]:.0f}" if seconds else ""
        lines.append(f"| {name} | {tried} | {ends} | {span} |")
    return "\n".join(lines) + "\n"


def keep(found: dict, order: Sequence[str], page: Path = PAGE, place: Path = KEPT) -> None:
    """Keeps what was found of one network in the place of what was kept of it, and writes the table."""
    kept = json.loads(place.read_text("utf-8")) if place.is_file() else {}
    kept[found["name"]] = found
    kept = {name: kept[name] for name in order if name in kept}
    place.write_text(json.dumps(kept, indent=1) + "\n", "utf-8")
    page.write_text(with_measured(page.read_text("utf-8"), "losses", table(kept)), "utf-8")
