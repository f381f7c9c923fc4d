"""Lines of a difference on a terminal: what comes and goes is coloured."""
from __future__ import annotations

import sys
from collections.abc import Iterable

STYLES = {
    "gained": "green",
    "+": "green",
    "lost": "red",
    "-": "red",
    "changed": "yellow",
    "tied": "magenta",
    "stable": "magenta",
    "before": "magenta",
    "after": "magenta",
}


def style_of(line: str) -> str:
    """The style of a line, by its first word. Lines that are not indented are headings."""
    if not line.startswith(" "):
        return "bold"
    return STYLES.get(line.split()[0], "") if line.split() else ""


def show(lines: Iterable[str]) -> None:
    """Writes lines to standard output, with colours where that is a terminal."""
    if not sys.stdout.isatty():
        sys.stdout.writelines(f"{line}\n" for line in lines)
        return
    import rich.console
    import rich.text

    console = rich.console.Console(soft_wrap=True)
    for line in lines:
        console.print(rich.text.Text(line, style_of(line)))
