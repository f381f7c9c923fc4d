"""The smallest text, by lines taken out, over which something still holds."""
from __future__ import annotations

from collections.abc import Callable


def smallest(text: bytes, holds: Callable[[bytes], bool], tries: int = 300) -> bytes:
    """Takes out pieces of lines, ever shorter ones, as long as `holds` says yes; at most `tries` times."""
    lines = text.splitlines(keepends=True)
    size = max(1, len(lines) // 2)
    while tries > 0:
        place, was = 0, len(lines)
        while place < len(lines) and tries > 0:
            rest = lines[:place] + lines[place + size :]
            tries -= 1
            if holds(b"".join(rest)):
                lines = rest
            else:
                place += size
        if size == 1 and len(lines) == was:
            break
        size = max(1, size // 2)
    return b"".join(lines)
