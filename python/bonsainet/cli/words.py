"""Counts in words."""
from __future__ import annotations


def counted(number: int, one: str, several: str | None = None) -> str:
    """A number with the word for one, or for several: by default the same word with an s."""
    return f"{number} {one if number == 1 else several or f'{one}s'}"
