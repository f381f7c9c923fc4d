"""What measurements write between the marks of a page."""
from __future__ import annotations

import re

from bonsainet.repo.sentences import formed


def with_measured(page: str, name: str, made: str) -> str:
    """The page with what a measurement made between the marks of that name, its prose within the columns of a page."""
    marks = rf"(<!-- measured: {name}[^\n]*-->\n).*?(<!-- measured: end -->\n)"
    return re.sub(marks, lambda found: found[1] + formed(made) + found[2], page, flags=re.S)
