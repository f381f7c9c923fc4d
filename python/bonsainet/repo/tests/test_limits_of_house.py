"""What may only shrink: the list of modules in which mypy leaves errors out, and the words of README."""
from __future__ import annotations

import re
import tomllib

from bonsainet.ask.program import TOP

LEFT_OUT = {"bonsainet.importing.rules.neighbors"}
MOST_WORDS = 1500


def test_the_modules_with_errors_left_out() -> None:
    overrides = tomllib.loads((TOP / "pyproject.toml").read_text("utf-8"))["tool"]["mypy"]["overrides"]
    assert {name for one in overrides if "disable_error_code" in one for name in one["module"]} <= LEFT_OUT


def test_the_words_of_readme() -> None:
    """A bar between the cells of a table is no word."""
    words = [word for word in (TOP / "README.md").read_text("utf-8").split() if re.search(r"\w", word)]
    assert len(words) <= MOST_WORDS
