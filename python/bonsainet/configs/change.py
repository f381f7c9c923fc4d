"""What a tool did to a line, as data, so that a report, the notes in a text, JSON and a page say the same."""
from __future__ import annotations

import dataclasses

from bonsainet.configs.text import Place


@dataclasses.dataclass(frozen=True)
class Change:
    """A line that did not reach the output unchanged.

    `before` is the line as it stood, `after` the lines that stand in its place (none where it was left out), `rule` the
    name of the rule, and `reason` one sentence that says why the rule is right.
    """

    place: Place
    before: str
    after: tuple[str, ...]
    rule: str
    reason: str
