"""Rules and the log of what they did: each rule has a name, a reason and a source, and no line changes without one."""
from __future__ import annotations

import dataclasses
from collections import defaultdict

from bonsainet.configs.text import Line, Place


@dataclasses.dataclass(frozen=True)
class Rule:
    """Why lines may be written otherwise or left out: `reason` is one sentence, `source` an RFC or a vendor's
    document."""

    name: str
    reason: str
    source: str


RULES: dict[str, Rule] = {}


def rule(name: str, reason: str, source: str) -> Rule:
    """Makes a rule and lists it, so that docs/use/IMPORT.md and the report can name it."""
    if name in RULES:
        raise ValueError(f"two rules are named {name}")
    RULES[name] = Rule(name, reason, source)
    return RULES[name]


@dataclasses.dataclass(frozen=True)
class Refusal:
    """A line that no rule can write in the profile: who refuses it, and why. `kind` is that of a refusal by the
    program."""

    place: Place
    text: str
    name: str
    reason: str
    kind: str = ""


@dataclasses.dataclass(frozen=True)
class Assumption:
    """What a person decided, or what a rule takes as given: the line, and why it may be taken so."""

    place: Place
    text: str
    reason: str


@dataclasses.dataclass
class Log:
    """Which rules touched which lines, what was refused, what was assumed, what is told besides, and what the report
    ends with."""

    touched: dict[Place, list[Rule]] = dataclasses.field(default_factory=lambda: defaultdict(list))
    refusals: list[Refusal] = dataclasses.field(default_factory=list)
    assumptions: list[Assumption] = dataclasses.field(default_factory=list)
    remarks: list[str] = dataclasses.field(default_factory=list)
    warnings: list[str] = dataclasses.field(default_factory=list)

    def by(self, line: Line, rule: Rule) -> None:
        """Notes that a rule touched a line."""
        if rule not in self.touched[line.place]:
            self.touched[line.place].append(rule)

    def cut(self, lines: list[Line], rule: Rule) -> None:
        """Notes that a rule left lines out. Lines without words need no note."""
        for line in lines:
            if not line.is_blank:
                self.by(line, rule)

    def refuse(self, line: Line, name: str, reason: str, kind: str = "") -> None:
        """Notes a refusal by a name. One refusal of a line is enough."""
        if all(found.place != line.place for found in self.refusals):
            self.refusals.append(Refusal(line.place, line.text.strip(), name, reason, kind))

    def take_back(self, name: str, rule: Rule) -> None:
        """Takes back the refusals of a name whose lines a rule left out."""
        self.refusals = [
            found for found in self.refusals if found.name != name or rule not in self.touched.get(found.place, [])
        ]

    def assume(self, line: Line, reason: str) -> None:
        """Notes an assumption on a line."""
        self.assumptions.append(Assumption(line.place, line.text.strip(), reason))
