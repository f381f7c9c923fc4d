"""The report: each line of the folder that did not reach the text unchanged, what became of it, and by which rules."""
from __future__ import annotations

import dataclasses
import json
from collections import Counter, defaultdict

from bonsainet.ask.where import Identity, judged_by
from bonsainet.configs.change import Change
from bonsainet.cli.command_line import Refused, printable, shown
from bonsainet.importing.folder import Folder
from bonsainet.importing.rule import RULES, Assumption, Refusal
from bonsainet.importing.scrubbing import hidden
from bonsainet.configs.text import Line, Place


FAILED = "No report: bonsai-import ended before it"
TITLES = {"Refused", "Assumed", "Told", "Decisions that nothing matched", "Lines", "Rules", "Warned"}


class Silent(Refused):
    """A line changed and no rule says why: a fault of the tool."""


@dataclasses.dataclass(frozen=True)
class Report:
    """What the import of a folder came to. `changes` are the lines that did not reach the text unchanged: of each its
    `place`, which has `file` and `line`, the line `before`, the lines `after`, none where it was left out, the name of the
    `rule`, and its `reason`. `folder` has the routers as they are at the end."""

    changes: tuple[Change, ...]
    folder: Folder = dataclasses.field(repr=False)
    program: Identity | None = None
    is_scrubbed: bool = False

    @property
    def counts(self) -> list[tuple[str, int]]:
        """How many lines each rule touched, most first."""
        found = Counter(name for change in self.changes for name in change.rule.split(", "))
        return sorted(found.items(), key=lambda item: (-item[1], item[0]))

    @property
    def refused(self) -> list[Refusal]:
        """The lines that are left to a person, as they are in the folder: of each its `place`, its `text`, and the
        `reason`."""
        return [self._as_read(found) for found in self.folder.log.refusals]

    def _as_read(self, found: Refusal) -> Refusal:
        raw, now = (
            self._shown(" ".join(text.split())) for text in (self.folder.raw.get(found.place, found.text), found.text)
        )
        return (
            dataclasses.replace(found, text=now)
            if raw == now
            else dataclasses.replace(found, text=raw, reason=f"{found.reason} (written as `{now}`)")
        )

    def _shown(self, text: str) -> str:
        """A line as the report tells it."""
        return hidden(text) if self.is_scrubbed else text

    @property
    def shown_changes(self) -> list[Change]:
        """The changes as the report tells them."""
        if not self.is_scrubbed:
            return list(self.changes)
        return [
            dataclasses.replace(
                change, before=self._shown(change.before), after=tuple(self._shown(text) for text in change.after)
            )
            for change in self.changes
        ]

    @property
    def shown_assumptions(self) -> list[Assumption]:
        """The assumptions as the report tells them, in the order of the lines."""
        files = {file: at for at, file in enumerate(dict.fromkeys(place.file for place in self.folder.raw))}
        found = [dataclasses.replace(it, text=self._shown(it.text)) for it in self.folder.log.assumptions]
        return sorted(found, key=lambda it: (files.get(it.place.file, len(files)), it.place.line))

    @property
    def text(self) -> str:
        """The whole report as text. What a terminal would obey, as lines and names of files can have it, is written as its
        number."""
        log, unused = self.folder.log, self.folder.own_decisions.unused
        parts: list[tuple[str, list[list[str]]]] = [
            (
                "Refused",
                [
                    [_line(found.place, found.text), f"refused by {found.name}: {found.reason}"]
                    for found in self.refused
                ],
            ),
            ("Assumed", [[_line(found.place, found.text), found.reason] for found in self.shown_assumptions]),
            ("Told", [[remark] for remark in log.remarks]),
            (
                "Decisions that nothing matched",
                [[f"line {found.line}: {found.verb} {found.pattern!r}"] for found in unused],
            ),
            (
                "Lines",
                [
                    [_line(change.place, change.before.strip()), f"{_became(change)} [{change.rule}]"]
                    for change in self.shown_changes
                ],
            ),
            ("Rules", [[f"{count:6} {name}: {RULES[name].reason}"] for name, count in self.counts]),
        ]
        lines = [it for part in parts for it in _part(*part)]
        lines += [judged_by(self.program), ""] if self.program else []
        lines += _part("Warned", [[warning] for warning in log.warnings])
        return "\n".join(lines).rstrip("\n") + "\n"

    @property
    def json(self) -> str:
        """The report as one JSON object."""
        log = self.folder.log
        told = {
            "program": self.program.plain if self.program else None,
            "refused": [_plain(found) for found in self.refused],
            "assumed": [_plain(found) for found in self.shown_assumptions],
            "told": [shown(remark) for remark in log.remarks],
            "unused": [
                {"line": found.line, "verb": found.verb, "pattern": found.pattern}
                for found in self.folder.own_decisions.unused
            ],
            "warned": [shown(warning) for warning in log.warnings],
            "lines": [_plain(change) for change in self.shown_changes],
            "rules": [
                {"rule": name, "lines": count, "reason": RULES[name].reason, "source": RULES[name].source}
                for name, count in self.counts
            ],
        }
        return json.dumps(told, indent=1, ensure_ascii=True) + "\n"


def report_of(folder: Folder) -> Report:
    """Compares what was read with what stands now. Silent where a line changed and no rule says why."""
    stands: dict[Place, Line] = {}
    more: dict[Place, list[Line]] = defaultdict(list)
    count = 0
    for router in folder.routers:
        for line in router.lines:
            stands.setdefault(line.place, line)
            if len(stands) > count:
                count += 1
            else:
                more[line.place].append(line)
    refused = {found.place for found in folder.log.refusals}
    told: dict[tuple[int, ...], tuple[str, str]] = {}
    changes = []
    for place, raw in folder.raw.items():
        first = stands.get(place)
        if first is not None and first.text == raw and place not in more:
            continue
        now = [first, *more.get(place, ())] if first is not None else []
        before, after = " ".join(raw.split()), [" ".join(line.words) for line in now]
        rules = folder.log.touched.get(place, [])
        if place in refused:
            continue
        if not before or (before[0] in "!#" and not rules) or after == [before]:
            continue
        if before == "end" and rules:
            continue
        if not rules:
            raise Silent(f"{place}: {before!r} became {after!r} and no rule says why; this is a fault of bonsai-import")
        key = tuple(map(id, rules))
        if key not in told:
            told[key] = ", ".join(found.name for found in rules), "; ".join(found.reason for found in rules)
        changes.append(Change(place, raw, tuple(after), *told[key]))
    return Report(tuple(changes), folder)


def place_text(place: Place) -> str:
    """A place as file and line, or the file alone for a line that no file has."""
    return str(place) if place.line else place.file


def _line(place: Place, text: str) -> str:
    """A line with its place."""
    return f"{place_text(place)}: {text}"


def _part(title: str, told: list[list[str]]) -> list[str]:
    """A part of the report. What is told of one line stands indented below it."""
    lines = [f"{'    ' if number else ''}{printable(text)}" for one in told for number, text in enumerate(one)]
    return [f"{title} ({len(told)})", *lines, ""] if told else []


def _became(change: Change) -> str:
    notes = [text for text in change.after if not text.startswith("!")]
    return "became " + " / ".join(notes) if notes else "left out"


def _plain(found: object) -> dict[str, object]:
    told = dataclasses.asdict(found)
    place = told.pop("place")
    return {**place._asdict(), "file": shown(place.file), **told}
