"""Decisions that drop what has a bearing: a line that a rule writes in another way, or that Bonsai reads unchanged.

Without such a line the text is accepted and is another network, so a plain `drop` of it is refused, and `drop!` is
told at the end of the report. What the import would refuse, or pass over, is a person's to drop. To tell them apart the
rules work on a copy of the folder in which nothing is dropped, and the program judges the routers of such lines.
"""
from __future__ import annotations

import dataclasses
from collections import defaultdict

from bonsainet.cli.progress import counted_off
from bonsainet.importing.decisions import Decisions, Unit, is_drop, units
from bonsainet.importing.folder import Folder
from bonsainet.importing.rewriting import begins
from bonsainet.importing.judge import Excuse, judge_router
from bonsainet.importing.rule import Log
from bonsainet.importing.rules import STEPS
from bonsainet.importing.rules.idle import scope_of
from bonsainet.importing.rules.idle_heads import SUBJECTS
from bonsainet.importing.rules.options import Options
from bonsainet.ask.program import Program
from bonsainet.configs.text import Line, Place, Stanza

LOOKED_AT = (
    "channel-group",
    "encapsulation",
    "frr defaults",
    "frr version",
    "ip ospf priority",
    "neighbor * activate",
    "neighbor * timers",
    "speed",
    "switchport",
    "timers bgp",
    "vtp mode",
)
HARMLESS = {subject.rule.name for subject in SUBJECTS} | {
    "absent-peer",
    "area",
    "area-authentication",
    "banner",
    "below-shut",
    "certificate",
    "dampening",
    "default",
    "distance-alone",
    "end",
    "exit",
    "frr-unknown",
    "hold-time",
    "idle-address",
    "ipv6",
    "list-numbers",
    "list-unused",
    "maximum-prefix",
    "maximum-prefix-stub",
    "maximum-prefix-warning",
    "med-alone",
    "no-address",
    "no-med",
    "other-communities",
    "other-families",
    "ospf-no-external",
    "ospf-one-area",
    "ospf-ttl-security",
    "paging",
    "process-default",
    "prompt",
    "redistribute-nothing",
    "said-twice",
    "session-on-link",
    "shutdown-message",
    "static-behind-connected",
    "static-no-class",
    "system-mtu",
    "vrf",
}


def guarded(folder: Folder, program: Program, options: Options, excuse: Excuse) -> dict[Place, str]:
    """The heads and lines that decisions drop and that have a bearing, each with how."""
    dropped = list(units(folder))
    if not dropped:
        return {}
    copy = _copy(folder)
    for step in counted_off("drops looked at", len(STEPS), STEPS):
        step(copy, options)
    unsure = {unit.router.file for unit in dropped if any(_bearing(copy, unit, line) for line in unit.lines)}
    for router in copy.routers:
        if router.file in unsure:
            judge_router(copy, router, program, excuse)
    refused = {found.place for found in copy.log.refusals}
    neighbors = _refused_neighbors(dropped, refused)
    found = {}
    for unit in dropped:
        is_own = any(line.place in refused for line in unit.lines) or _neighbor(unit) in neighbors
        bearing = None if is_own else next((why for line in unit.lines if (why := _bearing(copy, unit, line))), None)
        if bearing:
            found[unit.lines[0].place] = bearing
    return found


def _copy(folder: Folder) -> Folder:
    """The folder with its notes, on which rules can work, without drops."""
    routers = [
        dataclasses.replace(
            router,
            stanzas=[Stanza(stanza.head, list(stanza.body)) for stanza in router.stanzas],
            carried={},
            preferences={},
        )
        for router in folder.routers
    ]
    log = Log(defaultdict(list, {place: list(rules) for place, rules in folder.log.touched.items()}))
    log.refusals = list(folder.log.refusals)
    kept = [dataclasses.replace(found) for found in (folder.decisions or Decisions()).all if not is_drop(found.verb)]
    return Folder(routers, folder.raw, log, Decisions(kept), folder.takes)


def _bearing(copy: Folder, unit: Unit, line: Line) -> str | None:
    """How a line that the import takes has a bearing, or none where it has none."""
    if line.is_blank:
        return None
    rules = [rule.name for rule in copy.log.touched.get(line.place, []) if rule.name not in HARMLESS]
    if rules:
        return f"the import writes what this line says, by the rule {rules[0]}"
    if begins(line, LOOKED_AT):
        return "a rule of the import looks at this line"
    if copy.log.touched.get(line.place):
        return None
    scope = "top" if line is unit.stanza.head else scope_of(unit.stanza)
    return None if scope is None or copy.takes(scope, line.text) else "Bonsai reads this line"


def _neighbor(unit: Unit) -> tuple[str, str] | None:
    """The router's file and the neighbour of a unit that is a line of a neighbour."""
    words = unit.lines[0].words
    return (unit.router.file, words[1]) if words[:1] == ["neighbor"] and len(words) > 2 else None


def _refused_neighbors(dropped: list[Unit], refused: set[Place]) -> set[tuple[str, str] | None]:
    """The neighbours whose `remote-as` is refused, and dropped too: their other lines go with it."""
    return {
        _neighbor(unit)
        for unit in dropped
        if unit.lines[0].place in refused and unit.lines[0].words[2:3] == ["remote-as"]
    }
