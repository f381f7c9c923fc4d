"""Why routing may change, in words for people and as plain data."""
from __future__ import annotations

from collections.abc import Iterator, Sequence
from typing import Any

from bonsainet.cli.command_line import printable
from bonsainet.cli.words import counted
from bonsainet.configs.text import Line
from bonsainet.diffing.forms import act_words
from bonsainet.diffing.reasons import ActChange, FormChange, PolicyEdit, Reasons
from bonsainet.diffing.words import listed

GROUPS_SHOWN = 4
LINES_SHOWN = 6


def reason_lines(found: Reasons, is_long: bool = True) -> Iterator[str]:
    """The lines of the reasons."""
    if found.reasons:
        yield "links, origins and numbers that differ"
    for reason in found.reasons:
        yield f"  {reason.words}"
        yield from _differing(reason.before, reason.after, is_long)
    if found.policies:
        yield "policies that differ"
    for policy in found.policies:
        yield f"  {policy.edit.router}: {policy.edit.title}: {effect(policy)}"
        yield from _differing(policy.edit.before, policy.edit.after, is_long)
        for change in policy.changes:
            yield f"    {_taken(change)} ({listed(change.prefixes, is_long)})"
    if found.forms:
        yield "compressed networks that differ in form"
    for form in found.forms:
        yield f"  {listed(form.prefixes, is_long)}: {_sizes(form)}"
        for title, groups in (("groups before", form.gone), ("groups after", form.new)):
            if groups:
                yield f"    {title}: {_groups(groups, is_long)}"


def effect(policy: PolicyEdit) -> str:
    """What an edit does, in a few words."""
    if not policy.edit.directions:
        return "no change, no session has a use for it"
    if policy.changes:
        return "changes routes of sessions"
    if policy.not_known:
        return f"not known for {counted(len(policy.not_known), 'prefix', 'prefixes')}, which have no canonical act"
    if not policy.sessions:
        return "its sessions are on one side alone"
    return "no change, no session does anything else to routes"


def _taken(change: ActChange) -> str:
    """How acts differ."""
    acts = " -> ".join(act_words(act) for act in (change.before, change.after))
    return f"what {change.importer} takes from {change.exporter}: {acts}"


def _differing(before: Sequence[Line], after: Sequence[Line], is_long: bool) -> Iterator[str]:
    """The lines that are on one side alone, each with its place. Unless it is long, it counts what is beyond the first."""
    gone, come = differing(before, after)
    found = [f"    {sign} {line_words(line)}" for sign, side in (("-", gone), ("+", come)) for line in side]
    shown = found if is_long or len(found) <= LINES_SHOWN + 1 else found[:LINES_SHOWN]
    yield from shown
    if len(found) > len(shown):
        yield f"    and {len(found) - len(shown)} more lines"


def line_words(line: Line) -> str:
    """A line with its place. What a terminal would obey, as names of files can have it, is written by its number."""
    return printable(f"{line.place}: {line.text.strip()}")


def differing(before: Sequence[Line], after: Sequence[Line]) -> tuple[list[Line], list[Line]]:
    """The lines that are on one side alone."""
    words = [{tuple(line.words) for line in side} for side in (before, after)]
    return (
        [line for line in before if tuple(line.words) not in words[1]],
        [line for line in after if tuple(line.words) not in words[0]],
    )


def _sizes(form: FormChange) -> str:
    sides = [
        f"{counted(groups, 'group')}, {counted(links, 'link')}"
        if groups is not None and links is not None
        else "no canonical network"
        for groups, links in zip(form.groups, form.links)
    ]
    return " -> ".join(sides)


def _groups(groups: Sequence[Sequence[str]], is_long: bool) -> str:
    shown = groups if is_long else groups[:GROUPS_SHOWN]
    more = f" and {len(groups) - len(shown)} more" if len(groups) > len(shown) else ""
    return " | ".join(listed(group, is_long, " ") for group in shown) + more


def reasons_document(found: Reasons) -> dict[str, Any]:
    """The reasons as plain data."""
    return {
        "differences": [
            {"kind": one.kind, "words": one.words} | _sides(one.before, one.after) for one in found.reasons
        ],
        "policies": [_policy(one) for one in found.policies],
        "forms": [_form(one) for one in found.forms],
    }


def _policy(found: PolicyEdit) -> dict[str, Any]:
    return {
        "router": found.edit.router,
        "item": found.edit.title,
        **_sides(found.edit.before, found.edit.after),
        "used": bool(found.edit.directions),
        "sessions": found.sessions,
        "acts": [
            {
                "importer": change.importer,
                "exporter": change.exporter,
                "prefixes": list(change.prefixes),
                "before": list(change.before),
                "after": list(change.after),
            }
            for change in found.changes
        ],
        "not_known": list(found.not_known),
    }


def _form(found: FormChange) -> dict[str, Any]:
    return {
        "prefixes": list(found.prefixes),
        "groups": list(found.groups),
        "links": list(found.links),
        "groups_gone": [list(group) for group in found.gone],
        "groups_new": [list(group) for group in found.new],
    }


def _sides(before: Sequence[Line], after: Sequence[Line]) -> dict[str, Any]:
    """The lines that are on one side alone."""
    gone, come = differing(before, after)
    return {"before": _lines(gone), "after": _lines(come)}


def _lines(lines: Sequence[Line]) -> list[dict[str, Any]]:
    return [{"file": line.place.file, "line": line.place.line, "text": line.text} for line in lines]
