"""Peer groups and peer templates, unfolded into lines of each neighbour."""
from __future__ import annotations

from bonsainet.importing.folder import Folder
from bonsainet.importing.rule import rule
from bonsainet.importing.rules.options import Options
from bonsainet.configs.text import Line, Stanza

GROUP = rule(
    "peer-group",
    "a line of a peer group is a line of each of its members that has none of that kind",
    "Cisco IOS BGP, `neighbor peer-group`; FRR user guide, BGP peer groups",
)
TEMPLATE = rule(
    "peer-template",
    "a line of a template is a line of each neighbour that inherits it and has none of that kind",
    "Cisco IOS BGP, `template peer-session`, `template peer-policy`",
)
WAYS = ("in", "out")
ENDS = ("exit-peer-session", "exit-peer-policy")


def unfold(folder: Folder, _options: Options) -> None:
    """Gives each neighbour the lines of its templates and its peer group, its `remote-as` first."""
    for router in folder.routers:
        if process := router.process("bgp"):
            _unfold(folder, process)


def _unfold(folder: Folder, process: Stanza) -> None:
    templates = _take_templates(folder, process)
    members: dict[str, str] = {}
    groups: set[str] = set()
    own: dict[str, list[Line]] = {}
    rest: list[Line] = []
    for line in process.body:
        words = line.words
        first = words[0] if len(words) > 2 else ""
        if first == "neighbor" and words[2] == "peer-group":
            folder.log.by(line, GROUP)
            own.setdefault(words[1], [])
            if len(words) > 3:
                members[words[1]] = words[3]
            else:
                groups.add(words[1])
        elif first == "neighbor":
            own.setdefault(words[1], []).append(line)
        elif first == "no" and words[1] == "neighbor" and len(words) > 3:
            own.setdefault(words[2], []).append(line)
        else:
            rest.append(line)
    for peer in own:
        own[peer] = _with_templates(folder, peer, own[peer], templates)
    for group in groups:
        folder.log.cut(own.get(group, []), GROUP)
    unfolded = []
    for peer, lines in own.items():
        if peer in groups:
            continue
        joined = members.get(peer)
        if joined is not None and joined not in groups:
            for line in lines[:1]:
                folder.log.refuse(line, "peer-group", f"the peer group {joined} is not defined")
        inherited = own.get(joined, []) if joined in groups else []
        lines = _merged(folder, peer, lines, inherited)
        lines.sort(key=lambda line: line.words[2:3] != ["remote-as"])
        unfolded += lines
    process.body = rest + unfolded


def kind_of_setting(words: list[str]) -> tuple[str, ...]:
    """What a neighbour's line sets, behind the name of the neighbour: one line of a kind counts."""
    if words and words[-1] in WAYS:
        return words[0], words[-1]
    if words[:1] == ["timers"] and words[1:2] == ["connect"]:
        return "timers", "connect"
    if words[:1] == ["send-community"] and words[1:] in (["extended"], ["large"]):
        return "send-community", words[1]
    return tuple(words[:1])


def _setting(line: Line) -> tuple[str, ...]:
    words = line.words
    return kind_of_setting(words[3:] if words[0] == "no" else words[2:])


def _merged(folder: Folder, peer: str, own: list[Line], inherited: list[Line]) -> list[Line]:
    found = list(own)
    given = {_setting(line) for line in own} if inherited else set()
    for line in inherited:
        if _setting(line) not in given:
            words = line.words
            at = 2 if words[0] == "no" else 1
            found.append(line.with_text(" " + " ".join([*words[:at], peer, *words[at + 1 :]])))
    return found


Key = tuple[str, str]


def _take_templates(folder: Folder, process: Stanza) -> dict[Key, list[Line]]:
    """Takes the templates out of the process: the lines of each, by its kind and name."""
    templates: dict[Key, list[Line]] = {}
    kept = []
    name: Key | None = None
    for line in process.body:
        words = line.words
        if words[:1] == ["template"] and len(words) == 3:
            name = (words[1], words[2])
            templates[name] = []
            folder.log.by(line, TEMPLATE)
        elif words[:1] and words[0] in ENDS:
            name = None
            folder.log.by(line, TEMPLATE)
        elif name is not None and not line.is_blank:
            templates[name].append(line)
            folder.log.by(line, TEMPLATE)
        else:
            kept.append(line)
    process.body = kept
    return templates


def _template_lines(name: Key, templates: dict[Key, list[Line]], seen: tuple[Key, ...] = ()) -> list[Line]:
    """The lines of a template with those that it inherits, its own before theirs."""
    if name in seen:
        return []
    own = [line for line in templates.get(name, []) if line.words[:1] != ["inherit"]]
    given = {kind_of_setting(line.words) for line in own}
    for line in templates.get(name, []):
        if line.words[:1] == ["inherit"]:
            own += [
                found
                for found in _template_lines((line.words[1], line.words[2]), templates, (*seen, name))
                if kind_of_setting(found.words) not in given
            ]
    return own


def _with_templates(folder: Folder, peer: str, lines: list[Line], templates: dict[Key, list[Line]]) -> list[Line]:
    kept = [line for line in lines if line.words[2:3] != ["inherit"]]
    if len(kept) == len(lines):
        return kept
    given = {_setting(line) for line in kept}
    inherited: dict[tuple[str, ...], Line] = {}
    for line in lines:
        if line.words[2:3] == ["inherit"]:
            folder.log.by(line, TEMPLATE)
            key = (line.words[3], line.words[4])
            if key not in templates:
                folder.log.refuse(line, "peer-template", f"the template {line.words[4]} is not defined")
            for found in _template_lines(key, templates):
                kind = kind_of_setting(found.words)
                if kind in inherited and inherited[kind].words != found.words:
                    folder.log.refuse(
                        line,
                        "peer-template",
                        f"two templates of this neighbour give {' '.join(kind)}, and which one counts is by their numbers",
                    )
                if kind not in given:
                    inherited.setdefault(kind, found)
    for found in inherited.values():
        kept.append(
            found.with_text(
                " "
                + (
                    f"no neighbor {peer} {' '.join(found.words[1:])}"
                    if found.words[0] == "no"
                    else f"neighbor {peer} {' '.join(found.words)}"
                )
            )
        )
    return kept
