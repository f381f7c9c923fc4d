"""Filters of BGP routes: access lists and distribute lists as prefix lists, numbers of entries, community lists."""
from __future__ import annotations

import functools
import re
from collections import defaultdict
from collections.abc import Callable
from ipaddress import IPv4Network

from bonsainet.importing.cleaning import is_free_text
from bonsainet.importing.folder import Dialect, Folder, Source
from bonsainet.importing.rewriting import rewrite
from bonsainet.importing.rule import Rule, rule
from bonsainet.importing.rules import lists
from bonsainet.importing.rules.communities import Communities, spelled, value_of
from bonsainet.importing.rules.neighbors import all_prefixes
from bonsainet.importing.rules.options import Options
from bonsainet.importing.rules.regex import Unread, machine_of
from bonsainet.configs.text import Line, Place, Stanza

ACCESS = rule(
    "access-list",
    "the access list and this prefix list answer alike for every prefix that occurs in the folder",
    "Cisco IOS BGP, `neighbor distribute-list`, `match ip address`; FRR user guide, filtering",
)
NUMBERED = rule(
    "prefix-list-number",
    "an entry without a number comes 5 after the last one, on FRR at the next multiple of 5",
    "Cisco IOS BGP, `ip prefix-list`; FRR user guide, filtering",
)
COUNTED = rule(
    "list-numbers", "the line says only that numbers are shown", "Cisco IOS BGP, `ip prefix-list sequence-number`"
)
COMMUNITY = rule(
    "community-list-number",
    "lines of a community list are tried in the order of their numbers",
    "Cisco IOS BGP, `ip community-list`; FRR user guide, BGP community lists",
)
EXPANDED = rule(
    "community-list-expanded",
    "the expression looks at one community at a time, and these are the communities of the folder in which it is found",
    "Cisco IOS BGP, `ip community-list`, regular expressions",
)
EVERY_PEER = rule(
    "distribute-list", "a list of the process filters the routes of each neighbour", "Cisco IOS BGP, `distribute-list`"
)
UNUSED = rule(
    "list-unused", "nothing names this list or map, so it has no bearing", "Cisco IOS BGP; FRR user guide, filtering"
)
SPENT = rule(
    "list-spent",
    "a rule wrote out which routes this map lets through, and nothing else names it, or the lists that it names",
    "Cisco IOS BGP, `redistribute`, `network route-map`",
)
NameFor = Callable[[str, Line], str | None]
WHOLE = re.compile(r"_(\d+:\d+)_")
# An expression in which only `_` at its ends can match a blank, so that it is found inside of one community.
ALONE = re.compile(r"_?(?:[0-9:|()*+?a-zA-Z-]|\[[0-9-]+\])+_?")


def prefix_list_forms(folder: Folder, _options: Options) -> None:
    """Numbers entries of prefix lists that have no number, and cuts lines that only show numbers."""
    for router in folder.routers:
        if not any(router.with_head("ip", "prefix-list")) and not any(router.with_head("no", "ip", "prefix-list")):
            continue
        last: dict[str, int] = defaultdict(int)
        kept = []
        for stanza in router.stanzas:
            words = stanza.head.words
            if words in (["ip", "prefix-list", "sequence-number"], ["no", "ip", "prefix-list", "sequence-number"]):
                folder.log.cut(stanza.lines, COUNTED)
                continue
            if words[:2] == ["ip", "prefix-list"] and len(words) > 4:
                if words[3] in ("permit", "deny"):
                    folder.log.by(stanza.head, NUMBERED)
                    stanza.head = stanza.head.with_text(
                        " ".join([*words[:3], "seq", str(_next_number(router, last[words[2]])), *words[3:]])
                    )
                words = stanza.head.words
                if words[3] == "seq" and words[4].isdigit():
                    last[words[2]] = max(last[words[2]], int(words[4]))
            kept.append(stanza)
        router.stanzas = kept


def _next_number(router: Source, last: int) -> int:
    """The number of an entry without one: 5 behind the last; on FRR the next multiple of 5."""
    return last // 5 * 5 + 5 if router.dialect is Dialect.FRR else last + 5


def community_lists(folder: Folder, _options: Options) -> None:
    """Writes community lists with numbers, and expanded ones that look at communities one by one, as standard lists."""
    held = {word: name for name, word in folder.held.items()}
    used = sorted(_communities(folder), key=value_of)
    for router in folder.routers:
        if not any(router.with_head("ip", "community-list")):
            continue
        _order_by_number(folder, router)
        kept: list[Stanza] = []
        for stanza in router.stanzas:
            made = _standard(router, stanza, used, held) if stanza.starts("ip", "community-list") else None
            if made is None:
                kept.append(stanza)
                continue
            folder.log.cut(stanza.lines, EXPANDED)
            kept += [Stanza(stanza.head.with_text(text)) for text in made]
        router.stanzas = kept


def _communities(folder: Folder) -> Communities:
    """All communities that routes of the folder can carry: those that some line sets."""
    found = {
        found
        for router in folder.routers
        for stanza in router.with_head("route-map")
        for line in stanza.body
        if line.words[:2] == ["set", "community"]
        for word in line.words[2:]
        if (found := spelled(word)) and ":" in found
    }
    return frozenset(
        found | {word for router in folder.routers for held, _ in router.carried.values() for word in held}
    )


def _is_expanded(words: list[str]) -> bool:
    return words[2:3] == ["expanded"] or (len(words) > 2 and words[2].isdigit() and 100 <= int(words[2]) <= 500)


def _standard(router: Source, stanza: Stanza, used: list[str], held: dict[str, str]) -> list[str] | None:
    """The lines of a standard list that answer as a line of an expanded one does; none where it is none, or where an
    expression looks at several communities at once, or exact-match names the list."""
    words = stanza.head.words
    name, rest = (words[3], words[4:]) if words[2:3] == ["expanded"] and len(words) > 4 else (words[2], words[3:])
    if not _is_expanded(words) or len(rest) < 2 or _is_exact(router, name):
        return None
    text = " ".join(rest[1:])
    whole = WHOLE.fullmatch(text)
    core = re.sub(r"^(?:\.\*)+|(?:\.\*)+$", "", text)
    if not whole and not ALONE.fullmatch(core):
        return None
    try:
        machine = machine_of(core)
    except Unread:
        return None
    found = [word for word in used if machine.searches(held.get(word, word))]
    found = [whole[1]] if whole and not found else found
    act = rest[0] if found else "deny"
    return [f"ip community-list standard {name} {act} {word}" for word in found or ["1:1"]]


def _is_exact(router: Source, name: str) -> bool:
    """Whether a match that asks for the exact communities names a list."""
    return any(
        line.words[:2] == ["match", "community"] and line.words[-1] == "exact-match" and name in line.words[2:-1]
        for stanza in router.with_head("route-map")
        for line in stanza.body
    )


def _order_by_number(folder: Folder, router: Source) -> None:
    at = [
        number
        for number, stanza in enumerate(router.stanzas)
        if stanza.starts("ip", "community-list") and _number(stanza) is not None
    ]
    found = [router.stanzas[number] for number in at]
    found.sort(key=lambda stanza: (stanza.head.words[3], _number(stanza) or 0))
    for number, stanza in zip(at, found):
        words = stanza.head.words
        seq = words.index("seq")
        folder.log.by(stanza.head, COMMUNITY)
        stanza.head = stanza.head.with_text(" ".join(words[:seq] + words[seq + 2 :]))
        router.stanzas[number] = stanza


def _number(stanza: Stanza) -> int | None:
    """The number behind `seq` in a line of a list, or none."""
    words = stanza.head.words
    after = words[words.index("seq") + 1 :] if "seq" in words else []
    return int(after[0]) if after and after[0].isdigit() else None


def access_lists(folder: Folder, _options: Options) -> None:
    """Writes distribute lists, and matches of access lists, as prefix lists."""
    prefixes = functools.cache(lambda: sorted(all_prefixes(folder)))
    for router in folder.routers:
        made: dict[str, list[Stanza]] = {}

        def name_for(
            name: str, line: Line, router: Source = router, made: dict[str, list[Stanza]] = made
        ) -> str | None:
            if name not in made:
                aces = lists.access_list(router, name)
                if aces is None:
                    if lists.is_defined_access_list(router, name):
                        folder.log.refuse(
                            line, "access-list", f"the access list {name} has an entry that is no filter of prefixes"
                        )
                    return None
                made[name] = _prefix_list(folder, f"ACCESS-{name}", aces, prefixes(), router)
            return f"ACCESS-{name}"

        process = router.process("bgp")
        if process:
            _every_peer(folder, process)
            rewrite(process, folder.log, lambda line: _distributed(line, name_for), ("neighbor",))
        for stanza in router.with_head("route-map"):
            rewrite(stanza, folder.log, lambda line: _matched(line, name_for), ("match",))
        for stanzas in made.values():
            router.stanzas += stanzas


def _distributed(line: Line, name_for: NameFor) -> tuple[Rule, list[str]] | None:
    words = line.words
    if words[0] != "neighbor" or words[2:3] != ["distribute-list"] or len(words) != 5:
        return None
    name = name_for(words[3], line)
    return (ACCESS, [f"neighbor {words[1]} prefix-list {name} {words[4]}"]) if name else None


def _matched(line: Line, name_for: NameFor) -> tuple[Rule, list[str]] | None:
    words = line.words
    if words[:3] != ["match", "ip", "address"] or words[3:4] in ([], ["prefix-list"], ["prefix-len"]):
        return None
    names = [name for word in words[3:] if (name := name_for(word, line))]
    return (ACCESS, [f"match ip address prefix-list {' '.join(names)}"]) if len(names) == len(words[3:]) else None


def _prefix_list(
    folder: Folder, name: str, aces: list[lists.Ace], prefixes: list[IPv4Network], router: Source
) -> list[Stanza]:
    """A prefix list that answers as an access list does, entry by entry where that is so for all prefixes, else prefix
    by prefix."""
    ends = [("permit" if ace.is_permit else "deny", ace.as_prefix, ace.line) for ace in aces]
    stanzas = [
        Stanza(line.with_text(f"ip prefix-list {name} seq {5 * number} {act} {end}"))
        for number, (act, end, line) in enumerate(ends, 1)
        if end
    ]
    attempt = Source("", stanzas)
    rungs = lists.prefix_list(attempt, name) if len(stanzas) == len(aces) else None
    if rungs is None or any(
        lists.prefix_permits(rungs, prefix) != lists.access_permits(aces, prefix) for prefix in prefixes
    ):
        permitted = [prefix for prefix in prefixes if lists.access_permits(aces, prefix)]
        place = aces[0].line if aces else Line("", Place(router.file, 0))
        stanzas = [
            Stanza(place.with_text(f"ip prefix-list {name} seq {5 * number} permit {prefix}"))
            for number, prefix in enumerate(permitted, 1)
        ]
        stanzas = stanzas or [Stanza(place.with_text(f"ip prefix-list {name} seq 5 deny 0.0.0.0/0 le 32"))]
    for stanza in stanzas:
        if folder.raw.get(stanza.head.place):
            folder.log.by(stanza.head, ACCESS)
    return stanzas


def _every_peer(folder: Folder, process: Stanza) -> None:
    """Writes a distribute list of the process as one of each neighbour, where none has a list of its own."""
    for line in [
        line for line in process.body if line.words[:1] == ["distribute-list"] and line.words[-1] in ("in", "out")
    ]:
        words = line.words
        way = words[-1]
        kind, name = ("prefix-list", words[2]) if words[1] == "prefix" else ("distribute-list", words[1])
        peers = [
            found.words[1]
            for found in process.body
            if found.words[:1] == ["neighbor"] and found.words[2:3] == ["remote-as"]
        ]
        own = [
            found
            for found in process.body
            if found.words[:1] == ["neighbor"]
            and found.words[2:3] in (["prefix-list"], ["distribute-list"])
            and found.words[-1] == way
        ]
        if own or len(words) != (4 if words[1] == "prefix" else 3):
            folder.log.refuse(
                line,
                "distribute-list",
                "a neighbour has a list of its own too, and the profile has one for each neighbour",
            )
            continue
        folder.log.by(line, EVERY_PEER)
        process.body.remove(line)
        process.body += [line.with_text(f" neighbor {peer} {kind} {name} {way}") for peer in peers]


def leave_out_unused(folder: Folder, router: Source, stanza: Stanza, _line: Line) -> bool:
    """Leaves out a list or map that the program refuses and nothing names, and says whether it did."""
    name = stanza.head.words[1] if stanza.starts("route-map") and len(stanza.head.words) > 1 else _list_name(stanza)
    if name is None or _is_named(router, name):
        return False
    folder.log.cut(stanza.lines, UNUSED)
    router.stanzas.remove(stanza)
    return True


def leave_out_spent(folder: Folder, router: Source, name: str) -> None:
    """Leaves out a map that a rule wrote out, and lists that it alone named."""
    entries = [] if _is_named(router, name) else list(router.with_head("route-map", name))
    named = {word for stanza in entries for line in stanza.body for word in line.words}
    _cut_stanzas(folder, router, entries)
    lists_named = [stanza for stanza in router.stanzas if _list_name(stanza) in named]
    _cut_stanzas(folder, router, [stanza for stanza in lists_named if not _is_named(router, _list_name(stanza) or "")])


def _cut_stanzas(folder: Folder, router: Source, stanzas: list[Stanza]) -> None:
    for stanza in stanzas:
        folder.log.cut(stanza.lines, SPENT)
    router.stanzas = [stanza for stanza in router.stanzas if all(stanza is not found for found in stanzas)]


def _is_named(router: Source, name: str) -> bool:
    """Whether something that is in use names a list or map: a process, an interface, or a map that is in use itself.
    Comments and texts for people name nothing."""
    used: set[str] = set()
    waiting = [stanza for stanza in router.stanzas if not _is_list(stanza)]
    while waiting:
        lines = [line for stanza in waiting for line in stanza.lines if not is_free_text(line)]
        fresh = {word for line in lines for word in line.words} - used
        used |= fresh
        waiting = [
            stanza
            for stanza in router.with_head("route-map")
            if len(stanza.head.words) > 1 and stanza.head.words[1] in fresh
        ]
    return name in used


def _is_list(stanza: Stanza) -> bool:
    return stanza.starts("route-map") or _list_name(stanza) is not None or stanza.starts("ip", "access-list")


def _list_name(stanza: Stanza) -> str | None:
    words = stanza.head.words
    if words[:2] in (
        ["ip", "prefix-list"],
        ["ip", "as-path"],
        ["ip", "community-list"],
        ["ip", "extcommunity-list"],
        ["ip", "large-community-list"],
        ["ip", "policy-list"],
    ):
        at = 3 if words[2:3] in (["standard"], ["expanded"], ["access-list"]) else 2
        return words[at] if len(words) > at else None
    return words[1] if words[:1] == ["access-list"] and len(words) > 1 else None
