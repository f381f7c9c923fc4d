"""Forms of the lines of lists and route maps."""
from __future__ import annotations

from hostile.judge import words
from hostile.judge.network import Entry, Refused, Router
from hostile.judge.router_forms import once

MOST_NAMED = 32
MOST_PREPENDED = 10


def prefix_list(router: Router, rest: list[str], line: int) -> None:
    """`ip prefix-list` without these two words."""
    match rest:
        case [name, "seq", word, "permit" | "deny" as act, base, *options] if words.list_name(name):
            seq, prefix = words.number(word, 1), words.prefix(base)
            if seq is None or prefix is None:
                raise Refused(line, "BadForm")
            least, most = _lengths(options, prefix[1], line)
            entries = router.prefix_lists.setdefault(name, {})
            once(seq not in entries, line)
            entries[seq] = (act == "permit", prefix, least, most)
        case _:
            raise Refused(line, "BadForm")


def _lengths(options: list[str], length: int, line: int) -> tuple[int, int]:
    least: int | None
    most: int | None
    match options:
        case []:
            return length, length
        case ["ge", low]:
            least, most = words.number(low, length, 32), 32
        case ["le", high]:
            least, most = length, words.number(high, length, 32)
        case ["ge", low, "le", high]:
            least, most = words.number(low, length, 32), words.number(high, length, 32)
        case _:
            raise Refused(line, "BadForm")
    if least is None or most is None or least > most:
        raise Refused(line, "BadForm")
    return least, most


def community_list(router: Router, rest: list[str], line: int) -> None:
    """`ip community-list` without these two words."""
    match rest:
        case ["standard", name, "permit" | "deny" as act, *named] if words.list_name(name):
            pass
        case [name, "permit" | "deny" as act, *named] if words.number(name, 1, 99) is not None:
            pass
        case _:
            raise Refused(line, "BadForm")
    values = communities(named, line)
    router.community_lists.setdefault(name, []).append((act == "permit", values, line))
    router.named += [(value, line) for value in values]


def communities(named: list[str], line: int) -> frozenset[int]:
    """1 to 32 communities, each named once; WellKnown where they fit except for a well-known one."""
    values = words.all_given(words.community(word) for word in named)
    if (
        not 1 <= len(named) <= MOST_NAMED
        or values is None
        or len({words.community_key(word) for word in named}) < len(named)
    ):
        raise Refused(line, "BadForm")
    if words.WELL_KNOWN in values:
        raise Refused(line, "WellKnown")
    return frozenset(values)


def entry_line(router: Router, entry: Entry, found: list[str], line: int) -> None:
    """A known line of an entry of a route map."""
    match found:
        case ["match", "ip", "address", "prefix-list", *names]:
            _names(names, line)
            once(entry.prefix_lists is None, line)
            entry.prefix_lists = names
            router.uses += [("prefix-list", name, line) for name in names]
        case ["match", "community", *names]:
            exact = bool(names) and names[-1] == "exact-match"
            names = names[:-1] if exact else names
            _names(names, line)
            once(entry.community_lists is None, line)
            entry.community_lists, entry.exact = names, exact
            router.uses += [("community-list", name, line) for name in names]
        case ["set", "local-preference", word] if (value := words.number(word)) is not None:
            once(entry.preference is None, line)
            entry.preference = value
        case ["set", "community", "none"]:
            once(entry.change is None, line)
            entry.change = ("replace", frozenset())
        case ["set", "community", *named]:
            adds = bool(named) and named[-1] == "additive"
            changed = communities(named[:-1] if adds else named, line)
            once(entry.change is None, line)
            entry.change = ("add" if adds else "replace", changed)
            router.named += [(value, line) for value in changed]
        case ["set", "comm-list", name, "delete"] if words.list_name(name):
            once(entry.deletes is None, line)
            entry.deletes = name
            router.uses.append(("delete", name, line))
        case ["set", "as-path", "prepend", *numbers]:
            values = words.all_given(words.number(word, 1) for word in numbers)
            if values is None or not 1 <= len(values) <= MOST_PREPENDED:
                raise Refused(line, "BadForm")
            once(not entry.prepends, line)
            entry.prepends = values
            router.prepends.append((values, line))
        case _:
            raise Refused(line, "BadForm")


def _names(names: list[str], line: int) -> None:
    if not 1 <= len(names) <= MOST_NAMED or len(set(names)) < len(names) or not all(map(words.list_name, names)):
        raise Refused(line, "BadForm")
