"""Has FRR decide ties by communities and lone numbers, as the model does: a MED on import from the rank of the routes
that were seen.

FRR compares MEDs after preference, length and origin, and before age and router identifiers. A route that was not seen
ranks last.
"""
from __future__ import annotations

import re
from collections.abc import Sequence

from bonsainet.ask.labels import BgpLabel
from bonsainet.configs.profile import community_text

LAST = 4294967294


def with_ties(text: str, ranks: Sequence[Sequence[BgpLabel]]) -> str:
    """The configuration of a router in FRR that prefers, of routes of one preference and length, those of an earlier
    rank."""
    maps = _maps(text)
    used = set(re.findall(r"^  neighbor \S+ route-map (\S+) in$", text, re.MULTILINE))
    copies = [line for name in sorted(used) for line in _calling(name, maps.get(name, []))]
    text = re.sub(r"^(  neighbor \S+ route-map )(\S+) in$", r"\1TIES-\2 in", text, flags=re.MULTILINE)
    for address in re.findall(r"^  neighbor (\S+) next-hop-self$", text, re.MULTILINE):
        if not re.search(rf"^  neighbor {re.escape(address)} route-map \S+ in$", text, re.MULTILINE):
            line = f"  neighbor {address} next-hop-self\n"
            text = text.replace(line, f"{line}  neighbor {address} route-map RANK-TIES in\n")
    added = "".join(f"{line}\n" for line in [*_rank_map(ranks), *copies, "!"])
    at = text.index("router bgp ")
    body = text[at:].replace("\n", "\n bgp always-compare-med\n", 1)
    return text[:at] + added + body


def _maps(text: str) -> dict[str, list[list[str]]]:
    """The entries of each map, each as its lines."""
    found: dict[str, list[list[str]]] = {}
    entry: list[str] | None = None
    for line in text.splitlines():
        if line.startswith("route-map "):
            entry = [line]
            found.setdefault(line.split()[1], []).append(entry)
        elif line.startswith(" ") and entry is not None:
            entry.append(line)
        else:
            entry = None
    return found


def _calling(name: str, entries: list[list[str]]) -> list[str]:
    lines = []
    for head, *body in entries:
        words = head.split()
        lines += [f"route-map TIES-{name} {words[2]} {words[3]}", *body]
        if words[2] == "permit":
            lines.append(" call RANK-TIES")
    return lines


def _rank_map(ranks: Sequence[Sequence[BgpLabel]]) -> list[str]:
    """A map that gives each route the MED of its rank. Routes with communities come first, since nothing matches the
    want of them."""
    lists, entries = [], []
    numbered = sorted(enumerate(ranks, 1), key=lambda item: not item[1][0].communities)
    for place, (rank, routes) in enumerate(numbered, 1):
        paths = dict.fromkeys("_".join(map(str, route.path)) for route in routes)
        lists += [f"bgp as-path access-list RANK-{rank} permit ^{path}$" for path in paths]
        entries += [f"route-map RANK-TIES permit {place}", f" match as-path RANK-{rank}"]
        if routes[0].communities:
            lists.append(
                f"bgp community-list standard RANK-{rank} permit {' '.join(map(community_text, routes[0].communities))}"
            )
            entries.append(f" match community RANK-{rank} exact-match")
        entries.append(f" set metric {rank}")
    return [*lists, *entries, f"route-map RANK-TIES permit {len(ranks) + 1}", f" set metric {LAST}"]
