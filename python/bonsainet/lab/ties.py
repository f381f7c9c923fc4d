"""A lab in which FRR decides ties as the model does: it runs again with the ranks of the routes that were seen, until
no tie is left."""
from __future__ import annotations

import copy
from collections import defaultdict

from bonsainet.exporting.frr_ties import with_ties
from bonsainet.lab.held import accepted
from bonsainet.lab.lab import Case, Rested, Verdict, Waiting, judge, run_lab
from bonsainet.ask.labels import BgpLabel
from bonsainet.ask.program import Program

MOST_ROUNDS = 6


def run_with_ties(program: Program, case: Case, rested: Rested, waiting: Waiting) -> tuple[Rested, Verdict]:
    """Runs a BGP case again from what `rested` saw, as long as a tie is decided otherwise than in the model."""
    seen: dict[str, set[BgpLabel]] = defaultdict(set)
    verdict = judge(program, case, rested)
    for _ in range(MOST_ROUNDS):
        if case.network.protocol != "bgp":
            break
        for name, held in rested.held.items():
            for routes in held.values():
                seen[name].update(accepted(case.network.by_name[name], routes))
        exported = copy.copy(rested.exported)
        exported.files = dict(plain_files(rested))
        for name, routes in seen.items():
            ranks = ranks_of(routes, case.lone)
            if len(ranks) > 1:
                exported.files[f"{name}.conf"] = with_ties(exported.files[f"{name}.conf"], ranks)
        before = rested.plain or rested.exported.files
        rested = run_lab(case, waiting, exported)
        rested.plain = before
        verdict = judge(program, case, rested)
        if verdict.tie is None:
            break
    return rested, verdict


def plain_files(rested: Rested) -> dict[str, str]:
    """The configurations without any ranks."""
    return rested.plain or rested.exported.files


def ranks_of(routes: set[BgpLabel], lone: frozenset[int]) -> list[list[BgpLabel]]:
    """Routes by their third and fourth key, the better first. Local routes have no path and no rank."""
    groups: dict[tuple, list[BgpLabel]] = defaultdict(list)
    for route in sorted(routes, key=lambda route: (route.path, route.communities)):
        if route.path:
            groups[route.key(lone)[2:]].append(route)
    return [groups[key] for key in sorted(groups)]
