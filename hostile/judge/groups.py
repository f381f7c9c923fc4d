"""Groups by a naive refinement, and the problem of the groups."""
from __future__ import annotations

import functools

from hostile.judge.problem import Edge, Problem


@functools.lru_cache(200)
def groups(problem: Problem) -> list[list[int]]:
    """The coarsest admissible partition: blocks are split until the members of each have the same acts into each other
    block."""
    count = len(problem.names)
    block: list[object] = [
        ("lone", place) if place in problem.lone else ("starts", problem.initial.get(place)) for place in range(count)
    ]
    while True:
        kinds = [
            (
                block[place],
                frozenset(
                    (edge.act, block[edge.exporter])
                    for edge in problem.edges
                    if edge.importer == place and block[edge.exporter] != block[place]
                ),
            )
            for place in range(count)
        ]
        order = {kind: number for number, kind in enumerate(dict.fromkeys(kinds))}
        finer: list[object] = [order[kind] for kind in kinds]
        if len(set(finer)) == len(set(block)):
            break
        block = finer
    found: dict[object, list[int]] = {}
    for place in range(count):
        found.setdefault(block[place], []).append(place)
    return list(found.values())


def acts_between(problem: Problem, parts: list[list[int]]) -> dict[tuple[int, int], set[object]]:
    """The different acts of edges by which one group imports from another."""
    group = {place: number for number, part in enumerate(parts) for place in part}
    found: dict[tuple[int, int], set[object]] = {}
    for edge in problem.edges:
        pair = group[edge.importer], group[edge.exporter]
        if pair[0] != pair[1]:
            found.setdefault(pair, set()).add(edge.act)
    return found


def links_between(problem: Problem, parts: list[list[int]]) -> int:
    """The links of the compressed network: for each two groups those of the direction that has more acts."""
    acts = acts_between(problem, parts)
    pairs = {tuple(sorted(pair)) for pair in acts}
    return sum(max(len(acts.get((low, high), ())), len(acts.get((high, low), ()))) for low, high in pairs)


def quotient(problem: Problem, parts: list[list[int]]) -> Problem:
    """The problem of the groups."""
    edges = [Edge(u, v, 0, act) for (u, v), acts in acts_between(problem, parts).items() for act in acts]
    initial = {number: problem.initial[part[0]] for number, part in enumerate(parts) if part[0] in problem.initial}
    numbers = [next((problem.numbers[place] for place in part if problem.numbers[place]), 0) for part in parts]
    lone = {number for number, part in enumerate(parts) if part[0] in problem.lone}
    return Problem(
        [problem.names[part[0]] for part in parts],
        numbers,
        problem.protocol,
        initial,
        edges,
        lone,
        problem.sets,
        links_between(problem, parts),
        problem.unnamed,
    )
