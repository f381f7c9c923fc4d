"""`canon F N`: which edges have no canonical lists, and whether a text has lists that depend on what an edge does
alone."""
from __future__ import annotations

from hostile.judge import answers, problem
from hostile.judge.network import Entry, Neighbor, Router


def looks_at_others(whole: problem.Problem, act: problem.Act) -> bool:
    """Whether what becomes of the communities that the text names depends on whether others are carried too."""
    if whole.protocol != "bgp":
        return False
    results = dict(zip(whole.sets, act))
    return any(
        _of_named(whole, results[carried]) != _of_named(whole, results[carried | {whole.unnamed}])
        for carried in whole.sets
        if whole.unnamed not in carried
    )


def _of_named(whole: problem.Problem, result: tuple[int, frozenset[int], int] | None) -> object:
    return result and (result[0], result[1] - {whole.unnamed}, result[2])


def refusals(whole: problem.Problem) -> list[str]:
    """The refusal that must come, if one must: of the first edge that has no canonical lists, by importer, exporter and
    link. So few communities are judged that no list is too long."""
    without = [edge for edge in whole.edges if looks_at_others(whole, edge.act)]
    if not without:
        return []
    first = min(without, key=lambda edge: (edge.importer, edge.exporter, edge.link))
    return [f"refused: NoCanon {whole.names[first.importer]} {whole.names[first.exporter]}"]


def canon_fault(net: problem.Network, number: int, text: bytes) -> str | None:
    """Why a text is not the compressed network of a class with canonical lists, or None."""
    fault = answers.compress_fault(net, number, text)
    if fault or net.protocol != "bgp":
        return fault
    small = answers.read(text)
    assert isinstance(small, problem.Network), "compress_fault has read it"
    below = next(one for one in small.classes if set(net.classes[number - 1].prefixes) <= set(one.prefixes))
    made = problem.problem(small, below, problem.named(net.routers) | problem.named(small.routers))
    lines: dict[problem.Act, object] = {}
    for edge in made.edges:
        low, _, one, two = small.links[edge.link]
        near, far = (one, two) if edge.importer == low else (two, one)
        written = _written(small.routers[edge.importer], near, "in"), _written(small.routers[edge.exporter], far, "out")
        if lines.setdefault(edge.act, written) != written:
            return f"the lines by which {made.names[edge.importer]} imports from {made.names[edge.exporter]} are not those of an edge that does the same"
    return None


def _written(router: Router, line: Neighbor, way: str) -> object:
    """The lists and maps of a neighbour in one direction, without their names and the number that prepending
    repeats."""
    list_name, map_name = line.lists.get(way), line.maps.get(way)
    listed = router.prefix_lists[list_name] if list_name else None
    mapped = (
        [(number, _entry(router, entry)) for number, entry in sorted(router.maps[map_name].items())]
        if map_name
        else None
    )
    return line.sends or way == "in", listed, mapped


def _entry(router: Router, entry: Entry) -> object:
    def lines_of(name: str) -> object:
        return [(permits, named) for permits, named, _ in router.community_lists[name]]

    matched = [lines_of(name) for name in entry.community_lists or ()]
    prefixes = [router.prefix_lists[name] for name in entry.prefix_lists or ()]
    deleted = lines_of(entry.deletes) if entry.deletes else None
    return entry.permits, matched, entry.exact, prefixes, entry.preference, deleted, entry.change, len(entry.prepends)
