"""Weights: without internal BGP neither a weight nor a preference leaves a router, so one number stands for both."""
from __future__ import annotations

from collections import defaultdict

from bonsainet.importing.folder import Folder, Source
from bonsainet.importing.rewriting import rewrite
from bonsainet.importing.rule import Rule, rule
from bonsainet.importing.rules.options import Options
from bonsainet.importing.rules.outcomes import entries_of
from bonsainet.importing.rules.outgoing import copied, fresh_name, map_of, peers
from bonsainet.configs.text import Line, Stanza

WEIGHT = rule(
    "weight",
    "neither a weight nor a preference leaves a router over external sessions, so one preference stands for each pair of the two, in their order",
    "RFC 4271 section 5.1.5; Cisco IOS BGP, `neighbor weight`, `set weight`; FRR user guide, BGP route selection",
)
REFUSED = "weight"
OWN = 32_768
DEFAULT = 100
LARGEST = 4_294_967_295
Pair = tuple[int, int]


def preferences(folder: Folder, _options: Options) -> None:
    """Writes weights of neighbours and of in maps as preferences."""
    for router in folder.routers:
        process = router.process("bgp")
        if process and any(_weighs(router, process)):
            _write(folder, router, process)


def _weighs(router: Source, process: Stanza) -> list[Line]:
    """The lines that give a weight: those of neighbours, and those of in maps."""
    found = [line for line in process.by_word.get("neighbor", ()) if line.words[2:3] == ["weight"]]
    inside = [
        (stanza.head.words[1], line)
        for stanza in router.with_head("route-map")
        for line in stanza.by_word.get("set", ())
        if line.words[1:2] == ["weight"] and stanza.head.words[1:2]
    ]
    if inside:
        names = {map_of(process, peer, "in") for peer in peers(process)}
        found += [line for name, line in inside if name in names]
    return found


def _write(folder: Folder, router: Source, process: Stanza) -> None:
    lines = _weighs(router, process)
    bad = next((line for line in lines if not line.words[-1].isdigit() or int(line.words[-1]) > 65_535), None)
    originates = any(line.words[:1] == ["network"] for line in process.body)
    heavy = next((line for line in lines if not bad and originates and int(line.words[-1]) >= OWN), None)
    uses = _uses(router, process)
    if bad or heavy or uses is None:
        told = (
            f"a router's own routes have the weight {OWN}, and here a route of a neighbour can win over one"
            if heavy
            else "a weight, or the preference that stands beside it, is no number, or its map is not defined"
        )
        folder.log.refuse(bad or heavy or lines[0], REFUSED, told)
        return
    default = _default(process)
    numbers = _numbers({pair for pairs in uses.values() for pair in pairs} | {(0, default)}, default)
    is_one = len({weight for pairs in uses.values() for weight, _ in pairs}) == 1
    if not is_one:
        _write_maps(folder, router, process, uses, numbers, default)
        router.preferences = {number: pair[1] for pair, number in numbers.items()}
        told = ", ".join(f"{number} for weight {pair[0]}, preference {pair[1]}" for pair, number in numbers.items())
        folder.log.remarks.append(f"{router.name}: its preferences stand for weights too: {told}")
    for stanza in [process, *router.with_head("route-map")]:
        rewrite(
            stanza,
            folder.log,
            lambda line: (WEIGHT, [])
            if any(line.place == one.place for one in lines) and "weight" in line.words
            else None,
        )


def _default(process: Stanza) -> int:
    found = (line.words for line in process.body if line.words[:3] == ["bgp", "default", "local-preference"])
    words: list[str] = next(found, [])
    return int(words[3]) if words[3:] and words[3].isdigit() else DEFAULT


def _uses(router: Source, process: Stanza) -> dict[tuple[str | None, int], list[Pair]] | None:
    """For each in map with each weight of a neighbour that has it, the pairs that it gives; none where one is not
    known."""
    found: dict[tuple[str | None, int], list[Pair]] = {}
    default = _default(process)
    for peer in peers(process):
        line = next((one for one in process.body if one.words[:3] == ["neighbor", peer, "weight"]), None)
        weight = int(line.words[3]) if line and line.words[3:] and line.words[3].isdigit() else 0
        name = map_of(process, peer, "in")
        entries = entries_of(router, name) if name else []
        if name and not entries:
            return None
        pairs = [_pair(entry, weight, default) for entry in entries if entry.head.words[2] == "permit"]
        if None in pairs:
            return None
        found[name, weight] = [pair for pair in pairs if pair] if name else [(weight, default)]
    return found


def _pair(entry: Stanza, weight: int, default: int) -> Pair | None:
    values = {"weight": weight, "local-preference": default}
    for line in entry.body:
        if line.words[:1] == ["set"] and line.words[1:2] and line.words[1] in values:
            if len(line.words) != 3 or not line.words[2].isdigit():
                return None
            values[line.words[1]] = int(line.words[2])
    return values["weight"], values["local-preference"]


def _numbers(pairs: set[Pair], default: int) -> dict[Pair, int]:
    """A preference for each pair, in their order; the default keeps its own where there is room."""
    order = sorted(pairs)
    least = default - order.index((0, default))
    if least < 0 or least + len(order) > LARGEST:
        least = DEFAULT
    return {pair: least + at for at, pair in enumerate(order)}


def _write_maps(
    folder: Folder,
    router: Source,
    process: Stanza,
    uses: dict[tuple[str | None, int], list[Pair]],
    numbers: dict[Pair, int],
    default: int,
) -> None:
    by_use: dict[tuple[str | None, int], list[str]] = defaultdict(list)
    for peer in peers(process):
        line = next((one for one in process.body if one.words[:3] == ["neighbor", peer, "weight"]), None)
        by_use[map_of(process, peer, "in"), int(line.words[3]) if line else 0].append(peer)
    written: set[str] = set()
    for (name, weight), those in by_use.items():
        if name is None:
            _give_map(folder, router, process, those, numbers[weight, default], default)
            continue
        lines = [
            line
            for line in process.body
            if line.words[:1] == ["neighbor"] and line.words[2:] == ["route-map", name, "in"] and line.words[1] in those
        ]
        entries = entries_of(router, name)
        elsewhere = any(line.words[2:4] == ["route-map", name] and line not in lines for line in process.body)
        if elsewhere or name in written:
            _, entries = copied(folder, router, process, WEIGHT, lines, entries)
        written.add(name)
        for entry in entries:
            if entry.head.words[2] == "permit":
                _set_preference(folder, entry, weight, numbers, default)


def _give_map(folder: Folder, router: Source, process: Stanza, names: list[str], number: int, default: int) -> None:
    if number == default:
        return
    name = fresh_name(router, "WEIGHT")
    found = peers(process)
    for peer in names:
        folder.log.by(found[peer], WEIGHT)
        process.body.append(found[peer].with_text(f" neighbor {peer} route-map {name} in"))
    line = found[names[0]]
    router.stanzas.append(
        Stanza(line.with_text(f"route-map {name} permit 10"), [line.with_text(f" set local-preference {number}")])
    )


def _set_preference(folder: Folder, entry: Stanza, weight: int, numbers: dict[Pair, int], default: int) -> None:
    pair = _pair(entry, weight, default)
    number = numbers[pair] if pair else default
    own = next((line for line in entry.body if line.words[:2] == ["set", "local-preference"]), None)
    if own is None and number == default:
        return

    def changed(line: Line) -> tuple[Rule, list[str]] | None:
        return (WEIGHT, [f"set local-preference {number}"]) if line is own else None

    rewrite(entry, folder.log, changed)
    if own is None:
        folder.log.by(entry.head, WEIGHT)
        entry.body.append(entry.head.with_text(f" set local-preference {number}"))
