"""What the commands must answer, and where an answer has several forms, whether it is one of them."""
from __future__ import annotations

import dataclasses

from hostile.judge import groups, problem, reading
from hostile.judge.network import Refused
from hostile.judge.words import cut, dotted

POOL = cut(100 << 24 | 64 << 16, 10)
NAMED_AT_MOST = 7


@dataclasses.dataclass(frozen=True)
class Expected:
    """A status with its line on standard error, and the output where there is one form of it."""

    status: int
    reason: str = ""
    out: str | None = None


def read(text: bytes) -> problem.Network | Expected:
    """The network of a text, or its refusal."""
    if len(text) > 16_777_216:
        return Expected(1, "refused: FileTooLong", "")
    try:
        return problem.network(reading.read(text))
    except Refused as refused:
        return Expected(1, f"refused: {refused}", "")


def has_many_communities(net: problem.Network) -> bool:
    """Whether a network names too many communities for acts to be listed over all their sets."""
    return net.protocol == "bgp" and len(problem.named(net.routers)) > NAMED_AT_MOST


def classes(net: problem.Network) -> str:
    """`classes F`."""
    rows = []
    for number, one in enumerate(net.classes, 1):
        origins = [
            net.routers[place].name + (f":{start}" if net.protocol == "ospf" else "")
            for place, start in sorted(one.origins.items())
        ]
        rows.append(
            f"class {number} prefixes {' '.join(f'{dotted(base)}/{length}' for base, length in one.prefixes)} origins {' '.join(origins)}\n"
        )
    return "".join(rows)


def group_lines(whole: problem.Problem, parts: list[list[int]]) -> str:
    """`groups F N`."""
    rows = []
    for number, part in enumerate(parts, 1):
        mark = " origin" if part[0] in whole.initial else " lone" if part[0] in whole.lone else ""
        rows.append(f"group {number}{mark}: {' '.join(whole.names[place] for place in part)}\n")
    return "".join(rows)


def count_line(number: int, whole: problem.Problem, parts: list[list[int]]) -> str:
    """A class of `summary F`."""
    return f"class {number}: {len(whole.names)} routers {whole.link_count} links {len(parts)} groups {groups.links_between(whole, parts)} links\n"


def summary(net: problem.Network) -> str:
    """`summary F`."""
    found = [problem.problem(net, one) for one in net.classes]
    return "".join(count_line(number, whole, groups.groups(whole)) for number, whole in enumerate(found, 1))


def report(net: problem.Network, number: int) -> str:
    """`report F N`."""
    whole = problem.problem(net, net.classes[number - 1])
    parts = groups.groups(whole)
    tail = "".join(f"unmatched {name} {dotted(address)}\n" for name, address in net.unmatched)
    return count_line(number, whole, parts) + group_lines(whole, parts) + tail


def pool_line(net: problem.Network, number: int) -> int | None:
    """The line of the first interface with a prefix of the class that meets the pool of `compress`."""
    one = net.classes[number - 1]
    for base, length in one.prefixes:
        short = min(length, POOL[1])
        if cut(base, short) == cut(POOL[0], short):
            ports = [port for place in one.origins for port in net.routers[place].ups if port.subnet == (base, length)]
            return min(port.line for port in ports)
    return None


def compress_fault(net: problem.Network, number: int, text: bytes) -> str | None:
    """Why a text is not the compressed network of a class, or None."""
    small = read(text)
    if isinstance(small, Expected):
        return f"it is {small.reason}"
    one = net.classes[number - 1]
    below = [other for other in small.classes if set(one.prefixes) <= set(other.prefixes)]
    if len(below) != 1 or small.protocol != net.protocol:
        return "no class of it has the prefixes"
    values = problem.named(net.routers) | problem.named(small.routers)
    whole = problem.problem(net, one, values)
    parts = groups.groups(whole)
    made = problem.problem(small, below[0], values)
    if [router.notes for router in small.routers] != [[whole.names[place] for place in part] for part in parts]:
        return "its members are not the groups"
    model = groups.quotient(whole, parts)
    if (made.names, made.initial, made.lone) != (model.names, model.initial, model.lone):
        return "names, originators or lone routers differ"
    alone = [[place] for place in range(len(made.names))]
    if groups.acts_between(made, alone) != groups.acts_between(model, alone):
        return "the acts between groups differ"
    if made.link_count != model.link_count:
        return f"it has {made.link_count} links, and the groups {model.link_count}"
    if net.protocol == "bgp" and any(
        mine != other for mine, other, part in zip(made.numbers, model.numbers, parts) if other and mine
    ):
        return "AS numbers differ"
    return None
