"""The ways that traffic goes, by what `bonsai-ask F N forwards` says, with the interfaces on the way."""
from __future__ import annotations

from collections import deque
from collections.abc import Collection, Iterator, Mapping

from bonsainet.configs.network import Network

Nexts = Mapping[str, tuple[str, ...] | None]
Pair = tuple[str, str]
Interfaces = Mapping[Pair, list[str]]
Carriers = Mapping[Pair, str]


def interfaces_of(network: Network) -> dict[Pair, list[str]]:
    """For each pair of routers the interfaces of the links over which the first may forward to the second, as
    `Ethernet1 > Ethernet3`: its own, then that of the second. In OSPF these are the links of the least cost at the first
    router, each of which carries traffic. In BGP they are all sessions: which of several carry, hangs on their policies.
    """
    found: dict[Pair, list[tuple[int, str]]] = {}
    for link in network.links:
        for near, far in ((link.low, link.high), (link.high, link.low)):
            cost = near.cost or 0 if network.protocol == "ospf" else 0
            told = f"{near.interface.name} > {far.interface.name}"
            found.setdefault((near.device.name, far.device.name), []).append((cost, told))
    return {pair: [told for cost, told in links if cost == min(links)[0]] for pair, links in found.items()}


def carriers_of(network: Network) -> dict[Pair, str]:
    """For each pair of routers the interfaces over which the first forwards to the second, if it does, in words."""
    pairs = interfaces_of(network)
    if network.protocol == "ospf":
        return {pair: " and ".join(links) for pair, links in pairs.items()}
    return {pair: f"{'one or more of ' * (len(links) > 1)}{', '.join(links)}" for pair, links in pairs.items()}


def reached(nexts: Nexts, start: str) -> Iterator[str]:
    """The routers to whom traffic of a router may come, it first, nearest first."""
    seen, left = {start}, deque([start])
    while left:
        router = left.popleft()
        yield router
        for further in nexts[router] or ():
            if further not in seen:
                seen.add(further)
                left.append(further)


def way_lines(nexts: Nexts, start: str, carriers: Carriers) -> list[str]:
    """A line for each router that traffic of `start` may pass: to whom it forwards, with the interfaces."""
    return [_line(router, nexts[router], carriers) for router in reached(nexts, start)]


def _line(router: str, nexts: tuple[str, ...] | None, carriers: Carriers) -> str:
    if nexts is None:
        return f"  {router} none"
    if not nexts:
        return f"  {router} here"
    return f"  {router} to {', '.join(_hop(router, further, carriers) for further in nexts)}"


def _hop(router: str, further: str, carriers: Carriers) -> str:
    over = carriers.get((router, further))
    return f"{further} ({over})" if over else further


def chain_line(chain: list[str], carriers: Carriers) -> str:
    """A chain of forwarding on one line."""
    hops = [_hop(near, far, carriers) for near, far in zip(chain, chain[1:])]
    return "  " + " to ".join([chain[0], *hops])


def way_to(nexts: Nexts, start: str, ends: Collection[str], avoided: Collection[str] = ()) -> list[str] | None:
    """A shortest chain of forwarding from a router to one of the ends over none of the avoided, if there is one."""
    if start in avoided:
        return None
    before: dict[str, str | None] = {start: None}
    left = deque([start])
    while left:
        router = left.popleft()
        if router in ends:
            return _chain(before, router)
        for further in nexts[router] or ():
            if further not in before and further not in avoided:
                before[further] = router
                left.append(further)
    return None


def _chain(before: Mapping[str, str | None], end: str) -> list[str]:
    chain, router = [], before[end]
    chain.append(end)
    while router is not None:
        chain.append(router)
        router = before[router]
    return chain[::-1]


def longest_way(nexts: Nexts, start: str) -> list[str]:
    """A longest chain of forwarding from a router. In stable labels no chain comes back to a router."""
    order, state = [], {}
    stack = [(start, iter(nexts[start] or ()))]
    state[start] = True
    while stack:
        router, rest = stack[-1]
        further = next(rest, None)
        if further is None:
            order.append(router)
            stack.pop()
        elif further not in state:
            state[further] = True
            stack.append((further, iter(nexts[further] or ())))
    hops: dict[str, int] = {}
    best: dict[str, str | None] = {}
    for router in order:
        found = max((further for further in nexts[router] or ()), key=lambda one: hops[one], default=None)
        best[router] = found
        hops[router] = 0 if found is None else hops[found] + 1
    chain, at = [start], best[start]
    while at is not None:
        chain.append(at)
        at = best[at]
    return chain
