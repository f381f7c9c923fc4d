"""Every import compared: the route that a router took from each neighbour against the model's candidate, and not the
chosen route alone.

The program is asked. A router stands first in a text in which it has one neighbour, and its label is the route that it
took from that one. `check` names the first router that breaks stability, so it names this one exactly where its label
is not the one candidate.
"""
from __future__ import annotations

from collections.abc import Iterator

from bonsainet.lab.held import route_of
from bonsainet.lab.lab import Case, Rested
from bonsainet.ask.labels import BgpLabel, Label, solution_text
from bonsainet.configs.network import End
from bonsainet.ask.program import NotAnswered, Program, Status
from bonsainet.configs.text import Router, Stanza, read_text, text_of

MOST_LINKS = 300


def imports_of(case: Case, rested: Rested, prefix: str) -> Iterator[tuple[End, End, Label]]:
    """Each importer that does not originate the class, with the exporter and the route that it took from it, or
    none."""
    origins = {name for name, _ in case.of_class.origins}
    for link in case.network.links:
        for near, far in ((link.low, link.high), (link.high, link.low)):
            if near.device.name not in origins:
                yield near, far, _taken(near, far, rested.held.get(near.device.name, {}).get(prefix, []))


def _taken(near: End, far: End, told: list) -> BgpLabel | None:
    for route in told:
        if route.get("valid") and route.get("peer", {}).get("peerId") == str(far.address):
            return route_of(near.device, route)
    return None


def with_one_neighbor(routers: list[Router], name: str, address: str) -> str:
    """The text in which a router stands first and has one neighbour alone."""
    first = next(router for router in routers if router.name == name)
    others = [router for router in routers if router is not first]
    return text_of([Router(name, [_only(stanza, address) for stanza in first.stanzas]), *others])


def _only(stanza: Stanza, address: str) -> Stanza:
    return Stanza(
        stanza.head, [line for line in stanza.body if line.words[:1] != ["neighbor"] or line.words[1] == address]
    )


def compare_imports(program: Program, case: Case, rested: Rested) -> tuple[int, list[str]]:
    """How many imports were compared, and those that differ from the model, in words. None are compared in OSPF or
    beyond 300 links."""
    if case.network.protocol != "bgp" or len(case.network.links) > MOST_LINKS:
        return 0, []
    prefix = case.of_class.prefixes[0]
    labels = rested.labels[prefix]
    routers = read_text(case.text, case.file)
    count, differing = 0, []
    for near, far, taken in imports_of(case, rested, prefix):
        name = near.device.name
        texts = {"F": with_one_neighbor(routers, name, str(far.address)), "S": solution_text({**labels, name: taken})}
        answer = program.ask("check", "F", str(case.number), "S", texts=texts)
        if answer.status not in (Status.DONE, Status.NOT_STABLE):
            raise NotAnswered(answer, "check")
        count += 1
        if answer.reason.startswith(f"not stable: {name} "):
            differing.append(
                f"{name} from {far.device.name}: took {taken.text if taken else 'none'}: {answer.reason.split()[-1]}"
            )
    return count, differing
