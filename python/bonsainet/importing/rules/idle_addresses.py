"""One address on several routers, where none of them uses it: customers of VRFs often have the same."""
from __future__ import annotations

from collections import defaultdict

from bonsainet.importing.folder import Folder, Source, address_of, an_address, network_of
from bonsainet.importing.rewriting import cut_lines
from bonsainet.importing.rule import rule
from bonsainet.importing.rules.options import Options
from bonsainet.importing.rules.ospf import in_area
from bonsainet.configs.text import Stanza

IDLE = rule(
    "idle-address",
    "several routers have this address, and on none of them a neighbour is in its subnet, a `network` line names it, or OSPF has it: it is no end of a link and no origin",
    "RFC 4271 section 5.1.3; RFC 2328 section 9",
)


def cut_shared(folder: Folder, _options: Options) -> None:
    """Cuts addresses that several routers have and none uses."""
    holders: dict[int, list[tuple[Source, Stanza]]] = defaultdict(list)
    for router in folder.routers:
        for stanza in router.interfaces:
            if address := address_of(stanza):
                holders[int(address)].append((router, stanza))
    for those in holders.values():
        if len(those) > 1 and all(_is_idle(router, stanza) for router, stanza in those):
            for _, stanza in those:
                cut_lines(stanza, folder.log, IDLE, lambda line: line.words[:2] == ["ip", "address"], ("ip",))


def _is_idle(router: Source, stanza: Stanza) -> bool:
    address = address_of(stanza)
    if address is None or in_area(router, stanza):
        return False
    for process in router.with_head("router", "bgp"):
        for line in process.body:
            peer = an_address(line.words[1]) if line.words[:1] == ["neighbor"] else None
            names = line.words[:1] == ["network"] and network_of(line) == address.network
            if names or line.words[:2] == ["redistribute", "connected"] or (peer and peer in address.network):
                return False
    return True
