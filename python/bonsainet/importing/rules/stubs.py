"""Routers of the outside world: a stub at a peer's address announces given prefixes."""
from __future__ import annotations

from ipaddress import IPv4Address, IPv4Network

from bonsainet.cli.command_line import Refused
from bonsainet.importing.folder import Folder, Source, Up, address_given, as_number, name_of, own_address_of
from bonsainet.importing.rules.neighbors import Peer, peers_of
from bonsainet.importing.rules.options import Options
from bonsainet.configs.text import Line, Place, Stanza


def add(folder: Folder, options: Options) -> None:
    """Adds the stubs, and reports peers that are not in the folder."""
    for address, prefixes in options.stubs:
        _add(folder, address, prefixes)
    up = folder.up
    shut = _shut(folder, up)
    for router in folder.routers:
        for peer in peers_of(router, up):
            line = peer.line("remote-as")
            if line and not peer.far and line.words[3:4] != ["internal"]:
                what = f"is {shut[peer.address]}, which is shut" if peer.address in shut else "is not in the folder"
                how = "" if peer.address in shut else f"; --stub {peer.address}=PREFIX,.. adds it"
                folder.log.remarks.append(
                    f"{line.place}: the peer {peer.address} {what}, so this neighbour takes part in nothing{how}"
                )


def _shut(folder: Folder, up: Up) -> dict[IPv4Address, str]:
    """The addresses that interfaces of the folder have and none that is up, each with whose it is."""
    return {
        given.ip: f"{name_of(stanza)} of {router.name}"
        for router in folder.routers
        for stanza in router.interfaces
        if (given := address_given(stanza)) and given.ip not in up
    }


def _add(folder: Folder, address: IPv4Address, prefixes: tuple[IPv4Network, ...]) -> None:
    up = folder.up
    peers = [peer for router in folder.routers for peer in peers_of(router, up) if peer.address == address]
    if not peers:
        raise Refused(f"--stub {address}: no neighbour line names this address")
    if far := next((peer.far[0] for peer in peers if peer.far), None):
        raise Refused(f"--stub {address}: {far.name} in the folder has this address")
    numbers = {as_number(line.words[3]) for peer in peers if (line := peer.line("remote-as"))}
    if len(numbers) != 1 or None in numbers:
        raise Refused(f"--stub {address}: the neighbour lines give it several AS numbers, or none")
    near = next((peer.near for peer in peers if peer.near), None)
    if near is None:
        raise Refused(f"--stub {address}: no router has an interface in its subnet")
    folder.routers.append(_stub(folder, address, prefixes, numbers.pop(), peers, near))
    folder.log.remarks.append(f"--stub: a router at {address} announces {', '.join(map(str, prefixes))}")


def _stub(
    folder: Folder,
    address: IPv4Address,
    prefixes: tuple[IPv4Network, ...],
    number: int | None,
    peers: list[Peer],
    near: Stanza,
) -> Source:
    name = f"stub-{address}"
    place = Place(name, 0)

    def line(text: str) -> Line:
        return Line(text, place)

    link = own_address_of(near)
    stanzas = [
        Stanza(line(f"hostname {name}")),
        Stanza(line(f"! assumed: a router at {address} that announces these prefixes (--stub)")),
        Stanza(line("interface GigabitEthernet0/0"), [line(f" ip address {address} {link.netmask}")]),
    ]
    process = Stanza(line(f"router bgp {number}"))
    taken = set(folder.up)
    for count, prefix in enumerate(prefixes, 1):
        if prefix.prefixlen == 0:
            raise Refused(
                f"--stub {address}: Bonsai has no default route: give prefixes that stand for what is asked about outside"
            )
        if prefix.overlaps(link.network):
            raise Refused(f"--stub {address}: {prefix} overlaps the subnet of the session, {link.network}")
        host = next(
            (
                found
                for found in (prefix.network_address + step for step in range(min(prefix.num_addresses, 1000)))
                if int(found) not in taken and (found != prefix.network_address or prefix.prefixlen > 30)
            ),
            None,
        )
        if host is None:
            raise Refused(f"--stub {address}: no address of {prefix} is free")
        stanzas.append(Stanza(line(f"interface Vlan{count}"), [line(f" ip address {host} {prefix.netmask}")]))
        process.body.append(line(f" network {prefix.network_address} mask {prefix.netmask}"))
    for peer, end in ((peer, peer.near) for peer in peers if peer.near):
        process.body.append(line(f" neighbor {own_address_of(end).ip} remote-as {peer.router.number}"))
    return Source(name, [*stanzas, process], file=name, is_stub=True)
