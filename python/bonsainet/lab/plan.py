"""What a lab has to set up, as plain data: routers with their daemons' files, wires, what stands when it is at rest, and
what is taken down then."""
from __future__ import annotations

import dataclasses
import json
from collections.abc import Iterable, Mapping

from bonsainet.exporting import frr
from bonsainet.exporting.writer import Exported, linked_interfaces
from bonsainet.configs.network import Link, Network
from bonsainet.lab.down import Down, ends_down, is_pair


@dataclasses.dataclass
class RouterPlan:
    """A router: the name of its namespace, the files of its daemons, and its neighbours when all sessions or
    adjacencies stand.

    `peers` has the addresses of its neighbours, in OSPF as often as there are adjacencies over one interface.
    """

    name: str
    space: str
    files: dict[str, str]
    peers: list[str]
    stubs: list[str]

    @property
    def daemons(self) -> list[str]:
        """The daemons that run: zebra, and the daemon of the protocol where the router has a process."""
        return [daemon for daemon, text in self.files.items() if daemon == "zebra" or "\nrouter " in text]

    @property
    def speaks(self) -> bool:
        """Whether the router runs the daemon of the protocol."""
        return len(self.daemons) > 1


@dataclasses.dataclass
class Loss:
    """What goes down for real: routers, by name, whose daemons are ended, and ports, each a namespace and an interface
    there. `peers` has the neighbours that each other router has then."""

    name: str
    routers: list[str]
    ports: list[tuple[str, str]]
    peers: dict[str, list[str]]


@dataclasses.dataclass
class Plan:
    """A lab: its protocol, its routers, its wires as lists of ends, each a namespace, the name of an interface there, and
    its address, and what goes down, one loss after another.

    A wire with an end that is shut is a bridge, also where it has two ends: the other end of a pair would go down with
    it.
    """

    protocol: str
    routers: list[RouterPlan]
    wires: list[list[tuple[str, str, str]]]
    bridges: list[bool]
    prefixes: list[str]
    losses: list[Loss] = dataclasses.field(default_factory=list)

    def text(self) -> str:
        """The plan as JSON."""
        return json.dumps(dataclasses.asdict(self))

    @staticmethod
    def of_text(text: str) -> Plan:
        """The plan that a JSON text has."""
        told = json.loads(text)
        routers = [RouterPlan(**router) for router in told["routers"]]
        wires = [[(space, port, address) for space, port, address in wire] for wire in told["wires"]]
        losses = [
            Loss(loss["name"], loss["routers"], [(space, port) for space, port in loss["ports"]], loss["peers"])
            for loss in told["losses"]
        ]
        return Plan(told["protocol"], routers, wires, told["bridges"], told["prefixes"], losses)

    def after(self, loss: Loss) -> Plan:
        """The lab that is left after a loss: without the routers that are down, each other one with the neighbours that
        it has then."""
        left = [router for router in self.routers if router.name not in loss.routers]
        routers = [dataclasses.replace(router, peers=loss.peers[router.name]) for router in left]
        return dataclasses.replace(self, routers=routers, losses=[])


def plan_of(network: Network, exported: Exported, prefixes: list[str], downs: Iterable[Down] = ()) -> Plan:
    """The lab of a network whose configurations for FRR are given, asked about these prefixes, before and after each
    loss."""
    linked = linked_interfaces(network)
    spaces = {device.name: f"r{number}" for number, device in enumerate(network.devices)}
    names = {device.name: frr.interface_names(device, linked) for device in network.devices}
    peers = _peers(network, network.links)
    cables = network.cables
    wires = [
        [(spaces[end.device.name], names[end.device.name][end.interface.name], str(end.address)) for end in ends]
        for ends in cables.values()
    ]
    bridges = [not is_pair(ends) for ends in cables.values()]
    routers = []
    for device in network.devices:
        stubs = [names[device.name][i.name] for i in device.interfaces if i.address and i.address.network not in cables]
        files = daemon_files(exported.files[f"{device.name}.conf"], network.protocol or "bgp")
        routers.append(RouterPlan(device.name, spaces[device.name], files, peers[device.name], stubs))
    losses = [_loss(network, down, spaces, names) for down in downs]
    return Plan(network.protocol or "bgp", routers, wires, bridges, prefixes, losses)


def _peers(network: Network, links: Iterable[Link]) -> dict[str, list[str]]:
    """Of each router the other ends of its links."""
    peers: dict[str, list[str]] = {device.name: [] for device in network.devices}
    for link in links:
        peers[link.low.device.name].append(str(link.high.address))
        peers[link.high.device.name].append(str(link.low.address))
    return peers


def _loss(network: Network, down: Down, spaces: Mapping[str, str], names: Mapping[str, Mapping[str, str]]) -> Loss:
    ports = [(spaces[end.device.name], names[end.device.name][end.interface.name]) for end in ends_down(network, down)]
    left = [link for link in network.links if not down.loses(link)]
    return Loss(down.word, sorted(down.routers), ports, _peers(network, left))


def daemon_files(text: str, protocol: str) -> dict[str, str]:
    """The parts of a router's configuration that zebra and the daemon of the protocol read: interfaces' lines by their
    heads, all else by stanza."""
    own = "bgpd" if protocol == "bgp" else "ospfd"
    parts: dict[str, list[str]] = {"zebra": [], own: []}
    stanza: list[str] = []
    for line in [*text.splitlines(), "!"]:
        if not line.startswith(" ") and stanza:
            _place(stanza, parts, own)
            stanza = []
        stanza.append(line)
    return {daemon: "".join(f"{line}\n" for line in lines) for daemon, lines in parts.items()}


def _place(stanza: list[str], parts: dict[str, list[str]], own: str) -> None:
    head, *body = stanza
    if head.startswith("interface "):
        for daemon, lines in parts.items():
            within = [line for line in body if line.startswith(" ip ospf ") == (daemon == "ospfd")]
            within = within if daemon != "bgpd" else []
            if within or daemon == "zebra":
                lines += [head, *within, "!"]
    elif head.startswith(("hostname ", "frr ", "!")):
        for lines in parts.values():
            lines.append(head)
    elif head != "end":
        parts[own] += stanza
