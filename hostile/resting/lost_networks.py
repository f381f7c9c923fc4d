"""The networks in which things are taken down for real: disputes, and networks of more links, in both protocols."""

from __future__ import annotations

import dataclasses
import random

from bonsainet.ask.program import TOP
from bonsainet.configs.network import Network
from bonsainet.lab.down import Down
from bonsainet.nets import synthetic
from bonsainet.nets.campus import campus_text
from bonsainet.nets.fat_tree import fat_tree_text
from bonsainet.nets.preferring import internet_text
from bonsainet.nets.random_networks import random_text
from hostile.resting.networks import networks

MOST_LINKS = 10
TWO_AT_ONCE = 2
DISPUTES = ("disagree", "bad gadget", "wedgie", "parallel", "tied")


@dataclasses.dataclass(frozen=True)
class Text:
    """A network: its name, where it is from, its text, and whether it rests with nothing down."""

    name: str
    source: str
    text: str
    rests: bool = True


def texts() -> list[Text]:
    """The networks: ten with ten links or more to take down, and small ones that dispute or share a wire."""
    small = {made.name: made for made in networks()}
    examples = TOP / "examples" / "inputs"
    return [
        Text("internet 1", "Gao and Rexford 2001", internet_text(1, 8)),
        Text("internet 2", "Gao and Rexford 2001", internet_text(2, 10)),
        Text("internet 3", "Gao and Rexford 2001", internet_text(3, 12)),
        Text("fat tree", "BGP, 20 switches", fat_tree_text(4)),
        Text("full mesh", "BGP, 6 routers", synthetic.mesh(6)),
        Text("random BGP 1", "maps, marks, prepended paths", random_text(10)),
        Text("random BGP 2", "maps, marks, prepended paths", random_text(34)),
        Text("campus", "OSPF, 2 blocks of 4 access routers", campus_text(2, 4)),
        Text("random OSPF 1", "costs, passive and shut ports", random_text(6)),
        Text("random OSPF 2", "costs, passive and shut ports", random_text(48)),
        *(Text(name, small[name].source, small[name].text, small[name].count != 0) for name in DISPUTES),
        Text("ring with maps", "an example, BGP", (examples / "ring-with-maps.cfg").read_text("ascii")),
        Text("wire of five", "an example, OSPF", (examples / "ospf-wire.cfg").read_text("ascii")),
    ]


def losses(network: Network, chance: random.Random) -> list[Down]:
    """Each router, up to ten links, and some of both at once. Links of which more than two interfaces share the subnet are
    left out, as no port takes down one of them alone."""
    names = [device.name for device in network.devices]
    pairs = {(link.low.device.name, link.high.device.name) for link in network.links}
    shared = {
        (link.low.device.name, link.high.device.name) for link in network.links if len(network.cables[link.subnet]) > 2
    }
    links = sorted(f"{low}:{high}" for low, high in pairs - shared)
    chosen = chance.sample(links, min(MOST_LINKS, len(links)))
    both = [f"{chance.choice(names)},{chance.choice(links)}" for _ in range(TWO_AT_ONCE) if links]
    return [Down.of(word) for word in [*names, *chosen, *both]]
