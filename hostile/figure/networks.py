"""The networks of the figure, in families that grow."""

from __future__ import annotations

import dataclasses
from collections.abc import Callable
from ipaddress import IPv4Network

from bonsainet.nets import synthetic
from bonsainet.nets.campus import campus_text
from bonsainet.nets.fat_tree import fat_tree_text
from bonsainet.nets.preferring import internet_text

SPINES = 8
ACCESS = 8


@dataclasses.dataclass(frozen=True)
class Family:
    """Networks of one rule: the text of a size, the sizes that are tried, and a prefix that is asked about."""

    name: str
    text: Callable[[int], str]
    sizes: tuple[int, ...]
    prefix: str


def data_centre(leaves: int) -> str:
    """Leaves that have a link to each of eight spines; each spine tags what it passes on with a community of its own.
    The first leaf has the prefix."""
    spines = [f"spine{place}" for place in range(SPINES)]
    names = [*spines, *(f"leaf{place}" for place in range(leaves))]
    links = [(spine, leaf) for spine in spines for leaf in names[SPINES:]]
    text = synthetic.text_of(names, links, {"leaf0": IPv4Network("10.0.0.0/24")})
    parts = text.split("end\n")
    for place in range(SPINES):
        own = [line for line in parts[place].splitlines() if line.endswith("send-community")]
        maps = [line.replace("send-community", "route-map TAG out") for line in own]
        parts[place] += "".join(f"{line}\n" for line in maps)
        parts[place] += f"route-map TAG permit 10\n set community 65000:{place + 1} additive\n"
    return "end\n".join(parts)


def internet_of(count: int) -> str:
    """An internet of so many ASes that prefer customers to peers to providers."""
    return internet_text(1, count)


def campus_of(blocks: int) -> str:
    """A campus of so many blocks."""
    return campus_text(blocks, ACCESS)


FAMILIES = (
    Family("fat tree", fat_tree_text, (4, 6, 8, 10, 12, 20, 30, 46), "10.0.0.0/24"),
    Family("ring", synthetic.ring, (16, 64, 128, 256, 1000, 2000, 4000), "10.0.0.0/24"),
    Family("full mesh", synthetic.mesh, (8, 16, 32, 64, 128, 256, 362), "10.0.0.0/24"),
    Family("data centre", data_centre, (8, 32, 128, 512, 2048, 4088), "10.0.0.0/24"),
    Family("internet", internet_of, (8, 16, 32, 64, 128, 256, 512, 1024, 2048, 4096), "10.0.0.0/24"),
    Family("campus", campus_of, (2, 8, 32, 100, 256), "10.0.0.0/24"),
)
