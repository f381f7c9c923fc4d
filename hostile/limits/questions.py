"""A network of many links, and a question that names them all."""
from __future__ import annotations

import itertools
import math

from hostile.limits.numbers import address, joined

MOST = 1448
"""Routers of one subnet whose links are not more than a network may have."""


def routers_for(links: int) -> int:
    """How many routers of one subnet have about so many links, or as many as a network may have."""
    return min(MOST, math.isqrt(2 * links))


def meshed(routers: int) -> bytes:
    """This many routers in one subnet: each two of them have a link."""
    lines = []
    for number in range(routers):
        lines += [f"hostname r{number}", "interface Vlan1", f" ip address {address((10 << 24) + number)} 255.255.0.0"]
        lines += ["router ospf 1", " network 0.0.0.0 255.255.255.255 area 0", "end"]
    return joined(lines)


def without_links(routers: int) -> bytes:
    """How many solutions there are where each two of the routers have lost their link."""
    pairs = itertools.combinations(range(routers), 2)
    return joined([f"1 without {','.join(f'r{low}:r{high}' for low, high in pairs)} count"])
