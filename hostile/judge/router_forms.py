"""Forms of the lines in an interface and in a routing process."""
from __future__ import annotations

from hostile.judge import words
from hostile.judge.network import Bgp, Interface, Neighbor, Ospf, Refused, Router


def once(is_first: bool, line: int) -> None:
    """Refuses a value that is given again."""
    if not is_first:
        raise Refused(line, "Repeated")


def interface_line(port: Interface, found: list[str], line: int) -> None:
    """A known line of an interface."""
    match found:
        case ["ip", "address", word, mask] if (value := words.address(word)) is not None and (
            length := words.mask(mask)
        ) is not None:
            once(port.address is None, line)
            port.address, port.length, port.line = value, length, line
        case ["ip", "ospf", "cost", word] if (cost := words.number(word, 1, 65535)) is not None:
            once(port.cost is None, line)
            port.cost = cost
        case ["shutdown"]:
            port.shut = True
        case _:
            raise Refused(line, "BadForm")


def bgp_line(router: Router, bgp: Bgp, found: list[str], line: int) -> None:
    """A known line of a BGP process of a router."""
    match found:
        case ["bgp", "default", "local-preference", word] if (value := words.number(word)) is not None:
            once(bgp.preference is None, line)
            bgp.preference = value
        case ["network", *rest] if (network := _network(rest)) is not None:
            once(network not in bgp.networks, line)
            bgp.networks.append(network)
        case ["neighbor", word, *rest] if (address := words.address(word)) is not None:
            _neighbor(router, bgp.neighbors, address, rest, line)
        case _:
            raise Refused(line, "BadForm")


def _network(rest: list[str]) -> words.Prefix | None:
    value = words.address(rest[0]) if rest else None
    if value is None:
        return None
    if len(rest) == 1:
        first = value >> 24
        length = None if not 1 <= first <= 223 else 8 if first <= 127 else 16 if first <= 191 else 24
    elif len(rest) == 3 and rest[1] == "mask":
        length = words.mask(rest[2])
    else:
        return None
    return None if length is None or words.cut(value, length)[0] != value else (value, length)


def _neighbor(router: Router, neighbors: dict[int, Neighbor], address: int, rest: list[str], line: int) -> None:
    match rest:
        case ["remote-as", word] if (number := words.number(word, 1)) is not None:
            once(address not in neighbors, line)
            neighbors[address] = Neighbor(address, number, line)
        case ["shutdown"]:
            _known(neighbors, address, line).shut = True
        case ["send-community"] | ["send-community", "standard" | "both"]:
            _known(neighbors, address, line).sends = True
        case ["prefix-list" | "route-map" as kind, name, "in" | "out" as direction] if words.list_name(name):
            neighbor = _known(neighbors, address, line)
            values = neighbor.lists if kind == "prefix-list" else neighbor.maps
            once(direction not in values, line)
            values[direction] = name
            router.uses.append((kind if kind == "prefix-list" else f"route-map {direction}", name, line))
        case _:
            raise Refused(line, "BadForm")


def _known(neighbors: dict[int, Neighbor], address: int, line: int) -> Neighbor:
    if address not in neighbors:
        raise Refused(line, "Misplaced")
    return neighbors[address]


def ospf_line(ospf: Ospf, found: list[str], line: int) -> None:
    """A known line of an OSPF process."""
    match found:
        case ["network", base, wild, "area", area]:
            value, free = words.address(base), words.address(wild)
            number = words.number(area) if words.number(area) is not None else words.address(area)
            if value is None or free is None or number is None:
                raise Refused(line, "BadForm")
            ospf.networks.append((value, free, number, line))
        case ["passive-interface", "default"]:
            ospf.default_passive = True
        case ["passive-interface", name] if words.interface_name(name):
            ospf.passive.add(name)
        case ["no", "passive-interface", name] if words.interface_name(name):
            ospf.active.add(name)
        case _:
            raise Refused(line, "BadForm")
