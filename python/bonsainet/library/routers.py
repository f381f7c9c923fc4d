"""The routers of a network that is compared, each of which is read where it is asked for: most are the same on both sides,
and few have a part in what changes."""
from __future__ import annotations

import functools
import re
import socket
from collections.abc import Callable, Collection, Iterable, Iterator
from ipaddress import IPv4Address

from bonsainet.configs.network import Network as Parsed
from bonsainet.configs.profile import Device
from bonsainet.configs.reading import device_of
from bonsainet.configs.text import lines_of, router_texts, routers_of
from bonsainet.library.networks import Network
from bonsainet.library.routes import near_interfaces

HOSTNAME = re.compile(r"^hostname[^\S\n]+(\S+)[^\S\n]*$", re.MULTILINE)
PROCESS = re.compile(r"^router[^\S\n]+(bgp|ospf)[^\S\n]", re.MULTILINE)
ADDRESS = re.compile(r"^[ \t][^\S\n]*ip[^\S\n]+address[^\S\n]+(\S+)[^\S\n]+(\S+)[^\S\n]*$", re.MULTILINE)

# A subnet: the least of its addresses, and its mask.
Subnet = tuple[int, int]
Made = tuple[str, str, Callable[[], Device]]


class Routers:
    """The routers of a network in the order of its text. One of the same lines as in a known network is the same device."""

    def __init__(self, network: Network, known: Routers | None = None) -> None:
        self.network, self.known = network, known
        made = list(_imported(network) if network.report else _in_text(network))
        self.texts = {name: text for name, text, _ in made}
        self.places = {name: place for place, name in enumerate(self.texts)}
        self._make = {name: make for name, _, make in made}
        self._devices: dict[str, Device] = {}

    def device(self, name: str) -> Device:
        """What the lines of a router say."""
        if name not in self._devices:
            is_known = self.known is not None and self.known.texts.get(name) == self.texts[name]
            self._devices[name] = self.known.device(name) if self.known and is_known else self._make[name]()
        return self._devices[name]

    def among(self, names: Iterable[str]) -> Parsed:
        """The network of some routers, those of these names that there are."""
        own = sorted((name for name in names if name in self.places), key=self.places.__getitem__)
        return Parsed([self.device(name) for name in own], self.protocol)

    @functools.cached_property
    def protocol(self) -> str | None:
        """The protocol of the network: all its processes are of one."""
        found = PROCESS.search(self.network.text)
        return found[1] if found else None

    def in_subnets(self, subnets: Collection[Subnet], names: Iterable[str]) -> Iterator[str]:
        """Those of some routers that have an address in one of these subnets, with the mask of the subnet. Nothing but such
        lines is looked at."""
        masks = {str(IPv4Address(mask)): mask for _, mask in subnets}
        for name in names:
            for address, word in ADDRESS.findall(self.texts[name]):
                if word in masks and (_number(address) & masks[word], masks[word]) in subnets:
                    yield name
                    break


class NearInterfaces:
    """What `near_interfaces` has of a network, found for two routers where it is asked for."""

    def __init__(self, routers: Routers) -> None:
        self._routers = routers
        self._found: dict[tuple[str, str], tuple[str, ...]] = {}
        self._is_whole = False

    def get(self, pair: tuple[str, str], otherwise: tuple[str, ...]) -> tuple[str, ...]:
        """The interfaces for a pair of routers."""
        if pair not in self._found and not self._is_whole:
            # (of many pairs all are found faster at once)
            self._is_whole = len(self._found) > len(self._routers.texts)
            self._found |= near_interfaces(self._routers.among(self._routers.texts if self._is_whole else pair))
        return self._found.setdefault(pair, otherwise)


def _in_text(network: Network) -> Iterator[Made]:
    """The routers of a text, with the text of each."""

    def reader(text: str, number: int) -> Callable[[], Device]:
        return lambda: device_of(routers_of(lines_of(text, network.name, number))[0])

    for number, text in router_texts(network.text):
        if found := HOSTNAME.search(text):
            yield found[1], text, reader(text, number)


def _imported(network: Network) -> Iterator[Made]:
    """The routers of a network that was imported: their lines have places in the files."""
    assert network.report
    for router, (_, text) in zip(network.report.folder.routers, router_texts(network.text), strict=True):
        yield router.name, text, functools.partial(device_of, router)


def _number(address: str) -> int:
    return int.from_bytes(socket.inet_aton(address), "big")
