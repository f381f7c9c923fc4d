"""Networks whose compressed texts have just as many bytes or lines as a text may have, or one more."""
from __future__ import annotations

BYTES, LINES = 16_777_216, 1_000_000
SHORT = "ip community-list standard POLICY-1-10000-1 permit 0:1\n"
ENTRY = "route-map POLICY-1 permit 10000\n match community POLICY-1-10000-1\n!\n"
ORIGIN = ["interface Vlan1", " ip address 10.0.0.1 255.255.255.0"]
MAPS = 8


def exact_bytes(more: int) -> bytes:
    """A text of 330 KiB whose compressed text has the most bytes that a text may have, and so many more: each entry of
    a map gets a list of its own.

    A list S of short and long lines makes up what is left, since a long line is a byte longer than a short one."""
    entries, lines, bare = 300, 1015, 619
    rest = BYTES + more - bare - entries * (len(ENTRY) + lines * len(SHORT))
    long = rest % len(SHORT)
    short = rest // len(SHORT) - long
    a = [
        "hostname a",
        *ORIGIN,
        "interface Serial0",
        " ip address 172.16.0.0 255.255.255.254",
        "router bgp 65001",
        " network 10.0.0.0 mask 255.255.255.0",
    ]
    a += [" neighbor 172.16.0.1 remote-as 65002", " neighbor 172.16.0.1 send-community", "end"]
    b = ["hostname b", "interface Serial0", " ip address 172.16.0.1 255.255.255.254", "router bgp 65002"]
    b += [
        " neighbor 172.16.0.0 remote-as 65001",
        " neighbor 172.16.0.0 route-map M in",
        *["ip community-list standard L permit 1"] * lines,
    ]
    b += ["ip community-list standard S permit 1"] * short + ["ip community-list standard S permit 10"] * long
    for number in range(entries):
        b += [f"route-map M permit {10_000 + number}", " match community L"]
    return _text([*a, *b, "route-map M permit 60000", " match community S", "end"])


def exact_lines(more: int) -> bytes:
    """A text of 12 MiB whose compressed text has the most lines that a text may have, and so many more, at most 1: the
    maps of eight parallel links, whose first entry decides."""
    bare = 42 + 8 * MAPS
    entries = (LINES - bare) // 2
    numbers = range(MAPS)
    a, b = ["hostname a", *ORIGIN], ["hostname b"]
    for number in numbers:
        a += [f"interface Serial{number}", f" ip address 172.16.0.{2 * number} 255.255.255.254"]
        b += [f"interface Serial{number}", f" ip address 172.16.0.{2 * number + 1} 255.255.255.254"]
    a += [
        "router bgp 1",
        " network 10.0.0.0 mask 255.255.255.0",
        *(f" neighbor 172.16.0.{2 * number + 1} remote-as 2" for number in numbers),
        "end",
    ]
    b.append("router bgp 2")
    for number in numbers:
        b += [f" neighbor 172.16.0.{2 * number} remote-as 1", f" neighbor 172.16.0.{2 * number} route-map M{number} in"]
    for number in numbers:
        count = entries // MAPS + (entries % MAPS if number == 0 else 0)
        b += [
            f"route-map M{number} permit 0",
            f" set local-preference {200 + number}",
            *(f"route-map M{number} deny {place}" for place in range(1, count)),
        ]
    return _text([*a, *b, *[" set local-preference 7"] * more, "end"])


def _text(lines: list[str]) -> bytes:
    return ("\n".join(lines) + "\n").encode()
