"""OSPF costs that follow from reference bandwidth, bandwidth, speed and the type of the interface, written as `ip ospf
cost`."""
from __future__ import annotations

from bonsainet.importing.decisions import note
from bonsainet.importing.folder import Dialect, Folder, Source, first, has, indented, kind_of, name_of
from bonsainet.importing.rewriting import cut_lines
from bonsainet.importing.rule import rule
from bonsainet.importing.rules.options import Options
from bonsainet.importing.rules.ospf import Active, active_wires, in_area
from bonsainet.configs.profile import DEFAULT_COSTS
from bonsainet.configs.text import Line, Stanza

COST = rule(
    "ospf-cost",
    "the cost is the reference bandwidth over that of the interface, at least 1",
    "RFC 2328 section C.3; Cisco IOS OSPF, `auto-cost reference-bandwidth`",
)
BANDWIDTH = rule(
    "bandwidth",
    "the bandwidth of an interface has a bearing on its OSPF cost alone, and that is written out",
    "Cisco IOS Interface, `bandwidth`",
)
DECIDED_COST = rule("decided-cost", "a person gave the bandwidth or the cost of this interface", "the decisions file")
FRR_LOOPBACK = rule(
    "frr-loopback-cost",
    "FRR announces a loopback with cost 0, and the profile has costs from 1: each router's cost to this prefix is 1 more, and all next hops are the same",
    "FRR user guide, OSPF, `ip ospf cost`; RFC 2328 section 12.4.1",
)
NO_COST = "ospf-cost"

KBITS = {
    "Loopback": 8_000_000,
    "Ethernet": 10_000,
    "FastEthernet": 100_000,
    "GigabitEthernet": 1_000_000,
    "TwoGigabitEthernet": 2_500_000,
    "FiveGigabitEthernet": 5_000_000,
    "TenGigabitEthernet": 10_000_000,
    "TwentyFiveGigE": 25_000_000,
    "FortyGigabitEthernet": 40_000_000,
    "FiftyGigE": 50_000_000,
    "HundredGigE": 100_000_000,
    "FourHundredGigE": 400_000_000,
    "Serial": 1_544,
    "Vlan": 1_000_000,
}
WIRED = tuple(kind for kind in KBITS if kind.endswith(("Ethernet", "GigE")))
DIRECT = 30
LARGEST = 65_535
IOS_REFERENCE = 100
FRR_REFERENCE = 100_000


def write_costs(folder: Folder, _options: Options) -> None:
    """Writes the cost of each interface in the area that has no `ip ospf cost` and another cost than the profile gives
    it."""
    for router in folder.routers:
        for stanza in list(router.interfaces):
            if in_area(router, stanza):
                _write_cost(folder, router, stanza)
            cut_lines(stanza, folder.log, BANDWIDTH, lambda line: True, ("bandwidth",))
        for process in router.with_head("router", "ospf"):
            cut_lines(process, folder.log, COST, lambda line: True, ("auto-cost",))


def compare_speeds(folder: Folder, _options: Options) -> None:
    """Refuses a cost that follows from the speed of an interface whose other end is slower: on a wire of two ends both
    have the speed of the slower one."""
    for subnet, wire in active_wires(folder).items():
        if len(wire) != 2 or subnet.prefixlen < DIRECT or wire[0].router is wire[1].router:
            continue
        for end, far in (tuple(wire), tuple(reversed(wire))):
            own, other = _fastest(end), _fastest(far)
            if own is None or other is None or own <= other or _is_given(folder, end):
                continue
            costs = [_cost(end.router, speed) for speed in (own, other)]
            line = first(end.stanza, "ip", "address") or end.stanza.head
            if costs[0] != costs[1]:
                folder.log.refuse(
                    line,
                    NO_COST,
                    f"its other end, {name_of(far.stanza)} of {far.router.name}, takes {other} kbit/s at most, and at that speed the cost is {costs[1]} and not {costs[0]}: decide `bandwidth` or `cost`",
                )


def _fastest(end: Active) -> int | None:
    """The speed in kbit/s that a port of a device takes at most, or none where its type does not say."""
    kind = kind_of(name_of(end.stanza))
    if end.router.dialect is not Dialect.IOS or kind not in WIRED:
        return None
    speeds = _speeds(_main_interface(end.router, name_of(end.stanza)) or end.stanza)
    return max(speeds) * 1000 if speeds else KBITS[kind]


def _is_given(folder: Folder, end: Active) -> bool:
    """Whether a line or a person gives the cost or the bandwidth of an interface."""
    line, name = first(end.stanza, "ip", "address") or end.stanza.head, name_of(end.stanza)
    is_decided = any(folder.own_decisions.find(verb, line, name) for verb in ("cost", "bandwidth"))
    return is_decided or has(end.stanza, "ip", "ospf", "cost") or has(end.stanza, "bandwidth")


def reference_of(router: Source) -> int:
    """The reference bandwidth of a router in Mbit/s."""
    for process in router.with_head("router", "ospf"):
        found = first(process, "auto-cost", "reference-bandwidth")
        if found and found.words[2:] and found.words[2].isdigit():
            return int(found.words[2])
    return FRR_REFERENCE if router.dialect is Dialect.FRR else IOS_REFERENCE


def _write_cost(folder: Folder, router: Source, stanza: Stanza) -> None:
    if has(stanza, "ip", "ospf", "cost"):
        return
    name = name_of(stanza)
    line = first(stanza, "ip", "address") or stanza.head
    at = stanza.body.index(line) + 1
    if decided := folder.own_decisions.find("cost", line, name) or folder.own_decisions.find("bandwidth", line, name):
        cost = int(decided.value) if decided.verb == "cost" else _cost(router, int(decided.value))
        folder.log.by(line, DECIDED_COST)
        folder.log.assume(line.with_text(f"{decided.verb} of {name} is {decided.value}"), decided.reason)
        told = note(line.with_text(f"{decided.verb} of {name} is {decided.value}"), decided.reason, " ")
        stanza.body[at:at] = [indented(line, f"ip ospf cost {cost}"), told]
        return
    if router.dialect is Dialect.FRR and router.is_loopback(stanza):
        folder.log.by(line, FRR_LOOPBACK)
        folder.log.assume(line, FRR_LOOPBACK.reason)
        stanza.body[at:at] = [note(line, "its cost is 0 in FRR and 1 here", " "), indented(line, "ip ospf cost 1")]
        return
    kbits = _kbits(folder, router, stanza, line)
    if kbits is None:
        return
    cost = _cost(router, kbits)
    if cost > 1 and kind_of(name) == "Loopback" and not has(stanza, "bandwidth"):
        folder.log.refuse(
            line,
            NO_COST,
            f"with this reference bandwidth the cost of a loopback is {cost} or 1, by its network type and the version: decide `cost`",
        )
        return
    if cost != DEFAULT_COSTS.get(kind_of(name)):
        folder.log.by(line, COST)
        stanza.body.insert(at, indented(line, f"ip ospf cost {cost}"))


def _cost(router: Source, kbits: int) -> int:
    if router.dialect is Dialect.FRR:
        cost = int(reference_of(router) * 1000 / kbits + 0.5)
    else:
        cost = reference_of(router) * 1000 // kbits
    return min(max(cost, 1), LARGEST)


def _kbits(folder: Folder, router: Source, stanza: Stanza, line: Line) -> int | None:
    """The bandwidth of an interface in kbit/s, or none with a refusal where the folder does not say it."""
    name = name_of(stanza)
    given = next(
        (
            found
            for found in stanza.body
            if found.words[:1] == ["bandwidth"]
            and found.words[1:2]
            and found.words[1].isdigit()
            and int(found.words[1])
        ),
        None,
    )
    if router.dialect is Dialect.FRR:
        if not given:
            folder.log.refuse(
                line,
                NO_COST,
                "FRR takes the bandwidth from the kernel, and the folder does not say it: decide `bandwidth` or `cost`",
            )
            return None
        return int(given.words[1]) * 1000
    if given:
        return int(given.words[1])
    main = _main_interface(router, name)
    if main and (has(main, "bandwidth") or _speeds(main)):
        folder.log.refuse(
            line,
            NO_COST,
            f"the bandwidth of {name_of(main)} is set, and whether {name} has it is not told: decide `bandwidth` or `cost`",
        )
        return None
    if has(stanza, "bandwidth", "inherit") or kind_of(name) not in KBITS:
        folder.log.refuse(
            line, NO_COST, f"the bandwidth of {name} does not follow from its type: decide `bandwidth` or `cost`"
        )
        return None
    speeds = _speeds(stanza)
    costs = {_cost(router, speed * 1000) for speed in speeds}
    if len(costs) > 1:
        at = first(stanza, "speed") or line
        folder.log.refuse(
            at,
            NO_COST,
            f"{name} takes one of several speeds, and its cost hangs on which: decide `bandwidth` or `cost`",
        )
        return None
    return speeds[0] * 1000 if speeds else KBITS[kind_of(name)]


def _speeds(stanza: Stanza) -> list[int]:
    """The speeds in Mbit/s of which a line leaves one, or none where it says nothing: `speed 100`, `speed auto 10 100`."""
    found = first(stanza, "speed")
    words = found.words[1:] if found else []
    numbers = words[1:] if words[:1] == ["auto"] else words[:1]
    return [int(word) for word in numbers if word.isdecimal() and int(word)]


def _main_interface(router: Source, name: str) -> Stanza | None:
    """The interface that a subinterface belongs to, or none."""
    main, point, _ = name.partition(".")
    return next((stanza for stanza in router.interfaces if point and name_of(stanza) == main), None)
