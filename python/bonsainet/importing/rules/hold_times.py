"""Hold times: an end that asks for a least one refuses the session where the other end offers less."""
from __future__ import annotations

from bonsainet.importing.folder import Dialect, Folder, Source, first
from bonsainet.importing.rewriting import cut_lines
from bonsainet.importing.rule import rule
from bonsainet.importing.rules.neighbors import Ends, Peer
from bonsainet.importing.rules.options import Options
from bonsainet.configs.text import Line

HOLD = rule(
    "hold-time",
    "no other end in the folder offers a hold time below the least one that this line asks for",
    "RFC 4271 section 4.2; FRR user guide, BGP, `bgp minimum-holdtime`",
)
REFUSED = "hold-time"
DEFAULT = 180
DATACENTER = 9


def judge(folder: Folder, _options: Options) -> None:
    """Refuses the least hold time of a session whose other end offers less, and cuts FRR's where all ends offer enough.
    What a stub would offer is not known."""
    asking = {id(router): router for router in folder.routers if _asks(router)}
    if not asking:
        return
    ends = Ends(folder)
    for peer in ends.all:
        if id(peer.router) in asking:
            _judge(folder, peer, ends.session(peer))
    refused = {found.place for found in folder.log.refusals if found.name == REFUSED}
    for router in asking.values():
        for process in router.with_head("router", "bgp"):
            cut_lines(
                process,
                folder.log,
                HOLD,
                lambda line: line.words[:2] == ["bgp", "minimum-holdtime"] and line.place not in refused,
            )


def _asks(router: Source) -> bool:
    """Whether a line of a router asks for a least hold time."""
    process = router.process("bgp")
    return process is not None and any(
        _least_in(line.words) is not None for line in process.body if "time" in line.text
    )


def _least_in(words: list[str]) -> int | None:
    """The least hold time that a line asks for, or none."""
    if words[:2] == ["bgp", "minimum-holdtime"]:
        return _number(words, 2)
    return _number(words, 5 if words[:1] == ["neighbor"] else 4) if _hold_in(words) is not None else None


def _hold_in(words: list[str]) -> int | None:
    """The hold time that a line gives, or none."""
    if words[:1] == ["neighbor"]:
        is_given = words[2:3] == ["timers"] and _number(words, 3) is not None
        return _number(words, 4) if is_given else None
    return _number(words, 3) if words[:2] == ["timers", "bgp"] else None


def _number(words: list[str], at: int) -> int | None:
    """A word as a number, or none where it is none."""
    return int(words[at]) if words[at:] and words[at].isdecimal() else None


def _judge(folder: Folder, peer: Peer, back: Peer | None) -> None:
    if back is None:
        return
    common = first(peer.process, "bgp", "minimum-holdtime")
    lines = [found for found in (common, _timers(peer), first(peer.process, "timers", "bgp")) if found]
    asking = next((line for line in lines if _least_in(line.words) is not None), None)
    offered = _offered(back)
    if asking and offered < (_least_in(asking.words) or 0):
        folder.log.refuse(
            asking,
            REFUSED,
            f"{back.router.name} offers a hold time of {offered} s, which is less than this end takes: devices have no session",
        )


def _timers(peer: Peer) -> Line | None:
    """The line that gives a neighbour's hold time, or none."""
    return next((line for line in peer.lines if _hold_in(line.words) is not None), None)


def _offered(peer: Peer) -> int:
    """The hold time that a router offers a neighbour: its own, that of the process, or the default."""
    given = _timers(peer) or first(peer.process, "timers", "bgp")
    hold = _hold_in(given.words) if given else None
    if hold is not None:
        return hold
    is_datacenter = peer.router.dialect is Dialect.FRR and any(peer.router.with_head("frr", "defaults", "datacenter"))
    return DATACENTER if is_datacenter else DEFAULT
