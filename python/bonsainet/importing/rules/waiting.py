"""What waits for another protocol: a session for BFD in strict mode, and the cost of an OSPF link for LDP."""
from __future__ import annotations

from bonsainet.importing.folder import Dialect, Folder, Source, first, has, name_of
from bonsainet.importing.rules.neighbors import Ends, Peer
from bonsainet.importing.rules.options import Options
from bonsainet.importing.rules.ospf import Active, active_wires
from bonsainet.configs.text import Line

STRICT = "bfd-strict"
SYNC = "ldp-sync"
SYNC_LINES = (("mpls", "ldp", "sync"), ("mpls", "ldp-sync"))


def strict_sessions(folder: Folder, _options: Options) -> None:
    """Refuses sessions that wait for BFD where the other end runs none (Cisco IOS BGP, `neighbor fall-over bfd
    strict-mode`). What a stub runs is not known."""
    if not any("strict-mode" in line.text for router in folder.routers for line in _process_lines(router)):
        return
    ends = Ends(folder)
    for peer in ends.all:
        line = peer.line("fall-over", "bfd")
        back = ends.session(peer)
        if line and "strict-mode" in line.words and back and not _runs_bfd(back):
            folder.log.refuse(
                line,
                STRICT,
                f"the session waits for BFD, and {back.router.name} runs none with this neighbour: devices have no session",
            )


def _process_lines(router: Source) -> list[Line]:
    process = router.process("bgp")
    return process.by_word.get("neighbor", []) if process else []


def _runs_bfd(peer: Peer) -> bool:
    return peer.line("fall-over", "bfd") is not None or peer.line("bfd") is not None


def synchronized(folder: Folder, _options: Options) -> None:
    """Refuses LDP synchronization on a link where another end runs no LDP: the cost stays at its maximum (RFC 5443; Cisco
    IOS MPLS, `mpls ldp sync`; FRR user guide, OSPF, `mpls ldp-sync`)."""
    if not any(_sync_line(end) for wire in active_wires(folder).values() for end in wire):
        return
    for subnet, wire in active_wires(folder).items():
        for end in wire:
            line = _sync_line(end)
            others = [other for other in wire if other.router is not end.router]
            without = sorted({other.router.name for other in others if not _runs_ldp(other)})
            if line and without:
                folder.log.refuse(
                    line,
                    SYNC,
                    f"{name_of(end.stanza)} waits for LDP in {subnet}, and {', '.join(without)} runs none there: devices hold its cost at the maximum",
                )


def _sync_line(end: Active) -> Line | None:
    """The line by which the cost of an end waits for LDP, or none."""
    own = first(end.stanza, "ip", "ospf", "mpls", "ldp-sync")
    is_off = has(end.stanza, "no", "mpls", "ldp", "igp", "sync") or has(
        end.stanza, "no", "ip", "ospf", "mpls", "ldp-sync"
    )
    if own or is_off or (end.router.dialect is Dialect.IOS and not _runs_ldp(end)):
        return own
    processes = end.router.with_head("router", "ospf")
    return next((line for process in processes for head in SYNC_LINES if (line := first(process, *head))), None)


def _runs_ldp(end: Active) -> bool:
    """Whether an end runs LDP: by its own line, for the whole process, or by the stanza of LDP in FRR. A file of that
    daemon, which is not read, counts as if it named the interface."""
    if end.router.dialect is Dialect.IOS:
        processes = end.router.with_head("router", "ospf")
        return has(end.stanza, "mpls", "ip") or any(has(process, "mpls", "ldp", "autoconfig") for process in processes)
    named = [line for stanza in end.router.with_head("mpls", "ldp") for line in stanza.body]
    return "ldp" in end.router.unread or any(line.words == ["interface", name_of(end.stanza)] for line in named)
