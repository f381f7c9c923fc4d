"""Lines of a BGP process as such: defaults, MED where none is set, distances where nothing competes."""
from __future__ import annotations

from bonsainet.importing.folder import Folder, Source
from bonsainet.importing.rewriting import any_begins, begins, cut_lines, first_words
from bonsainet.importing.rule import rule
from bonsainet.importing.rules.options import Options
from bonsainet.importing.rules.redistribution import is_set_aside
from bonsainet.configs.text import Line

NO_MED = rule(
    "no-med",
    "nothing that routers of the folder compare sets a metric, so all routes of one prefix compare alike",
    "RFC 4271 section 9.1.2.2, c; Cisco IOS BGP, `bgp always-compare-med`",
)
DISTANCE = rule(
    "distance-alone",
    "a distance chooses between protocols, and no other protocol or static route competes on this router",
    "Cisco IOS IP Routing, `distance`",
)
DEFAULTS = rule(
    "process-default", "the line says the default, or speaks of what is not there", "Cisco IOS BGP; FRR user guide, BGP"
)
MED_LINES = ("bgp always-compare-med", "bgp deterministic-med", "no bgp deterministic-med", "bgp bestpath med confed")
DEFAULT_LINES = (
    "no auto-summary",
    "no synchronization",
    "no bgp always-compare-med",
    "bgp suppress-duplicates",
    "no bgp suppress-duplicates",
    "no bgp dampening",
    "bgp bestpath peer-type multipath-relax",
)


SETS_MED = ("set metric", "default-metric", "set med")


def med(folder: Folder, _options: Options) -> None:
    """Cuts how MEDs are compared where nothing sets one."""
    processes = [process for router in folder.routers for process in router.with_head("router", "bgp")]
    words = first_words(MED_LINES)
    lines = [line for process in processes for word in words for line in process.by_word.get(word, ())]
    if not any(begins(line, MED_LINES) for line in lines):
        return
    given = any(
        "metric" in line.words
        for router in folder.routers
        for stanza in router.stanzas
        for line in (stanza.head, *stanza.by_word.get("redistribute", ()))
        if line.words[:1] == ["redistribute"]
    )
    if given or any_begins(folder.routers, SETS_MED):
        return
    for process in processes:
        cut_lines(process, folder.log, NO_MED, lambda line: begins(line, MED_LINES), words)


def defaults(folder: Folder, _options: Options) -> None:
    """Cuts lines that say a default."""
    for router in folder.routers:
        for process in router.with_head("router", "bgp"):
            cut_lines(
                process,
                folder.log,
                DEFAULTS,
                lambda line: begins(line, DEFAULT_LINES) and not folder.takes("bgp", line.text),
                first_words(DEFAULT_LINES),
            )


def distances(folder: Folder, _options: Options) -> None:
    """Cuts administrative distances where nothing competes."""
    for router in folder.routers:
        for process in router.with_head("router"):
            if "distance" in process.by_word and not _competes(router):
                cut_lines(process, folder.log, DISTANCE, _is_plain_distance, ("distance",))


def _is_plain_distance(line: Line) -> bool:
    words = line.words
    values = [int(word) for word in words if word.isdigit()]
    return (
        words[0] == "distance"
        and bool(values)
        and max(values) < 255
        and words[1:2] != ["ospf"]
        and all(word.isdigit() or word == "bgp" for word in words[1:])
    )


def _competes(router: Source) -> bool:
    processes = list(router.with_head("router"))
    others = ("static", "ospf", "bgp", "rip", "isis", "eigrp", "babel")
    return (
        len(processes) > 1
        or any(router.with_head("ip", "route"))
        or any(is_set_aside(router, other) for other in others)
    )
