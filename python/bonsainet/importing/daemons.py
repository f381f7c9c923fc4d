"""FRR's file `daemons`: a daemon that it does not start reads none of its lines."""
from __future__ import annotations

import re
from collections.abc import Iterator
from pathlib import Path

from bonsainet.configs.text import Line, Stanza
from bonsainet.importing.rule import Log, rule

STOPPED = rule(
    "frr-daemons",
    "the file `daemons` beside it does not start the daemon that would read this line",
    "FRR user guide, basic setup, `daemons`; FRR 8.4.4, tools/frrcommon.sh",
)
FILE = "daemons"
OFF = ("", "no", "0")
GIVEN = re.compile(r"^\s*(bgpd|ospfd)=[\"']?([^\"'\s#]*)", re.MULTILINE)


def without_stopped(stanzas: list[Stanza], folder: Path, log: Log) -> list[Stanza]:
    """The stanzas of a router's folder without what a daemon would read that its file `daemons` does not start. All of
    them where there is no such file."""
    if not (folder / FILE).is_file():
        return stanzas
    given = dict(GIVEN.findall((folder / FILE).read_text("latin-1")))
    stopped = [name for name in ("bgpd", "ospfd") if given.get(name, "") in OFF]
    return list(_kept(stanzas, stopped, log))


def _kept(stanzas: list[Stanza], stopped: list[str], log: Log) -> Iterator[Stanza]:
    for stanza in stanzas:
        words = stanza.head.words
        if words[:1] == ["router"] and f"{' '.join(words[1:2])}d" in stopped:
            log.cut(stanza.lines, STOPPED)
            continue
        cut = [line for line in stanza.body if "ospfd" in stopped and _is_of_ospf(line)]
        log.cut(cut, STOPPED)
        yield Stanza(stanza.head, [line for line in stanza.body if line not in cut]) if cut else stanza


def _is_of_ospf(line: Line) -> bool:
    """Whether a line of an interface is one of OSPF."""
    return line.words[:2] == ["ip", "ospf"] or line.words[:3] == ["no", "ip", "ospf"]
