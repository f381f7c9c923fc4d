"""A folder of FRR's configurations run on FRR itself, in network namespaces, and compared with the labels of its
import.

It is run by hand, as root. Interfaces in one subnet share a bridge. What it starts it ends: daemons by their numbers,
and then the namespaces.
"""
from __future__ import annotations

import contextlib
import dataclasses
import json
import os
import re
import shutil
import signal
import subprocess
import tempfile
import time
from collections.abc import Iterator
from ipaddress import IPv4Interface
from pathlib import Path

from bonsainet.cli.command_line import Refused
from bonsainet.importing.folder import Folder, Source, first
from bonsainet.importing.read import read_folder
from bonsainet.ask.program import Program
from bonsainet.configs.text import text_of

DAEMONS = ("zebra", "bgpd", "ospfd", "staticd")
PLACE = Path("/usr/lib/frr")
# FRR's JSON has names of its own for well-known communities.
NAMES = {"noExport": "no-export", "noAdvertise": "no-advertise", "localAs": "local-AS"}
DEFAULT = 100
OWN = re.compile(r"\b42000000\d\d\b")


@dataclasses.dataclass
class Rested:
    """How many labels were compared, those that differ, and those that have the key of the label and another path."""

    labels: int
    differing: list[str]
    tied: list[str]


def run_on_frr(folder: Path, given: Folder, program: Program, seconds: int, shared: str = "") -> Rested:
    """Runs a folder, waits, and compares each router's best BGP route for each prefix, or the cost of its OSPF route
    inside the area, with its label at rest in the text that was imported from it, with the device's preferences and
    well-known communities put back.

    `shared` is the AS number that `--own-as` separated, put back into the paths of the labels. Refused without root or
    FRR.
    """
    routers = read_folder(str(folder)).routers
    with on_frr(folder, routers) as (room, _):
        time.sleep(seconds)
        return _compare(routers, room, given, program, shared)


@contextlib.contextmanager
def on_frr(folder: Path, routers: list[Source]) -> Iterator[tuple[Path, dict[str, str]]]:
    """FRR's daemons of the routers of a folder, while they run: the folder with a socket of each router, by its name, and
    the namespaces. Refused without root or FRR."""
    if os.geteuid() != 0 or not PLACE.is_dir():
        raise Refused("to run FRR takes root and the package frr")
    signal.signal(signal.SIGTERM, _interrupt)
    with contextlib.ExitStack() as ends:
        room = Path(ends.enter_context(tempfile.TemporaryDirectory(prefix="bonsai-run-")))
        room.chmod(0o755)
        spaces = [
            ends.enter_context(_namespace(f"bonsai-{os.getpid()}-{number}")) for number in range(len(routers) + 1)
        ]
        _join(routers, spaces)
        for router, space in zip(routers, spaces):
            ends.enter_context(_daemons(folder, router, space, room / router.name))
        yield room, {router.name: space for router, space in zip(routers, spaces)}


@contextlib.contextmanager
def _namespace(name: str) -> Iterator[str]:
    _do("ip", "netns", "add", name)
    try:
        _do("ip", "-n", name, "link", "set", "lo", "up")
        yield name
    finally:
        subprocess.run(["ip", "netns", "del", name], check=False)


def _join(routers: list[Source], spaces: list[str]) -> None:
    """Gives each interface with an address a wire to the bridge of its subnet, in the last namespace."""
    switch = spaces[-1]
    bridges: dict[str, str] = {}
    count = 0
    for router, space in zip(routers, spaces):
        for stanza in router.stanzas:
            words = stanza.head.words
            address = next(
                (
                    line.words[2]
                    for line in stanza.body
                    if line.words[:1] == ["ip"] and line.words[1] in ("address", "addr") and "/" in line.text
                ),
                None,
            )
            if words[0] not in ("int", "interface") or words[1] == "lo" or len(words) > 2 or address is None:
                continue
            subnet = str(IPv4Interface(address).network)
            if subnet not in bridges:
                bridges[subnet] = f"b{len(bridges)}"
                _do("ip", "-n", switch, "link", "add", bridges[subnet], "type", "bridge")
                _do("ip", "-n", switch, "link", "set", bridges[subnet], "up")
            count += 1
            _do(
                "ip", "-n", switch, "link", "add", f"w{count}", "type", "veth", "peer", "name", words[1], "netns", space
            )
            _do("ip", "-n", switch, "link", "set", f"w{count}", "master", bridges[subnet], "up")
            _do("ip", "-n", space, "link", "set", words[1], "up")


@contextlib.contextmanager
def _daemons(folder: Path, router: Source, space: str, room: Path) -> Iterator[None]:
    """FRR's daemons of a router, with the files of the folder."""
    room.mkdir()
    shutil.chown(room, "frr", "frr")
    try:
        for daemon, file in _files(folder, router):
            own = room / f"{daemon}.conf"
            own.write_bytes(file.read_bytes() if file else b"")
            shutil.chown(own, "frr", "frr")
            words = (
                "-d",
                "-f",
                str(own),
                "-i",
                f"{room}/{daemon}.pid",
                "-z",
                f"{room}/zserv.api",
                "--vty_socket",
                str(room),
                "-A",
                "127.0.0.1",
            )
            _do("ip", "netns", "exec", space, str(PLACE / daemon), *words)
        yield
    finally:
        for file in sorted(room.glob("*.pid")):
            with contextlib.suppress(ValueError, ProcessLookupError):
                os.kill(int(file.read_text()), signal.SIGTERM)


def _files(folder: Path, router: Source) -> Iterator[tuple[str, Path | None]]:
    """The file of each daemon that a router needs."""
    top = folder / "configs" if (folder / "configs").is_dir() else folder
    place = top / router.file
    for daemon in DAEMONS:
        whole = place if place.is_file() else place / "frr.conf"
        own = place / f"{daemon}.conf"
        if own.is_file() or (whole.is_file() and daemon != "staticd"):
            yield daemon, own if own.is_file() else whole
        elif daemon == "zebra":
            yield daemon, None


def _compare(routers: list[Source], room: Path, given: Folder, program: Program, shared: str) -> Rested:
    found = Rested(0, [], [])
    text = text_of(given.routers)
    preferences = {router.name: router.preferences for router in given.routers}
    prefixes = [prefix for one in program.classes(text) for prefix in one.prefixes]
    names = {router.name for router in given.routers}
    routers = [router for router in routers if router.name in names]
    is_bgp = any(router.process("bgp") for router in given.routers)
    held = {
        router.name: (
            _held(room / router.name, prefixes, _preference(router)) if is_bgp else _costs(room / router.name, prefixes)
        )
        for router in routers
    }
    for one in program.classes(text):
        lines = program.done("run", "F", str(one.number), "S", texts={"F": text, "S": "*\n" * 20}).splitlines()[1:]
        labels = {line.split()[0]: " ".join(line.split()[1:]) for line in lines}
        for router in routers:
            for prefix in one.prefixes:
                label = OWN.sub(shared, labels[router.name]) if shared else labels[router.name]
                label = _of_device(label, preferences[router.name], given.held)
                other = held[router.name][prefix]
                found.labels += 1
                if other != label and not (_is_own(other) and _is_own(label)):
                    told = f"{router.name} {prefix}: {label} here, {other} on FRR"
                    (found.tied if _key(other) == _key(label) else found.differing).append(told)
    return found


def _preference(router: Source) -> int:
    """The preference that a router gives to routes which come without one."""
    process = router.process("bgp")
    line = first(process, "bgp", "default", "local-preference") if process else None
    return int(line.words[3]) if line and line.words[3:] and line.words[3].isdecimal() else DEFAULT


def _held(room: Path, prefixes: list[str], preference: int) -> dict[str, str]:
    """The best route of a router for each prefix, written as a label."""
    words = [word for prefix in prefixes for word in ("-c", f"show bgp ipv4 unicast {prefix} json")]
    told = subprocess.run(
        ["vtysh", "--vty_socket", str(room), *words], capture_output=True, text=True, check=False
    ).stdout.strip()
    found = {}
    for prefix in prefixes:
        answer, end = json.JSONDecoder().raw_decode(told) if told.startswith("{") else ({}, 0)
        told = told[end:].lstrip()
        found[prefix] = _label(answer.get("paths", []), preference)
    return found


def _costs(room: Path, prefixes: list[str]) -> dict[str, str]:
    """The cost of a router's OSPF route inside the area to each prefix, written as a label."""
    told = subprocess.run(
        ["vtysh", "--vty_socket", str(room), "-c", "show ip ospf route json"],
        capture_output=True,
        text=True,
        check=False,
    ).stdout
    found = json.loads(told) if told.startswith("{") else {}
    return {
        prefix: f"cost {found[prefix]['cost']}" if found.get(prefix, {}).get("routeType") == "N" else "none"
        for prefix in prefixes
    }


def _label(paths: list[dict], preference: int) -> str:
    """The best of some paths as a label. FRR shows no preference where none came, and takes the router's own."""
    best = next((path for path in paths if path.get("bestpath", {}).get("overall")), None)
    if best is None:
        return "none"
    path = best.get("aspath", {}).get("string", "").replace("Local", "")
    communities = " ".join(NAMES.get(word, word) for word in best.get("community", {}).get("list", []))
    return " ".join(f"bgp {best.get('locPrf', preference)} path {path} comms {communities}".split())


def _of_device(label: str, preferences: dict[int, int], held: dict[str, str]) -> str:
    """A label with the preference and the well-known communities that the device has for those of the text, and its
    path written out."""
    words = label.split()
    if words[0] != "bgp":
        return label
    at = words.index("comms")
    path = [number for word in words[3:at] for number in [word.partition("*")[0]] * int(word.partition("*")[2] or 1)]
    back = {word: name for name, word in held.items()}
    known = sorted((back.get(word, word) for word in words[at + 1 :]), key=_order)
    return " ".join(["bgp", str(preferences.get(int(words[1]), int(words[1]))), "path", *path, "comms", *known])


def _order(word: str) -> tuple[int, int]:
    """The order in which FRR shows communities: by value, and well-known ones behind all others."""
    high, _, low = word.partition(":")
    return (int(high), int(low)) if low else (0x10000, 0)


def _is_own(label: str) -> bool:
    """Whether a label is that of a router's own route, whose preference and communities are known where it leaves."""
    words = label.split()
    return words[0] == "bgp" and words[3:4] == ["comms"]


def _key(label: str) -> tuple[object, ...]:
    """Preference, length and communities of a label."""
    words = label.split()
    if words[0] != "bgp":
        return (label,)
    at = words.index("comms")
    return words[1], at - 3, tuple(words[at + 1 :])


def _interrupt(_number: int, _frame: object) -> None:
    raise KeyboardInterrupt


def _do(*words: str) -> None:
    told = subprocess.run(words, capture_output=True, text=True, check=False)
    if told.returncode:
        raise Refused(f"{' '.join(words[:4])}: {(told.stderr.strip().splitlines() or ['failed'])[-1]}")
