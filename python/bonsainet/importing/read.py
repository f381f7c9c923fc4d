"""A folder of configurations as routers: a file for each router, one file with several, or a folder of FRR's files for
each.

It takes backups as people, RANCID and Batfish snapshots (`configs/`) keep them. What terminals put in is taken out
here; what lines mean is the rules' to say.
"""
from __future__ import annotations

import argparse
import errno
import fnmatch
import os
import re
from collections.abc import Sequence
from pathlib import Path

from bonsainet.cli import streams
from bonsainet.cli.command_line import Refused, one_line, read_file
from bonsainet.cli.progress import counted_off
from bonsainet.importing.cleaning import cleaned, text_behind
from bonsainet.importing.daemons import without_stopped
from bonsainet.importing.folder import Dialect, Folder, Source
from bonsainet.importing.names import same_names, told_of_same
from bonsainet.importing.rule import Log, rule
from bonsainet.configs.text import Line, Place, Stanza, lines_of

NOT_READ = (
    ".jpg",
    ".jpeg",
    ".gif",
    ".xml",
    ".dia",
    ".env",
    ".json",
    ".md",
    ".py",
    ".pdf",
    ".csv",
    ".yaml",
    ".yml",
    ".png",
    ".svg",
    ".dot",
    ".html",
    ".gz",
    ".zip",
    ".tar",
    ".log",
)
FRR_FILES = ("frr.conf", "zebra.conf", "bgpd.conf", "ospfd.conf", "staticd.conf")
FRR_OTHERS = (
    "ospf6d.conf",
    "ripd.conf",
    "ripngd.conf",
    "isisd.conf",
    "ldpd.conf",
    "pimd.conf",
    "bfdd.conf",
    "eigrpd.conf",
    "babeld.conf",
    "fabricd.conf",
    "nhrpd.conf",
)
PROTOCOL = {"fabric": "openfabric"}
STANDARD_INPUT = Path("/dev/stdin")
# (much more than any device has; what has no end has more)
LONGEST_FILE = 67_108_864
HOSTNAME = rule(
    "hostname", "a router without a host name has the name of its file or folder", "the names of backups, RANCID"
)
END = rule("end", "each router of a text ends with the line `end`", "the profile")
EXIT = rule(
    "exit",
    "the line leaves a stanza, which the next top line does too",
    "FRR user guide, VTY modes; Cisco IOS Configuration Fundamentals",
)
MERGED = rule(
    "stanza-parts",
    "lines of one stanza in several places count as if they were in one",
    "FRR user guide; Cisco IOS Configuration Fundamentals",
)

FRR_TOP = re.compile(
    r"(interface|int|router|route-map|line|vrf|key|hostname|password|enable|log|debug|no debug|service|frr|agentx|end|access-list|"
    r"(ip|ipv6) (prefix-list|route|forwarding|protocol|nht|import-table|community-list|as-path|large-community-list|extcommunity-list|router-id|access-list|multicast|mroute)|"
    r"no (ip|ipv6) (forwarding|prefix-list|route)|bgp (community-list|as-path|large-community-list|extcommunity-list|community|send-extra-data|route-map|no-rib)|"
    r"no bgp send-extra-data|banner|segment-routing|username|bfd|nexthop-group|pbr-map|mpls ldp|l2vpn|dump|rpki|allow-reserved-ranges|zebra|no zebra|no log|pseudowire|msdp|exit-vnc)(?=\s|$)"
)
FRR_LEAVES = re.compile(r"(exit|quit|exit-vrf|exit-route-map|exit-interface|exit-router)$")
# (of texts with the end of a line before each line)
SIGNS = (
    "frr version",
    "frr defaults",
    "service integrated-vtysh-config",
    "bgp community-list",
    "no bgp ebgp-requires-policy",
)
FRR_SIGNS = re.compile(rf"\n\s*({'|'.join(SIGNS)})")
OTHERS = (
    ("NX-OS", re.compile(r"\n(feature (bgp|ospf|interface-vlan|lacp)|vdc \S+ id )")),
    ("Arista EOS", re.compile(r"\n(! device: .*EOS|service routing protocols model)")),
    ("IOS XR", re.compile(r"\n(!! IOS XR|interface MgmtEth|route-policy )")),
    (
        "Junos",
        re.compile(r"\n(## Last commit|set (system|interfaces|protocols) |(system|interfaces|protocols) \{)"),
    ),
)
ANY_OTHER = re.compile(r"\n(?:" + "|".join(signs.pattern.removeprefix(r"\n") for _, signs in OTHERS) + ")")
# The first words of lines that a router has, and of stanzas whose parts are put together.
OF_ROUTERS = {"hostname", "interface", "router", "int"}


class _Reading:
    """A folder while it is read: its routers so far, the files that cannot be read as routers, and the names that are
    left out."""

    def __init__(self, skip: Sequence[str]) -> None:
        self.folder = Folder([], {})
        self.refused: list[str] = []
        self.skip = dict.fromkeys(skip, False)

    def leaves_out(self, path: Path, name: str) -> bool:
        """Whether a pattern leaves a file or a folder out, which is reported."""
        pattern = next(
            (it for it in self.skip if fnmatch.fnmatchcase(path.name, it) or fnmatch.fnmatchcase(name, it)), None
        )
        if pattern is None:
            return False
        self.skip[pattern] = True
        self.folder.log.remarks.append(f"{name} was not read: --skip {pattern} leaves it out")
        return True

    def add(self, path: Path, name: str, is_frr: bool = False) -> None:
        """Adds the routers of a file, or notes why there are none."""
        try:
            self.folder.routers += _routers_of_file(path, name, self.folder, is_frr, path.stem)
        except Refused as refused:
            self.refused.append(str(refused))

    def ended(self, name: str) -> Folder:
        """What was read. Refused where a file cannot be read as routers, all such files at once and with them the copies
        of routers, or where there is no router."""
        hint = "what is no router's can be moved elsewhere, or left out by --skip"
        if self.refused:
            self.refused += [
                f"{router.file}: {told_of_same(other, router)}" for other, router in same_names(self.folder)
            ]
        if len(self.refused) == 1:
            raise Refused(f"{self.refused[0]}; {hint}")
        if self.refused:
            raise Refused(
                f"{name}: {len(self.refused)} files cannot be read as routers of their own; {hint}",
                [f"  {one_line(it)}" for it in self.refused],
            )
        if not self.folder.routers:
            raise Refused(f"{name}: no file with a router's configuration")
        self.folder.log.remarks += [
            f"--skip {pattern} leaves nothing out" for pattern, is_used in self.skip.items() if not is_used
        ]
        return self.folder


def add_skip(made: argparse.ArgumentParser) -> None:
    """Gives a tool that reads a folder the option that leaves files out."""
    told = "leave out files and folders of this name, in which * stands for anything (may be repeated)"
    made.add_argument("--skip", metavar="PATTERN", action="append", default=[], help=told)


def read_given(names: Sequence[str], skip: Sequence[str] = ()) -> Folder:
    """The routers of one folder, or of files in the order in which they are given."""
    return read_folder(names[0], skip) if len(names) == 1 and Path(names[0]).is_dir() else read_files(names, skip)


def read_files(names: Sequence[str], skip: Sequence[str] = ()) -> Folder:
    """The routers of files, `-` for standard input. Refused where there are none, or where files of one router's
    daemons stand apart."""
    found = _Reading(skip)
    daemons = [path for path in map(Path, names) if path.name in FRR_FILES]
    if len({path.parent for path in daemons}) < len(daemons):
        raise Refused(f"{daemons[0].parent}: the files of FRR's daemons are those of one router: give their folder")
    for name in counted_off("files read", len(names), names):
        path = STANDARD_INPUT if name == "-" else Path(name)
        if not found.leaves_out(path, name):
            found.add(path, "standard input" if name == "-" else name, path.name in FRR_FILES)
    return found.ended(names[0] if len(names) == 1 else "the files")


def read_folder(name: str, skip: Sequence[str] = ()) -> Folder:
    """The routers of a folder, in the order of their names. Refused where there are none. OSError where there is no
    folder."""
    top = Path(name)
    if not top.is_dir():
        fault = errno.ENOTDIR if top.exists() else errno.ENOENT
        raise OSError(fault, os.strerror(fault), name)
    found = _Reading(skip)
    if (top / "configs").is_dir():
        top = top / "configs"
    if len(_frr_files(top)) > 1:
        _read_router_folder(top, top, found)
        return found.ended(name)
    has_folders = any(_frr_files(path) for path in top.iterdir() if path.is_dir())
    paths = sorted(top.iterdir())
    for path in counted_off("files read", len(paths), paths):
        if path.name.startswith(".") or path.name.endswith("~") or found.leaves_out(path, path.name):
            continue
        if path.is_dir():
            _read_router_folder(top, path, found)
        elif path.exists() and not path.is_file():
            found.folder.log.remarks.append(f"{path.name} was not read: it is no file")
        elif path.suffix in NOT_READ or has_folders:
            found.folder.log.remarks.append(
                f"{path.name} was not read: {'by its name it is no configuration' if path.suffix in NOT_READ else 'each router here has a folder'}"
            )
        else:
            found.add(path, path.name, path.name in FRR_FILES)
    return found.ended(name)


def _read_router_folder(top: Path, path: Path, found: _Reading) -> None:
    """Reads a folder with FRR's files as one router, and another one as a folder of routers."""
    folder = found.folder
    files = _frr_files(path)
    if not files and any(_frr_files(other) for other in top.iterdir() if other.is_dir()):
        folder.log.remarks.append(f"{path.name} was not read: it has none of FRR's files")
        return
    if not files:
        inners = sorted(path.iterdir())
        for inner in counted_off("files read", len(inners), inners):
            name = str(inner.relative_to(top))
            if (
                inner.is_file()
                and not inner.name.startswith(".")
                and inner.suffix not in NOT_READ
                and not found.leaves_out(inner, name)
            ):
                found.add(inner, name)
        return
    whole = Source("", dialect=Dialect.FRR, file=str(path.relative_to(top)))
    for file in files:
        lines = _lines(file, str(file.relative_to(top)), folder)
        whole.stanzas += _frr_stanzas(cleaned(lines, text_behind(lines), folder.log, True), folder.log)
    whole.stanzas = without_stopped(whole.stanzas, path, folder.log)
    for other in FRR_OTHERS:
        if (path / other).is_file() and (path / other).read_text("latin-1").strip():
            daemon = other.removesuffix("d.conf")
            whole.unread += (PROTOCOL.get(daemon, daemon),)
            folder.log.remarks.append(
                f"{path.relative_to(top)}/{other} was not read: its daemon carries no IPv4 routes of BGP or OSPF"
            )
    _finish(whole, path.name, folder)
    folder.routers.append(whole)


def _frr_files(path: Path) -> list[Path]:
    """The files of FRR's daemons in a folder, in the order in which they are read."""
    return [path / file for file in FRR_FILES if (path / file).is_file()]


def _lines(path: Path, name: str, folder: Folder) -> list[Line]:
    most = LONGEST_FILE + 1
    data = streams.standard_input(most) if path == STANDARD_INPUT else read_file(str(path), most)
    if len(data) == most:
        raise Refused(f"{name}: has more than {LONGEST_FILE} bytes")
    if data.startswith((b"\xff\xfe", b"\xfe\xff")):
        data = data.decode("utf-16", "replace").encode()
    if b"\0" in data:
        raise Refused(f"{name}: not a text, it has bytes of value 0")
    try:
        text = data.decode("utf-8-sig")
    except UnicodeDecodeError:
        text = data.decode("latin-1")
    lines = lines_of(text, name)
    folder.raw.update({line.place: line.text for line in lines})
    return lines


def _routers_of_file(path: Path, name: str, folder: Folder, is_frr: bool, stem: str) -> list[Source]:
    lines = _lines(path, name, folder)
    text = text_behind(lines)
    is_frr = is_frr or any(sign in text for sign in SIGNS) and bool(FRR_SIGNS.search(text))
    for system, signs in OTHERS if not is_frr and ANY_OTHER.search(text) else ():
        if signs.search(text):
            raise Refused(
                f"{name}: written for {system}, whose lines and defaults are others; configurations of Cisco IOS and FRR are read"
            )
    pieces = _pieces(cleaned(lines, text, folder.log, is_frr), folder.log)
    found: list[Source] = []
    for piece in pieces:
        if not any(line.words and line.words[0] in OF_ROUTERS for line in piece):
            stray = [line for line in piece if not line.is_blank]
            if stray and len(pieces) > 1 and not found:
                raise Refused(f"{name}:{stray[0].place.line}: no router in these lines: {stray[0].text.strip()[:40]!r}")
            folder.log.cut(stray, END)
            continue
        stanzas = _frr_stanzas(piece, folder.log) if is_frr else _ios_stanzas(piece, folder.log)
        router = Source("", stanzas, Dialect.FRR if is_frr else Dialect.IOS, name)
        _finish(router, stem, folder)
        found.append(router)
    if not found:
        raise Refused(f"{name}: no router in this file")
    return found


def _pieces(lines: list[Line], log: Log) -> list[list[Line]]:
    """The lines between lines `end`."""
    pieces: list[list[Line]] = []
    begin = 0
    for at in [at for at, line in enumerate(lines) if line.words == ["end"]]:
        log.by(lines[at], END)
        pieces.append(lines[begin:at])
        begin = at + 1
    return [*pieces, lines[begin:]]


def _ios_stanzas(lines: list[Line], log: Log) -> list[Stanza]:
    """Stanzas by indentation. Comments between an open stanza and its next line stay inside it."""
    parts: list[tuple[Line, list[Line]]] = []
    body: list[Line] | None = None
    blank: Line | None = None
    for line in lines:
        if line.is_blank:
            blank = blank or line
        elif line.words == ["exit"]:
            log.by(line, EXIT)
        elif body is not None and line.is_indented:
            body.append(line)
            blank = None
        else:
            if blank:
                parts.append((blank, []))
            body, blank = [], None
            parts.append((line, body))
    return [Stanza(head, own) for head, own in parts]


def _frr_stanzas(lines: list[Line], log: Log) -> list[Stanza]:
    """Stanzas by FRR's rule: a line belongs to the open one if its mode knows it, however it is indented."""
    stanzas: list[Stanza] = []
    is_open = is_in_link = False
    for line in lines:
        text = " ".join(line.words)
        if line.is_blank or text.startswith("#"):
            continue
        if is_open and (is_in_link or text == "link-params"):
            is_in_link = text != "exit-link-params"
            stanzas[-1].body.append(line.with_text(f" {text}"))
            continue
        if FRR_LEAVES.fullmatch(text):
            log.by(line, EXIT)
            is_open = False
        elif (
            is_open
            and not FRR_TOP.match(text)
            and text != "end"
            or is_open
            and (stanzas[-1].starts("vrf") or stanzas[-1].starts("mpls", "ldp"))
            and line.is_indented
        ):
            stanzas[-1].body.append(line.with_text(f" {text}"))
        elif text == "end":
            log.by(line, END)
            is_open = False
        else:
            stanzas.append(Stanza(line.with_text(text)))
            is_open = bool(
                re.match(
                    r"(interface|int|router|route-map|line|vrf|key|bfd|segment-routing|nexthop-group|pbr-map|mpls ldp|l2vpn|rpki|pseudowire)\b",
                    text,
                )
            )
    return stanzas


def _finish(router: Source, stem: str, folder: Folder) -> None:
    """Puts together the parts of one stanza, and gives a name to a router without one."""
    kept: dict[tuple[str, ...], Stanza] = {}
    stanzas = []
    for stanza in router.stanzas:
        words = stanza.head.words
        if not words or words[0] not in OF_ROUTERS:
            stanzas.append(stanza)
            continue
        key = ("interface" if words[0] == "int" else words[0], *words[1:])
        if key in kept:
            folder.log.cut([stanza.head, *stanza.body], MERGED)
            kept[key].body += stanza.body
        else:
            kept[key] = stanza
            stanzas.append(stanza)
    named = [key[1] for key in kept if key[0] == "hostname" and len(key) == 2]
    if named:
        router.name = named[0]
    else:
        name = re.sub(r"[^A-Za-z0-9_.-]", "-", stem).lstrip("-_.")[:63] or "router"
        router.name = name
        stanzas.insert(0, Stanza(Line(f"hostname {name}", Place(router.file, 0))))
        folder.log.remarks.append(
            f"{router.file}: the router has no host name, and has the name {name} of its file or folder"
        )
    router.stanzas = stanzas
