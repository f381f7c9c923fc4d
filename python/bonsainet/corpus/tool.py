"""What becomes of the networks of FRR's topology tests: each is imported, and the outcomes are one table.

The tests are those of the Debian source package `frr`, which `--fetch` fetches. A network is a test with two or more
routers that have `zebra.conf` and `bgpd.conf` or `ospfd.conf`, or `frr.conf` with BGP or OSPF.
"""
from __future__ import annotations

import argparse
import concurrent.futures
import dataclasses
import errno
import os
import re
import sys
from collections import Counter
from pathlib import Path

from bonsainet.cli.command_line import Refused, parser
from bonsainet.corpus.fetch import fetch
from bonsainet.corpus.reasons import reason_of
from bonsainet.corpus.run import run_on_frr
from bonsainet.corpus.tables import Compared, compare
from bonsainet.importing.decisions import read_decisions
from bonsainet.importing.report import Report, report_of
from bonsainet.importing.read import read_folder
from bonsainet.importing.rules.costs import FRR_LOOPBACK
from bonsainet.importing.rules.options import Options
from bonsainet.importing.tool import work
from bonsainet.ask.program import Program
from bonsainet.configs.text import text_of

PURPOSE = "Imports each network of FRR's topology tests and prints the table of outcomes."
EXPLAINED = {
    "ldp_oc_topo1": "the files name an interface `r2-eths2` that the test's router does not have, so in the test there is no link 10.0.3.0/24 between r2 and r3",
    "ldp_oc_acl_topo1": "the same, by the same file",
}
VETH = 'bandwidth "*eth*" 10000000 because "the tests join routers by veth pairs, for which Linux reports 10 Gbit/s"\n'
AT_ONCE = 2


@dataclasses.dataclass
class Outcome:
    """What became of one network."""

    name: str
    routers: int
    status: str
    classes: int
    reasons: list[str]
    compared: Compared | None = None


def networks(top: Path) -> list[Path]:
    """The folders of the tests with two or more routers that have BGP or OSPF."""
    found = []
    for folder in sorted(path for path in top.iterdir() if path.is_dir()):
        routers = [inner for inner in folder.iterdir() if inner.is_dir() and _is_router(inner)]
        if len(routers) >= 2:
            found.append(folder)
    return found


def _is_router(folder: Path) -> bool:
    if (folder / "frr.conf").is_file():
        return bool(re.search(r"^\s*router (bgp|ospf)\b", (folder / "frr.conf").read_text("latin-1"), re.MULTILINE))
    return (folder / "zebra.conf").is_file() and any((folder / file).is_file() for file in ("bgpd.conf", "ospfd.conf"))


def outcome(folder: Path, program: Program) -> Outcome:
    """Imports a network as it stands, with the speed of its links told, and then with AS numbers of their own where
    that is all that lacks."""
    report = _import(folder, program, Options())
    how = "accepted"
    if {found.name for found in report.folder.log.refusals} == {"shared-as"}:
        report, how = _import(folder, program, Options(own_as=True)), "accepted with --own-as"
    if any(found.kind == "OtherArea" for found in report.folder.log.refusals):
        report, how = _of_one_area(folder, program, report)
    log = report.folder.log
    if log.refusals:
        counted = Counter(reason_of(found.name, found.text, found.kind) for found in log.refusals)
        return Outcome(
            folder.name,
            len(report.folder.routers),
            "refused",
            0,
            [f"{name} ({count})" for name, count in counted.most_common()],
        )
    classes = program.classes(text_of(report.folder.routers))
    if any("bandwidth of" in found.text for found in log.assumptions):
        how += ", speed of links decided"
    if any(found.reason == FRR_LOOPBACK.reason for found in log.assumptions):
        how += ", loopbacks at cost 1 for 0"
    return Outcome(
        folder.name, len(report.folder.routers), how, len(classes), [], compare(folder, report.folder.routers, program)
    )


def _of_one_area(folder: Path, program: Program, whole: Report) -> tuple[Report, str]:
    """The import of the first area that is accepted alone, else that of the whole network."""
    text = "".join(file.read_text("latin-1") for file in sorted(folder.glob("*/*.conf")))
    for number in sorted({int(found) for found in re.findall(r"(?m)^ .*\barea (\d+)$", text)}):
        report = _import(folder, program, Options(area=number))
        if not report.folder.log.refusals:
            return report, f"area {number} accepted with --area"
    return whole, "accepted"


def _import(folder: Path, program: Program, options: Options) -> Report:
    read = read_folder(str(folder))
    work(read, program, read_decisions(VETH, "veth"), options)
    return report_of(read)


def table(found: list[Outcome]) -> str:
    """The outcomes as a page."""
    accepted = [one for one in found if one.status != "refused"]
    areas = sum(one.status.startswith("area ") for one in accepted)
    with_classes = sum(one.classes > 0 for one in accepted)
    lines = [
        f"Of {len(found)} networks {len(accepted) - areas} are accepted, with nothing left out but by rules that say the same, and of {areas} more one area.",
        f"{with_classes} of them originate an IPv4 prefix in the global table. In the others all routes are those of VRFs or of IPv6.",
        "",
    ]
    lines += ["| network | routers | outcome | classes | routes compared | reasons |", "|---|---|---|---|---|---|"]
    lines += [
        f"| {one.name} | {one.routers} | {one.status} | {one.classes or ''} | {_compared(one)} | {', '.join(one.reasons)} |"
        for one in found
    ]
    lines += ["", *[f"- {one.name}: {line}" for one in found if one.compared for line in one.compared.differing]]
    lines += ["", *[f"{name}: {why}." for name, why in EXPLAINED.items()]]
    counted = Counter(reason.rpartition(" (")[0] for one in found for reason in one.reasons)
    lines += [
        "",
        "| reason | networks |",
        "|---|---|",
        *[f"| {name} | {count} |" for name, count in counted.most_common()],
    ]
    return "\n".join(lines) + "\n"


def _compared(one: Outcome) -> str:
    if one.compared is None:
        return ""
    return (
        f"{one.compared.routes}, {len(one.compared.differing)} differ"
        if one.compared.differing
        else f"{one.compared.routes}, all alike"
    )


def command_line() -> argparse.ArgumentParser:
    """The tool's command line."""
    made = parser("corpus", PURPOSE)
    made.add_argument(
        "folder",
        help="the folder `tests/topotests` of FRR's source; with --fetch the folder that the source is fetched into",
    )
    made.add_argument("--fetch", action="store_true", help="fetch the source package of FRR, unless it is there")
    made.add_argument("--only-fetch", action="store_true", help="fetch it and import nothing")
    made.add_argument(
        "--run",
        metavar="NETWORK",
        action="append",
        default=[],
        help="run this network on FRR itself, as root, and compare what it rests in",
    )
    made.add_argument("--seconds", type=int, default=30, help="how long FRR is given to rest")
    return made


def main(argv: list[str] | None = None) -> int:
    """Runs the tool."""
    words = command_line().parse_args(argv)
    top = fetch(Path(words.folder).resolve()) if words.fetch or words.only_fetch else Path(words.folder)
    if words.only_fetch:
        return 0
    if not top.is_dir():
        raise FileNotFoundError(errno.ENOENT, os.strerror(errno.ENOENT), str(top))
    program = Program()
    for name in words.run:
        sys.stdout.write(_run(top / name, program, words.seconds))
        sys.stdout.flush()
    if words.run:
        return 0
    with concurrent.futures.ThreadPoolExecutor(AT_ONCE) as pool:
        found = list(pool.map(lambda folder: _outcome(folder, program), networks(top)))
    sys.stdout.write(table(found))
    return 0


def _run(folder: Path, program: Program, seconds: int) -> str:
    """Runs a network on FRR, and counts the labels that are alike."""
    report = _import(folder, program, Options(own_as=True))
    if any(found.kind == "OtherArea" for found in report.folder.log.refusals):
        report, _ = _of_one_area(folder, program, report)
    if report.folder.log.refusals:
        raise Refused(f"{folder.name}: it is not accepted")
    numbered = {found.text.split()[2] for found in report.folder.log.assumptions if "--own-as" in found.reason}
    found = run_on_frr(folder, report.folder, program, seconds, numbered.pop() if len(numbered) == 1 else "")
    lines = [
        f"{folder.name}: {found.labels} labels, {len(found.differing)} differ, {len(found.tied)} have the same key over another path"
    ]
    return "\n".join([*lines, *(f"  {line}" for line in [*found.differing, *found.tied])]) + "\n"


def _outcome(folder: Path, program: Program) -> Outcome:
    try:
        return outcome(folder, program)
    except Refused as refused:
        return Outcome(folder.name, 0, "refused", 0, [f"reading: {str(refused).rpartition(': ')[2]} (1)"])
