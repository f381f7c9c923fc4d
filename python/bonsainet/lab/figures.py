"""What the small network saves on real routers: rounds on FRR, kept as records, and the table and the plot that pages
show of them."""
from __future__ import annotations

import argparse
import datetime
import json
import os
import re
import subprocess
import sys
from pathlib import Path

from bonsainet.nets.campus import campus_text
from bonsainet.cli.command_line import Refused, parser
from bonsainet.nets.fat_tree import fat_tree_text
from bonsainet.lab.enclosure import refuse_unless_able
from bonsainet.lab.lab import Waiting
from bonsainet.lab.round_trip import MEBI, Round, Run, run_round
from bonsainet.ask.program import TOP, Program

RECORDS = TOP / "docs" / "data" / "rounds.json"
PLOT = TOP / "docs" / "data" / "rounds.svg"
PAGES = (TOP / "docs" / "use" / "ROUND-TRIP.md",)
BEGIN, END = "<!-- rounds: this table is written by dev/round-figures -->", "<!-- rounds: end -->"
PANELS = (
    ("rest", 1, "seconds until rest"),
    ("work", 1, "processor seconds of the daemons"),
    ("memory", MEBI, "memory of the daemons, MiB"),
)


def text_of(name: str) -> tuple[str, int]:
    """The text of a named network and the number of its class: `fat-tree-K`, or `campus-BxA` with B blocks of A access
    routers."""
    tree, campus = re.fullmatch(r"fat-tree-(\d+)", name), re.fullmatch(r"campus-(\d+)x(\d+)", name)
    if tree and int(tree[1]) % 2 == 0 and 4 <= int(tree[1]) <= 20:
        return fat_tree_text(int(tree[1])), 1
    if campus and 1 <= int(campus[1]) <= 100 and 1 <= int(campus[2]) <= 100:
        return campus_text(int(campus[1]), int(campus[2])), 1
    raise Refused(f"no network {name}: fat-tree-K with K even from 4 to 20, or campus-BxA with B and A from 1 to 100")


def measure(program: Program, name: str, waiting: Waiting) -> dict:
    """The record of a round of a named network."""
    text, number = text_of(name)
    load = os.getloadavg()[0]
    found = run_round(
        program, text, name, number, "frr", waiting, lambda line: print(f"{name}: {line}", file=sys.stderr, flush=True)
    )
    return record_of(name, found, load)


def record_of(name: str, found: Round, load: float) -> dict:
    """A round as a record. `load` is the load of the machine when it began, over one minute."""
    return {
        "network": name,
        "date": datetime.datetime.now(datetime.timezone.utc).strftime("%Y-%m-%d %H:%M"),
        "versions": versions(),
        "processors": os.cpu_count(),
        "load": round(load, 1),
        "large": _of_run(found.large),
        "small": _of_run(found.small),
        "lift": found.lifted,
        "keys": sum(map(len, found.large.rested.labels.values())),
        "keys unequal": len(found.unequal),
    }


def _of_run(run: Run) -> dict:
    rested = run.rested
    return {
        "routers": len(run.case.network.devices),
        "links": len(run.case.network.links),
        "daemons": rested.processes,
        "memory": rested.memory,
        "work": round(rested.work, 2),
        "setup": round(rested.setup, 2),
        "rest": round(rested.rest, 2),
        "check": run.verdict.word,
    }


def versions() -> str:
    """The versions of FRR and of the kernel."""
    told = subprocess.run(
        ["/usr/lib/frr/bgpd", "--version"], capture_output=True, text=True, check=False
    ).stdout.split()
    return f"FRR {told[2] if len(told) > 2 else 'unknown'}, Linux {os.uname().release}"


def table_of(records: list[dict]) -> str:
    """The table of all records, the large network's figure and then the small one's."""
    lines = [
        "| network | routers | links | seconds until rest | processor seconds | daemons | memory, MiB | `check` | `lift` | keys equal | load |",
        "|---|---|---|---|---|---|---|---|---|---|---|",
    ]
    for record in records:
        large, small = record["large"], record["small"]
        verdict = large["check"] if large["check"] == small["check"] else f"{large['check']}, {small['check']}"
        lines.append(
            f"| {record['network']} | {large['routers']}, {small['routers']} | {large['links']}, {small['links']} | {large['rest']:.1f}, {small['rest']:.1f} "
            f"| {large['work']:.1f}, {small['work']:.1f} "
            f"| {large['daemons']}, {small['daemons']} | {large['memory'] / MEBI:.0f}, {small['memory'] / MEBI:.0f} | {verdict} | {record['lift'] or '-'} "
            f"| {record['keys'] - record['keys unequal']} of {record['keys']} | {record['load']} |"
        )
    return "".join(f"{line}\n" for line in lines)


def with_table(page: str, table: str) -> str:
    """A page with the table between its marks. A page without marks stays as it is."""
    before, mark, rest = page.partition(BEGIN)
    _, end, after = rest.partition(END)
    return f"{before}{BEGIN}\n{table}{END}{after}" if mark and end else page


def draw(records: list[dict], place: Path) -> None:
    """The plot: seconds until rest and memory over the number of routers, of the large networks and of the small
    ones."""
    import matplotlib

    matplotlib.use("svg")
    matplotlib.rcParams["svg.hashsalt"] = "bonsai"
    from matplotlib import pyplot

    figure, axes = pyplot.subplots(1, 3, figsize=(12, 3.6))
    for kind, marker in (("fat-tree", "o"), ("campus", "s")):
        own = sorted(
            (record for record in records if record["network"].startswith(kind)),
            key=lambda record: record["large"]["routers"],
        )
        routers = [record["large"]["routers"] for record in own]
        for axis, (value, unit, _) in zip(axes, PANELS):
            for size, style in (("large", "-"), ("small", "--")):
                axis.plot(
                    routers,
                    [record[size][value] / unit for record in own],
                    style,
                    marker=marker,
                    label=f"{kind}, {size}",
                )
    for axis, (_, _, title) in zip(axes, PANELS):
        axis.set(xscale="log", yscale="log", xlabel="routers of the large network", title=title)
        axis.grid(True, which="both", alpha=0.3)
    axes[0].legend(fontsize=8)
    figure.tight_layout()
    figure.savefig(place, metadata={"Date": None})
    pyplot.close(figure)


def read_records(place: Path = RECORDS) -> list[dict]:
    """The records that are kept, of each network the newest."""
    return json.loads(place.read_text()) if place.exists() else []


def keep(records: list[dict], new: dict) -> list[dict]:
    """The records with a new one in the place of an older one of the same network, by the number of routers."""
    others = [record for record in records if record["network"] != new["network"]]
    return sorted(
        [*others, new], key=lambda record: (record["network"].split("-")[0] != "fat", record["large"]["routers"])
    )


def _words(argv: list[str] | None) -> argparse.Namespace:
    made = parser("round-figures", main.__doc__ or "")
    made.add_argument(
        "--measure", nargs="+", metavar="NETWORK", default=[], help="fat-tree-K or campus-BxA; needs root"
    )
    made.add_argument("--seconds", type=float, default=900.0, help="how long to wait for rest (default: 900)")
    made.add_argument("--quiet", type=float, default=5.0, help="how long no table may change at rest (default: 5)")
    return made.parse_args(argv)


def main(argv: list[str] | None = None) -> int:
    """Measures rounds of named networks, and writes the table and the plot of all that were measured into the pages."""
    words = _words(argv)
    records = read_records()
    if words.measure:
        refuse_unless_able()
        for name in words.measure:
            text_of(name)
        program = Program()
        for name in words.measure:
            records = keep(records, measure(program, name, Waiting(words.seconds, words.quiet)))
            RECORDS.write_text(json.dumps(records, indent=1) + "\n")
    for page in PAGES:
        page.write_text(with_table(page.read_text(), table_of(records)))
    draw(records, PLOT)
    sys.stdout.write(table_of(records))
    return 0
