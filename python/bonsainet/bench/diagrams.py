"""bench/diagrams: how large the diagrams of community lists are that permit and deny in turn and are matched together.

Without a program it builds the diagrams in a model, in several orders, and counts steps, nodes made and the nodes of
the outcome: where the outcome itself grows by a factor with each list, no order helps. With --program it asks that
program for `compress` over a network of two routers whose one route map matches the lists, and measures seconds, memory
and status, under a limit of address space if one is given.

A text is LISTSxLINESxCOMMUNITIES, as 4x32x128: lines take their communities at random from so many, the same ones each
time. With 0 communities no two lines name the same one.
"""
from __future__ import annotations

import argparse
import heapq
import os
import random
import re
import signal
import subprocess
import sys
import tempfile
import time
from collections.abc import Callable, Iterator
from pathlib import Path
from typing import Any

from bonsainet.bench.decisions import FALSE, TRUE, Store, TooMany
from bonsainet.bench.paper import TIME
from bonsainet.bench.states import program_at
from bonsainet.cli.command_line import Refused, parser

Line = tuple[bool, tuple[int, ...]]
Matched = list[Line]
REMEMBERED = 1048576
TEXTS = "2x32x0,3x32x0,4x32x0,2x32x128,3x32x128,4x32x128,5x32x128,8x32x32,32x32x32,8x32x48,32x32x48"


def words() -> argparse.ArgumentParser:
    """The words of the command line."""
    made = parser("diagrams", "Counts the diagrams of matched community lists, in a model or by a program.")
    made.add_argument("--texts", default=TEXTS, help="texts, as LISTSxLINESxCOMMUNITIES (default: %(default)s)")
    made.add_argument("--named", type=int, default=1, help="communities on each line (default: %(default)s)")
    made.add_argument("--order", action="append", choices=ORDERS, help="only this order (may be repeated)")
    made.add_argument(
        "--remembered",
        type=int,
        default=REMEMBERED,
        help="operations that the model remembers, 0 for all (default: %(default)s)",
    )
    made.add_argument(
        "--nodes", type=int, default=1000000, help="nodes from which the model gives up (default: %(default)s)"
    )
    made.add_argument("--program", type=Path, help="ask this program, and no model")
    made.add_argument("--kib", type=int, help="what `ulimit -v` is set to for the program")
    made.add_argument(
        "--seconds",
        type=int,
        default=95,
        help="processor seconds after which the program is ended (default: %(default)s)",
    )
    made.add_argument(
        "--write",
        action="store_true",
        help="write the network of the first text to standard output, and measure nothing",
    )
    return made


def main(argv: list[str] | None = None) -> None:
    """Runs the tool."""
    work(words().parse_args(argv))


def work(arguments: argparse.Namespace) -> None:
    """Measures and prints, row by row."""
    sys.setrecursionlimit(100000)
    texts = [shape_of(word) for word in arguments.texts.split(",")]
    if arguments.write:
        print(network(by_chance(*texts[0], arguments.named)), end="")
    elif arguments.program:
        program = program_at(arguments.program)
        if not os.access(TIME, os.X_OK):
            raise Refused("the program time is not there: install the package time")
        print("| lists | lines | communities | user s | MiB | outcome |\n|---:|---:|---:|---:|---:|---|")
        for shape in texts:
            print(
                row(
                    [
                        *shape,
                        *asked(program, network(by_chance(*shape, arguments.named)), arguments.kib, arguments.seconds),
                    ]
                ),
                flush=True,
            )
    else:
        print(
            "| lists | lines | communities | order | steps | nodes made | nodes of the outcome | s |\n|---:|---:|---:|---|---:|---:|---:|---:|"
        )
        for shape in texts:
            for order in arguments.order or ORDERS:
                print(
                    row(
                        [
                            *shape,
                            order,
                            *built(
                                ORDERS[order], by_chance(*shape, arguments.named), arguments.remembered, arguments.nodes
                            ),
                        ]
                    ),
                    flush=True,
                )


def shape_of(word: str) -> tuple[int, int, int]:
    """The numbers of a text."""
    try:
        lists, lines, communities = (int(part) for part in word.split("x"))
    except ValueError:
        raise Refused(f"--texts {word}: not LISTSxLINESxCOMMUNITIES") from None
    if lists < 1 or lines < 1 or communities < 0:
        raise Refused(f"--texts {word}: a text has at least one list and one line")
    return lists, lines, communities


def by_chance(lists: int, lines: int, communities: int, named: int) -> list[Matched]:
    """Lists whose lines permit and deny in turn. Refused where a list has no communities for its lines."""
    chance = random.Random(1)
    need = lines * named
    if named < 1 or (communities and named > communities):
        raise Refused(f"--named {named}: a line has at least one community, and no more than there are")
    if communities and need > communities and named == 1:
        raise Refused(f"{lines} lines need as many communities, and there are {communities}")
    pool = list(range(communities or lists * need))
    chance.shuffle(pool)
    found = []
    for place in range(lists):
        if communities and named > 1:
            names = [tuple(chance.sample(pool, named)) for _ in range(lines)]
        else:
            mine = chance.sample(pool, need) if communities else pool[place * need : place * need + need]
            names = [tuple(mine[at : at + named]) for at in range(0, need, named)]
        found.append([(at % 2 == 0, line) for at, line in enumerate(names)])
    return found


def by_halves(store: Store, lines: Matched) -> int:
    """Where the first line that holds permits, the halves of the list first, as the program does."""

    def both(part: Matched) -> tuple[int, int]:
        if len(part) == 1:
            holds = store.all_of(part[0][1])
            return holds, holds if part[0][0] else FALSE
        (holds, permits), (below, below_permits) = both(part[: len(part) // 2]), both(part[len(part) // 2 :])
        return store.either(holds, below), store.ite(holds, permits, below_permits)

    return both(lines)[1]


def last_first(store: Store, lines: Matched) -> int:
    """The same, line by line from the last."""
    made = FALSE
    for permits, names in reversed(lines):
        made = store.ite(store.all_of(names), int(permits), made)
    return made


def chained(store: Store, lists: list[Matched], of_list: Callable[[Store, Matched], int] = by_halves) -> int:
    """Some list permits: each is joined to those behind it, as the program does."""
    made = FALSE
    for lines in reversed(lists):
        made = store.either(of_list(store, lines), made)
    return made


def balanced(store: Store, lists: list[Matched]) -> int:
    """Some list permits, by a tree of pairs."""
    left = [by_halves(store, lines) for lines in lists]
    while len(left) > 1:
        left = [store.either(*left[at : at + 2]) if at + 1 < len(left) else left[at] for at in range(0, len(left), 2)]
    return left[0]


def smallest_first(store: Store, lists: list[Matched]) -> int:
    """Some list permits: the two smallest diagrams are joined."""
    left = [(store.size(place), place) for place in (by_halves(store, lines) for lines in lists)]
    heapq.heapify(left)
    while len(left) > 1:
        made = store.either(heapq.heappop(left)[1], heapq.heappop(left)[1])
        heapq.heappush(left, (store.size(made), made))
    return left[0][1]


def with_care(store: Store, lists: list[Matched]) -> int:
    """Some list permits: each list is simplified to where none before permits."""
    made = FALSE
    for lines in lists:
        care = store.ite(made, FALSE, TRUE)
        if care != FALSE:
            made = store.either(store.simplified(by_halves(store, lines), care, {}), made)
    return made


def at_once(store: Store, lists: list[Matched]) -> int:
    """Some list permits: all are divided at once, at the first variable on which one depends."""
    known: dict[tuple[int, ...], int] = {}

    def some(places: tuple[int, ...]) -> int:
        if TRUE in places:
            return TRUE
        left = tuple(sorted(set(places) - {FALSE}))
        if len(left) < 2:
            return left[0] if left else FALSE
        if left not in known:
            store.step()
            first = min(store.nodes[place][0] for place in left)
            highs, lows = (
                tuple(store.nodes[place][son] if store.nodes[place][0] == first else place for place in left)
                for son in (1, 2)
            )
            known[left] = store.choice(first, some(highs), some(lows))
        return known[left]

    return some(tuple(by_halves(store, lines) for lines in lists))


def entries_by_halves(store: Store, lists: list[Matched]) -> int:
    """A map with an entry for each list, which permit and deny in turn, the halves of the map first, as the program
    does."""

    def both(first: int, last: int) -> tuple[int, int]:
        if last - first == 1:
            holds = by_halves(store, lists[first])
            return holds, holds if first % 2 == 0 else FALSE
        middle = first + (last - first) // 2
        (holds, permits), (below, below_permits) = both(first, middle), both(middle, last)
        return store.either(holds, below), store.ite(holds, permits, below_permits)

    return both(0, len(lists))[1]


def entries_last_first(store: Store, lists: list[Matched]) -> int:
    """The same map, entry by entry from the last."""
    made = FALSE
    for at in reversed(range(len(lists))):
        made = store.ite(by_halves(store, lists[at]), int(at % 2 == 0), made)
    return made


ORDERS: dict[str, Callable[[Store, list[Matched]], int]] = {
    "as the program": chained,
    "lines from the last": lambda store, lists: chained(store, lists, last_first),
    "balanced": balanced,
    "smallest first": smallest_first,
    "with care": with_care,
    "all at once": at_once,
    "entries, as the program": entries_by_halves,
    "entries from the last": entries_last_first,
}


def built(
    order: Callable[[Store, list[Matched]], int], lists: list[Matched], remembered: int, limit: int
) -> tuple[Any, ...]:
    """Steps, nodes made, nodes of the outcome and seconds; no outcome where the limit is passed."""
    store = Store(remembered, limit)
    since = time.process_time()
    try:
        size: object = store.size(order(store, lists))
    except TooMany:
        size = "given up"
    return store.steps, len(store.nodes) - 2, size, f"{time.process_time() - since:.1f}"


def network(lists: list[Matched]) -> str:
    """Two routers; the second matches the lists together on what it imports."""

    def lines() -> Iterator[str]:
        yield from (
            "hostname A",
            "interface Vlan1",
            " ip address 10.0.0.1 255.255.255.0",
            "interface Ethernet0",
            " ip address 172.16.0.0 255.255.255.254",
        )
        yield from (
            "router bgp 65001",
            " network 10.0.0.0 mask 255.255.255.0",
            " neighbor 172.16.0.1 remote-as 65002",
            " neighbor 172.16.0.1 send-community",
            "end",
        )
        yield from ("hostname B", "interface Ethernet0", " ip address 172.16.0.1 255.255.255.254")
        yield from (
            "router bgp 65002",
            " neighbor 172.16.0.0 remote-as 65001",
            " neighbor 172.16.0.0 send-community",
            " neighbor 172.16.0.0 route-map M in",
        )
        for place, found in enumerate(lists):
            for permits, names in found:
                yield f"ip community-list standard L{place} {'permit' if permits else 'deny'} {' '.join(f'1:{name}' for name in sorted(names))}"
        yield from (
            "route-map M permit 10",
            f" match community {' '.join(f'L{place}' for place in range(len(lists)))}",
            "end",
        )

    return "".join(f"{line}\n" for line in lines())


def asked(program: Path, text: str, kib: int | None, seconds: int) -> tuple[Any, ...]:
    """User seconds, MiB and how the program ended.

    Memory is measured by the program time, since a child that Python starts counts Python's own memory as its peak. The
    limit of seconds is a soft one, so that it ends the program by a signal of its own, and not by the one with which a
    kernel that has no memory left ends it.
    """
    limits = f"ulimit -S -t {seconds}; " + (f"ulimit -v {kib}; " if kib else "")
    with tempfile.NamedTemporaryFile(
        "w", prefix="bonsai-", encoding="ascii"
    ) as file, tempfile.TemporaryFile() as told, tempfile.NamedTemporaryFile() as most:
        file.write(text)
        file.flush()
        words: list[str | Path] = [
            TIME,
            "-o",
            most.name,
            "-f",
            "%M",
            "sh",
            "-c",
            limits + 'exec "$0" "$@"',
            program,
            "compress",
            file.name,
            "1",
        ]
        ran = subprocess.Popen(words, stdin=subprocess.DEVNULL, stdout=subprocess.DEVNULL, stderr=told)
        _, status, used = os.wait4(ran.pid, 0)
        ran.returncode = os.waitstatus_to_exitcode(status)
        told.seek(0)
        line = told.read().decode("ascii", "replace").strip()
        timed = most.read().decode("ascii", "replace")
    by_signal = re.search(r"terminated by signal (\d+)", timed)
    outcome = (
        ended_by(int(by_signal[1]), seconds) if by_signal else f"status {ran.returncode}{f', `{line}`' if line else ''}"
    )
    return f"{used.ru_utime:.2f}", f"{int(timed.split()[-1]) / 1024:.0f}", outcome


def ended_by(number: int, seconds: int) -> str:
    """How a program ended by a signal."""
    if number == signal.SIGXCPU:
        return f"ended after {seconds} s"
    return (
        "killed, as where the machine has no memory left" if number == signal.SIGKILL else f"ended by signal {number}"
    )


def row(cells: list[object]) -> str:
    """A row of a table."""
    return "| " + " | ".join(f"{cell:,}" if isinstance(cell, int) else str(cell) for cell in cells) + " |"
