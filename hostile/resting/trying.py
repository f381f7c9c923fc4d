"""Networks that are tried on FRR side by side: what each came to, and how it was tried."""
from __future__ import annotations

import argparse
import concurrent.futures
import dataclasses
import json
import os
import subprocess
import sys
import time
from collections.abc import Callable, Iterator, Sequence
from typing import Any, Protocol, TypeVar

from bonsainet.cli.command_line import Refused as NoLab
from hostile.judge.network import Refused


class NotRun(Exception):
    """The lab or the program did not do its part, with the reason."""


class Named(Protocol):
    """A network that is tried."""

    @property
    def name(self) -> str:
        """What it is called."""


Made = TypeVar("Made", bound=Named)


def each_tried(
    tool: str, tried: Callable[[Made, argparse.Namespace], Any], networks: Sequence[Made], given: argparse.Namespace
) -> Iterator[Any]:
    """What each network came to, in order and written as a line of JSON. None, and a line that says why, for one that
    could not be tried."""
    with concurrent.futures.ThreadPoolExecutor(given.side) as pool:
        for made, one in [(made, pool.submit(tried, made, given)) for made in networks]:
            try:
                found = one.result()
            except (NotRun, NoLab, Refused, subprocess.SubprocessError) as why:
                print(f"{tool}: {made.name}: {why}", file=sys.stderr, flush=True)
                yield None
                continue
            print(json.dumps(dataclasses.asdict(found)), flush=True)
            yield found


def how(given: argparse.Namespace, load: float) -> dict[str, object]:
    """How networks are tried: the day, the words, and the load of the machine before and now."""
    return {
        "date": time.strftime("%Y-%m-%d"),
        "seed": given.seed,
        "quiet": given.quiet,
        "load": [round(load, 1), round(os.getloadavg()[0], 1)],
    }
