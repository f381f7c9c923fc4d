"""How commands that attack for some time begin: streams and signals, the words, the seed, and the log."""
from __future__ import annotations

import argparse
import contextlib
import datetime
import json
import os
from collections.abc import Iterator
from typing import TextIO

from bonsainet.cli import streams


def words_given(parser: argparse.ArgumentParser, arguments: list[str] | None) -> argparse.Namespace:
    """The words of the command line; signals end the command, and closed streams give and take nothing."""
    streams.hold()
    streams.end_by_signals()
    given = parser.parse_args(arguments)
    if given.jobs < 1:
        parser.error("--jobs is at least 1")
    return given


def seed_of(given: argparse.Namespace) -> int:
    """The seed that was given, or a random one."""
    return given.seed if given.seed is not None else int.from_bytes(os.urandom(3), "big")


@contextlib.contextmanager
def log_of(parser: argparse.ArgumentParser, given: argparse.Namespace, **told: object) -> Iterator[TextIO | None]:
    """The log that was asked for, behind what it had, begun with a line of JSON: the time, and what is told of the run.
    Ends the command with status 3 where it cannot be made."""
    if not given.log:
        yield None
        return
    try:
        given.log.parent.mkdir(parents=True, exist_ok=True)
        log = given.log.open("a", encoding="utf-8")
    except OSError as fault:
        parser.exit(3, f"{parser.prog}: {given.log}: {fault.strerror}\n")
    with log:
        now = datetime.datetime.now(datetime.timezone.utc).isoformat(timespec="seconds")
        print(json.dumps({"begun": now, **told}), file=log, flush=True)
        yield log
