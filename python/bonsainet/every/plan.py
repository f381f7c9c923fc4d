"""What is asked of a text, and what a folder of answers belongs to."""
from __future__ import annotations

import dataclasses
import hashlib
import json
import os
from pathlib import Path

from bonsainet.ask.program import Class, Program
from bonsainet.cli.command_line import Refused, beside, not_written

PLAN = "plan.json"
INDEX = "index.tsv"
LOG = "jobs.log"
TEXT = "input.cfg"
PROGRAM = "bonsai-all"
THEN = "then.sh"
JOB = "job.sh"
LOCK = "lock"
ANSWERS = "answers.tsv"
BEFORE = (LOCK, TEXT, INDEX)


@dataclasses.dataclass(frozen=True)
class Plan:
    """A command and what is done with each answer, how many classes are asked, and the checksums of the text and of the
    program. `identity` says which program that is."""

    command: str
    then: str
    classes: int
    text: str
    program: str
    identity: dict[str, object] = dataclasses.field(default_factory=dict, compare=False)


def plan(program: Program, raw: bytes, classes: list[Class], command: str, then: str) -> Plan:
    """What is to be done for a text."""
    identity = program.identity
    return Plan(command, then, len(classes), hashlib.sha256(raw).hexdigest(), identity.sha256, identity.plain)


def make(folder: Path, is_resumed: bool) -> None:
    """Makes the folder. Refused where it has anything and is not resumed, or has no plan and more than a run writes before it."""
    try:
        folder.mkdir(parents=True, exist_ok=True)
    except OSError as fault:
        raise not_written(folder, fault) from None
    has_plan = (folder / PLAN).exists()
    has_others = any(path.name not in BEFORE and not is_part(path) for path in folder.iterdir())
    if has_plan and not is_resumed:
        raise Refused(f"{folder}: the folder is not empty: --resume goes on with what it has")
    if has_others and not has_plan:
        raise Refused(f"{folder}: " + (f"nothing to resume: no {PLAN}" if is_resumed else "the folder is not empty"))


def begin(folder: Path, made: Plan, classes: list[Class], raw: bytes) -> None:
    """Writes the plan into the folder, or sees that it is that of the same plan. Refused where it is not."""
    if (folder / PLAN).exists():
        _must_be_of(folder, made)
    for part in filter(is_part, folder.iterdir()):
        part.unlink()
    index = ["class\tprefixes", *(f"{found.number}\t{' '.join(found.prefixes)}" for found in classes)]
    put(folder / TEXT, raw)
    put(folder / INDEX, "".join(f"{line}\n" for line in index).encode())
    put(folder / PLAN, f"{json.dumps(dataclasses.asdict(made), indent=1)}\n".encode())


def is_part(path: Path) -> bool:
    """Whether a file of the folder is one of `put` that a run which was killed has left."""
    return path.name.startswith(".bonsai-") and path.suffix == ".part"


def put(place: Path, data: bytes, mode: int = 0o644) -> None:
    """Writes a file whole or not at all. Its mode leaves out what the umask does."""
    part = Path(beside(place))
    try:
        with open(part, "xb", opener=lambda name, flags: os.open(name, flags, mode)) as file:
            file.write(data)
        os.replace(part, place)
    except OSError as fault:
        raise not_written(place, fault) from None
    finally:
        part.unlink(missing_ok=True)


def _must_be_of(folder: Path, made: Plan) -> None:
    try:
        kept = json.loads((folder / PLAN).read_text()) if (folder / PLAN).is_file() else None
    except (OSError, ValueError):
        kept = None
    if not isinstance(kept, dict):
        raise Refused(f"{folder}: nothing to resume: its {PLAN} is none of bonsai-every")
    names = {"command": "command", "then": "command behind --then", "text": "text", "program": "program"}
    for key, name in names.items():
        if kept.get(key) != getattr(made, key):
            raise Refused(f"{folder}: it was begun with another {name}: give an empty folder")
