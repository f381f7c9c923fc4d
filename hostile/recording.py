"""What a run found, kept by a name in a file of `measured/`."""

from __future__ import annotations

import hashlib
import json
from pathlib import Path
from typing import Any

from bonsainet.bench.states import kind


def told_of(program: Path) -> str:
    """Whether a program is proved, and which one it is."""
    return f"{kind(program)}, SHA-256 {hashlib.sha256(program.read_bytes()).hexdigest()[:12]}"


def keep_record(file: Path, name: str, table: dict[str, Any]) -> None:
    """Puts a run in the place of the one of its name, or behind the others."""
    kept = json.loads(file.read_text("utf-8")) if file.is_file() else {}
    file.write_text(json.dumps({**kept, name: table}, indent=1) + "\n", "utf-8")
