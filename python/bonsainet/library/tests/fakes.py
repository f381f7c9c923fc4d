"""Programs that are not what they should be: scripts in their place."""
from __future__ import annotations

from collections.abc import Callable
from pathlib import Path

import pytest

from bonsainet.ask import frames
from bonsainet.ask.program import Program
from bonsainet.asking import shares
from bonsainet.library import calls

Fake = Callable[[str], None]


@pytest.fixture(name="fake")
def fake_fixture(tmp_path: Path, monkeypatch: pytest.MonkeyPatch) -> Fake:
    """From now on a shell script answers, whatever is asked. `$1` .. are the words."""

    def answer_by(script: str) -> None:
        made = tmp_path / "fake"
        made.write_text(f"#!/bin/sh\n{script}\n")
        made.chmod(0o755)
        for module in (calls, frames, shares):
            monkeypatch.setattr(module, "named", lambda name: Program(str(made)))

    return answer_by
