"""Broken texts: lines cut short, changed or left out are refused by name, and nothing fails or changes in silence."""
from __future__ import annotations

import random
from pathlib import Path

import pytest

from bonsainet.cli.command_line import Refused
from bonsainet.importing.decisions import Decisions
from bonsainet.importing.read import read_folder
from bonsainet.importing.report import Silent, report_of
from bonsainet.importing.rules.options import Options
from bonsainet.importing.tool import work
from bonsainet.ask.program import TOP, Program, Refusal

CONFIGURATIONS = sorted((TOP / "examples" / "folders").rglob("configs/*"))
WORDS = ("x", "0", "10.0.0.1", "99999999999", "-1", "a/b", "1.2.3.4/40", "::1")


class AcceptsAll(Program):
    """A program that refuses nothing, so that the rules alone are tried."""

    def refusal(self, text: str | bytes) -> Refusal | None:
        """No refusal."""
        return None


def broken(line: str, chance: random.Random) -> list[str]:
    """A line as it stands, cut short, with another word, or left out."""
    words = line.split(" ")
    case = chance.random()
    if case < 0.15:
        return [" ".join(words[: chance.randint(1, len(words))])]
    if case < 0.2:
        words[chance.randrange(len(words))] = chance.choice(WORDS)
        return [" ".join(words)]
    return [] if case < 0.23 else [line]


@pytest.mark.parametrize("seed", range(40))
def test_broken_texts(seed: int, tmp_path: Path) -> None:
    chance = random.Random(seed)
    for number in range(2):
        lines = chance.choice(CONFIGURATIONS).read_text("latin-1").splitlines()
        (tmp_path / f"r{number}.cfg").write_text("\n".join(part for line in lines for part in broken(line, chance)))
    try:
        folder = read_folder(str(tmp_path))
        work(folder, AcceptsAll(), Decisions(), Options(own_as=chance.random() < 0.5))
        report_of(folder)
    except Refused as refused:
        assert not isinstance(refused, Silent), refused
