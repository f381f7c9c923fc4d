"""Labels of a problem: those of rest, those nearly so, and broken texts of them."""
from __future__ import annotations

import random

PIECES = [
    "none",
    "cost 1",
    "cost 4294967296",
    "bgp 100 path comms",
    "bgp 100 path 65001 comms 1:1",
    "bgp 100 path comms 1:2 1:1",
    "bgp 100 path",
    "",
    "cost",
]


def broken(chance: random.Random, text: str, names: list[str]) -> bytes:
    """The text of a solution with some lines changed, or as it is."""
    lines = text.splitlines()
    for _ in range(chance.choice([0, 1, 1, 2])):
        place = chance.randrange(len(lines)) if lines else 0
        how = chance.randrange(5)
        if how == 0 and lines:
            del lines[place]
        elif how == 1:
            lines.insert(place, f"{chance.choice([*names, 'nobody', '-x'])} {chance.choice(PIECES)}")
        elif how == 2 and lines:
            lines[place] = f"{lines[place].split(' ')[0]} {chance.choice(PIECES)}"
        elif how == 3 and lines:
            words = lines[place].split(" ")
            words[chance.randrange(len(words))] = chance.choice(
                ["65001", "65002*2", "65002*12", "7", "65000:1", "comms", "50"]
            )
            lines[place] = " ".join(words)
        else:
            chance.shuffle(lines)
    return ("\n".join(lines) + chance.choice(["\n", "", "\n\n"])).encode()
