"""Certificates that are nearly right."""
from __future__ import annotations

import random


def broken(chance: random.Random, text: str, names: list[str]) -> bytes:
    """A certificate with some lines changed, or as it is."""
    lines = text.splitlines()
    for _ in range(chance.choice([0, 1, 1, 2])):
        place, how = chance.randrange(len(lines)), chance.randrange(5)
        if how == 0 and len(lines) > 1:
            del lines[place]
        elif how == 1:
            lines.insert(
                place,
                chance.choice(
                    [
                        "",
                        "end",
                        "group",
                        f"group {chance.choice([*names, 'nobody'])}",
                        "bonsai certificate 1",
                        "split 1 2",
                    ]
                ),
            )
        elif how == 2:
            split = f"split {chance.randint(0, 4)} {chance.randint(0, 4)} {chance.choice([*names, 'nobody'])} {chance.randint(0, 6)}"
            lines.insert(min(place, 1 + sum(line.startswith("split") for line in lines)), split)
        elif how == 3:
            lines.insert(place, chance.choice(lines))
        else:
            words = lines[place].split(" ")
            words[chance.randrange(len(words))] = chance.choice([*names, "1", "2", "3", "01", "-x", "end"])
            lines[place] = " ".join(words)
    return ("\n".join(lines) + chance.choice(["\n", "", "\n\n"])).encode()
