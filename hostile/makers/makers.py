"""Which maker makes the next text."""
from __future__ import annotations

import random

from hostile.makers import faults, forms, meant, networks


def made(chance: random.Random) -> bytes:
    """A text of one of the makers. Those of lone lines cost least."""
    how = chance.random()
    if how < 0.35:
        return forms.alone(chance)
    if how < 0.7:
        return networks.text(chance).encode()
    if how < 0.8:
        return meant.changed(chance, networks.text(chance))
    if how < 0.9:
        return faults.planted(chance, networks.text(chance))
    if how < 0.95:
        return faults.planted(chance, chance.choice(faults.examples()).decode("latin-1"))
    return faults.bytes_changed(
        chance, chance.choice([networks.text(chance).encode(), chance.choice(faults.examples())])
    )
