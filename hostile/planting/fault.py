"""A fault to plant."""
from __future__ import annotations

import dataclasses

SWITCH = "PLANTED"
"""In the wrong piece of a fault that is switched on: a call that is true where the number of the fault was given to the process."""


@dataclasses.dataclass(frozen=True)
class Fault:
    """A wrong piece of code in the place of a right one, which stands in its file once."""

    name: str
    layer: str
    file: str
    right: str
    wrong: str
    means: str


def switched_fault(name: str, file: str, right: str, wrong: str, means: str) -> Fault:
    """A fault of the crate in which its file is, that is planted with many others and switched on."""
    return Fault(name, file.partition("/")[0], file, right, wrong, means)
