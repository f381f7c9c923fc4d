"""The memory of a tool that makes many objects and keeps them."""
from __future__ import annotations

import gc

OBJECTS, GENERATIONS = 200_000, 50


def expect_many_objects() -> None:
    """Has cycles of objects looked for rarely. Python would go through all that is kept again and again, and find none."""
    gc.set_threshold(OBJECTS, GENERATIONS, GENERATIONS)
