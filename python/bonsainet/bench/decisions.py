"""A model of the store of decision diagrams: nodes made once, variables in the order of their numbers, and a bounded
memory of operations.

It counts what the proved store does, and can be asked for other ways to put diagrams together.
"""
from __future__ import annotations

from collections import OrderedDict

FALSE, TRUE = 0, 1
LAST = 1 << 62
Key = tuple[int, int, int]


class TooMany(Exception):
    """More steps or nodes than the limit."""


class Store:
    """Diagrams that share their nodes. `remembered` is how many operations are kept, the last ones asked (0: all);
    `steps` counts operations that were worked out."""

    def __init__(self, remembered: int, limit: int) -> None:
        self.nodes: list[Key] = [(LAST, FALSE, FALSE), (LAST, TRUE, TRUE)]
        self.places: dict[Key, int] = {}
        self.memory: OrderedDict[Key, int] = OrderedDict()
        self.remembered, self.limit, self.steps = remembered, limit, 0

    def step(self) -> None:
        """Counts a step."""
        if self.steps >= self.limit * 8:
            raise TooMany
        self.steps += 1

    def choice(self, variable: int, high: int, low: int) -> int:
        """The node that takes `high` where the variable is true."""
        if high == low:
            return high
        made = (variable, high, low)
        if made not in self.places:
            if len(self.nodes) >= self.limit:
                raise TooMany
            self.places[made] = len(self.nodes)
            self.nodes.append(made)
        return self.places[made]

    def ite(self, test: int, then: int, other: int) -> int:
        """The operation if-then-else (Bryant, 1986)."""
        key = (test, then, other)
        found = self.memory.get(key)
        if found is not None:
            self.memory.move_to_end(key)
            return found
        self.step()
        if test <= TRUE:
            made = then if test else other
        else:
            first = min(self.nodes[place][0] for place in key)
            highs, lows = (
                [self.nodes[place][son] if self.nodes[place][0] == first else place for place in key] for son in (1, 2)
            )
            made = self.choice(first, self.ite(*highs), self.ite(*lows))
        self.memory[key] = made
        if self.remembered and len(self.memory) > self.remembered:
            self.memory.popitem(last=False)
        return made

    def either(self, one: int, other: int) -> int:
        """True where one of both is."""
        return self.ite(one, TRUE, other)

    def all_of(self, variables: tuple[int, ...]) -> int:
        """True where all of the variables are."""
        made = TRUE
        for variable in sorted(variables, reverse=True):
            made = self.choice(variable, made, FALSE)
        return made

    def simplified(self, a: int, care: int, known: dict[tuple[int, int], int]) -> int:
        """A diagram that is `a` where `care` is true: the operator restrict (Coudert and Madre, 1990)."""
        if a <= TRUE or care <= TRUE:
            return a
        if (a, care) in known:
            return known[a, care]
        self.step()
        variable, high, low = self.nodes[a]
        of_care, care_high, care_low = self.nodes[care]
        if of_care < variable:
            made = self.simplified(a, self.either(care_high, care_low), known)
        elif variable < of_care:
            made = self.choice(variable, self.simplified(high, care, known), self.simplified(low, care, known))
        elif care_high == FALSE:
            made = self.simplified(low, care_low, known)
        elif care_low == FALSE:
            made = self.simplified(high, care_high, known)
        else:
            made = self.choice(variable, self.simplified(high, care_high, known), self.simplified(low, care_low, known))
        known[a, care] = made
        return made

    def size(self, place: int) -> int:
        """How many nodes the diagram has, constants left out."""
        seen: set[int] = set()
        left = [place]
        while left:
            here = left.pop()
            if here > TRUE and here not in seen:
                seen.add(here)
                left.extend(self.nodes[here][1:])
        return len(seen)
