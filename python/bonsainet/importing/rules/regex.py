"""Regular expressions over AS paths and communities, as IOS and FRR have them, asked about all strings that can occur.

A string is found to match where some part of it does. `_` stands for a blank, the start or the end, `^` for the start
and `$` for the end.
"""
from __future__ import annotations

import dataclasses
from collections.abc import Callable

BLANK = " "
LONGEST = 200


class Unread(ValueError):
    """An expression of a form that is not read here."""


@dataclasses.dataclass
class Machine:
    """A machine with numbered states: what it reads, where it goes without reading, and by what condition."""

    steps: list[list[tuple[Callable[[str], bool], int]]] = dataclasses.field(default_factory=list)
    free: list[list[tuple[str, int]]] = dataclasses.field(default_factory=list)
    last: int = 0

    def state(self) -> int:
        """A new state."""
        self.steps.append([])
        self.free.append([])
        return len(self.steps) - 1

    def closed(self, states: set[int], at_start: bool, at_end: bool) -> frozenset[int]:
        """The states that are reached without reading."""
        found, waiting = set(states), list(states)
        while waiting:
            for condition, state in self.free[waiting.pop()]:
                may = condition == "" or (condition == "^" and at_start) or (condition == "$" and at_end)
                if may and state not in found:
                    found.add(state)
                    waiting.append(state)
        return frozenset(found)

    def begun(self) -> frozenset[int]:
        """The states before the first sign."""
        return self.closed({0}, True, False)

    def read(self, states: frozenset[int], text: str) -> frozenset[int]:
        """The states after a text. Once the expression is found it stays found."""
        for sign in text:
            if self.last in states:
                return frozenset([self.last])
            moved = {after for state in states for reads, after in self.steps[state] if reads(sign)}
            states = self.closed(moved | {0}, False, False)
        return frozenset([self.last]) if self.last in states else states

    def finds(self, states: frozenset[int], is_empty: bool) -> bool:
        """Whether a text that ends here has the expression in it."""
        return self.last in self.closed(set(states), is_empty, True)

    def searches(self, text: str) -> bool:
        """Whether a text has the expression in it."""
        return self.finds(self.read(self.begun(), text), not text)


def machine_of(text: str) -> Machine:
    """The machine of an expression. Unread where it has another form."""
    if len(text) > LONGEST:
        raise Unread(text)
    found = Machine()
    start = found.state()
    reader = _Reader(text, found)
    end = reader.choice(start)
    if reader.rest:
        raise Unread(text)
    found.last = end
    return found


class _Reader:
    """Reads an expression from the left and adds its states to a machine."""

    def __init__(self, text: str, machine: Machine) -> None:
        self.rest = text
        self.machine = machine

    def choice(self, start: int) -> int:
        """Alternatives that `|` parts."""
        end = self.machine.state()
        while True:
            inner = self.machine.state()
            self.machine.free[start].append(("", inner))
            self.machine.free[self._row(inner)].append(("", end))
            if not self.rest.startswith("|"):
                return end
            self.rest = self.rest[1:]

    def _row(self, at: int) -> int:
        while self.rest and self.rest[0] not in "|)":
            begin = self.machine.state()
            self.machine.free[at].append(("", begin))
            at = self._repeated(begin, self._piece(begin))
        return at

    def _repeated(self, begin: int, end: int) -> int:
        while self.rest[:1] and self.rest[0] in "*+?":
            sign, self.rest = self.rest[0], self.rest[1:]
            last = self.machine.state()
            self.machine.free[end].append(("", last))
            if sign in "*+":
                self.machine.free[end].append(("", begin))
            if sign in "*?":
                self.machine.free[begin].append(("", last))
            end = last
        return end

    def _piece(self, begin: int) -> int:
        end = self.machine.state()
        sign, self.rest = self.rest[0], self.rest[1:]
        if sign == "(":
            inner = self.machine.state()
            self.machine.free[begin].append(("", inner))
            last = self.choice(inner)
            if not self.rest.startswith(")"):
                raise Unread(sign)
            self.rest = self.rest[1:]
            self.machine.free[last].append(("", end))
        elif sign == "[":
            self.machine.steps[begin].append((self._set(), end))
        elif sign in "^$":
            self.machine.free[begin].append((sign, end))
        elif sign == "_":
            self.machine.free[begin] += [("^", end), ("$", end)]
            self.machine.steps[begin].append((lambda found: found == BLANK, end))
        elif sign == ".":
            self.machine.steps[begin].append((lambda found: True, end))
        elif sign == "\\" and self.rest:
            given, self.rest = self.rest[0], self.rest[1:]
            if given.isalnum():
                raise Unread(given)
            self.machine.steps[begin].append((lambda found: found == given, end))
        elif sign.isalnum() or sign in ":- ,":
            self.machine.steps[begin].append((lambda found: found == sign, end))
        else:
            raise Unread(sign)
        return end

    def _set(self) -> Callable[[str], bool]:
        inside, sign, rest = self.rest.partition("]")
        is_not = inside.startswith("^")
        inside = inside[1:] if is_not else inside
        if not sign or not inside or set(inside) & set("[\\^"):
            raise Unread(self.rest)
        self.rest = rest
        members: set[str] = set()
        while inside:
            if inside[1:2] == "-" and len(inside) > 2:
                members |= {chr(code) for code in range(ord(inside[0]), ord(inside[2]) + 1)}
                inside = inside[3:]
            else:
                members.add(inside[0])
                inside = inside[1:]
        return lambda found: (found in members) is not is_not
