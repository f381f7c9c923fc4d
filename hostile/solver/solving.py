"""Solutions of an encoded problem, whether ties matter, and questions, by a solver."""

from __future__ import annotations

import dataclasses

from hostile.judge.problem import Network
from hostile.judge.questions import Question
from hostile.judge.rests import Down
from hostile.solver.encoding import Encoding, Held, encoded, keys_differ, same_weakly
from hostile.solver.formulas import Formula, conjunction, disjunction, negation, same, text_of
from hostile.solver.smt import Solver

Keys = tuple[object, ...]
Values = dict[str, bool | int]


@dataclasses.dataclass(frozen=True)
class Solution:
    """A stable solution: the key of each router's label, and the routers to which each one forwards."""

    keys: Keys
    forwards: tuple[frozenset[int], ...]


class Problem:
    """A class without something, as a solver sees it."""

    def __init__(self, solver: Solver, net: Network, number: int, down: Down) -> None:
        self.solver, self.down = solver, down
        self.encoding: Encoding = encoded(net, number, down)
        self.places = range(len(net.routers))
        self.forward = [self._forward(place, is_weak=False) for place in self.places]
        self.weakly = [self._forward(place, is_weak=True) for place in self.places]

    def _forward(self, place: int, is_weak: bool) -> dict[int, Formula]:
        """For each exporter whether a router forwards to it."""
        made = self.encoding
        if made.is_bgp and place in made.initial:
            return {}
        mine = made.labels[place]
        ahead: dict[int, list[Formula]] = {}
        for offer in made.offers[place]:
            if offer.exporter is None:
                continue
            alike = same_weakly(offer.route, mine) if is_weak else made.same_key(offer.route, mine)
            ahead.setdefault(offer.exporter, []).append(conjunction([mine.is_there, offer.route.is_there, alike]))
        return {other: made.writer.formula(disjunction(parts)) for other, parts in ahead.items()}

    def _begin(self, formulas: list[Formula]) -> None:
        self.solver.begin(self.encoding.writer.lines)
        self.solver.add(formulas)

    def solutions(self) -> list[Solution]:
        """All stable solutions, each once."""
        parts = [part for label in self.encoding.labels for part in _parts(label)]
        parts += [formula for row in self.forward for formula in row.values()]
        names = sorted({part for part in parts if isinstance(part, str)})
        self._begin(self.encoding.stable)
        found: list[Solution] = []
        while (values := self.solver.model(names)) is not None:
            found.append(self._solution(values))
            self.solver.add([keys_differ(self.encoding, found[-1].keys)])
        return found

    def _solution(self, values: Values) -> Solution:
        """The solution that a model says."""
        keys = tuple(self._key(values, label) for label in self.encoding.labels)
        ahead = [frozenset(at for at, formula in row.items() if _value(values, formula)) for row in self.forward]
        return Solution(keys, tuple(ahead))

    def _key(self, values: Values, label: Held) -> object:
        if not _value(values, label.is_there):
            return None
        if not self.encoding.is_bgp:
            return _value(values, label.length)
        communities = sorted(value for value, held in label.communities.items() if _value(values, held))
        numbers = sorted(value for value, held in label.numbers.items() if _value(values, held))
        return -_value(values, label.preference), _value(values, label.length), communities, numbers

    def ties_matter(self, solutions: list[Solution]) -> bool:
        """Whether some weakly stable labels have the keys of no solution, or forward weakly to other routers."""
        self._begin(self.encoding.weak)
        for one in solutions:
            others = [
                negation(same(formula, other in ahead))
                for row, ahead in zip(self.weakly, one.forwards)
                for other, formula in row.items()
            ]
            self.solver.add([disjunction([keys_differ(self.encoding, one.keys), *others])])
        return self.solver.is_satisfiable()

    def is_true(self, one: Solution, question: Question) -> bool:
        """Whether a question is true in a solution. Routers that are down are not asked."""
        asked = set(question.routers) - self.down.routers
        way = set(question.way) - self.down.routers
        held = {place for place in asked if one.keys[place] is not None}
        holding = {place for place in held if _has_community(one.keys[place], question.value)}
        match question.word:
            case "route":
                return held == asked
            case "isolated":
                return not held
            case "carries":
                return holding == held
            case "lacks":
                return not holding
            case "hops":
                known: dict[int, int] = {}
                return max((_hops(one, place, known) for place in asked), default=0) <= question.value
            case "avoids":
                return not _ahead(one, asked, set()) & way
            case "through":
                return not _ahead(one, asked, way) & set(self.encoding.initial)
        raise ValueError(question.word)


def route_texts(net: Network, number: int, down: Down) -> list[str]:
    """Two texts in SMT-LIB from which the answer to `route *` follows: whether some stable labels leave a router without
    a route, and whether there are stable labels."""
    made = encoded(net, number, down)
    lacking = disjunction(negation(one.is_there) for at, one in enumerate(made.labels) if at not in down.routers)
    found = []
    for more in (lacking, True):
        told = [f"(assert {text_of(one)})" for one in [*made.stable, more] if one is not True]
        found.append("".join(f"{line}\n" for line in ["(set-logic QF_LIA)", *made.writer.lines, *told, "(check-sat)"]))
    return found


def _parts(label: Held) -> list[Formula | int]:
    """What a label is made of."""
    return [label.is_there, label.preference, label.length, *label.communities.values(), *label.numbers.values()]


def _value(values: Values, part: Formula | int) -> int:
    """The value of a part; that of a formula is 1 or 0."""
    return int(values[part] if isinstance(part, str) else part)


def _has_community(key: object, community: int) -> bool:
    return isinstance(key, tuple) and community in key[2]


def _hops(one: Solution, place: int, known: dict[int, int]) -> int:
    """The most hops of a chain of forwarding from a router."""
    if place not in known:
        known[place] = max((1 + _hops(one, other, known) for other in one.forwards[place]), default=0)
    return known[place]


def _ahead(one: Solution, start: set[int], closed: set[int]) -> set[int]:
    """The routers on chains of forwarding from some routers that meet no closed one."""
    found: set[int] = set()
    waiting = list(start)
    while waiting:
        place = waiting.pop()
        if place not in found and place not in closed:
            found.add(place)
            waiting += one.forwards[place]
    return found
