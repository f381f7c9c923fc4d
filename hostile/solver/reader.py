"""What the judge of answers asks of a reader, answered by a solver."""

from __future__ import annotations

import functools

from hostile.judge.problem import Network
from hostile.judge.questions import Question, Verdict
from hostile.judge.rests import Down
from hostile.solver import smt
from hostile.solver.solving import Problem, Solution


@functools.lru_cache(64)
def _solved(net: Network, number: int, down: Down) -> tuple[Problem, list[Solution], bool]:
    one = Problem(smt.shared("labels"), net, number, down)
    found = one.solutions()
    return one, found, one.ties_matter(found)


def keys(net: Network, number: int, down: Down) -> list[str]:
    """The keys of each solution, in the words of `hostile.judge.questions.keys`."""
    _, found, _ = _solved(net, number, down)
    return [repr(tuple(repr(key) for key in one.keys)) for one in found]


def forwards(net: Network, number: int, down: Down) -> list[str]:
    """The lines of `forwards` for each solution."""
    _, found, _ = _solved(net, number, down)
    return ["\n".join(_line(net, one, place) for place in range(len(net.routers))) for one in found]


def _line(net: Network, one: Solution, place: int) -> str:
    ahead = " ".join(net.routers[other].name for other in sorted(one.forwards[place]))
    how = "none" if one.keys[place] is None else f"to {ahead}" if ahead else "here"
    return f"{net.routers[place].name} {how}"


def verdict(net: Network, number: int, question: Question, down: Down) -> Verdict:
    """The answer to a question about a class without something."""
    one, found, ties = _solved(net, number, down)
    if not all(one.is_true(each, question) for each in found):
        return Verdict("no", False)
    return Verdict("yes" if found else "none", ties)


def ties_matter(net: Network, number: int, down: Down) -> bool:
    """Whether routers may rest otherwise than the solutions say."""
    return _solved(net, number, down)[2]
