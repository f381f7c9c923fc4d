"""Formulas as text in SMT-LIB, in which Python's own True, False and numbers stand for themselves as long as they can."""

from __future__ import annotations

from collections.abc import Iterable

Formula = bool | str
"""True, False, or a text of sort Bool."""
Number = int | str
"""A number, or a text of sort Int."""
Bits = dict[int, Formula]
"""A set of numbers: for each number of a universe whether the set holds it."""


class Writer:
    """Gathers the declarations and definitions that formulas speak of."""

    def __init__(self) -> None:
        self.lines: list[str] = []
        self._known: dict[tuple[str, str], str] = {}

    def variable(self, name: str, sort: str) -> str:
        """A new variable."""
        self.lines.append(f"(declare-const {name} {sort})")
        return name

    def formula(self, one: Formula) -> Formula:
        """A name for a formula that is used more than once."""
        return one if isinstance(one, bool) else self._named(one, "Bool")

    def number(self, one: Number) -> Number:
        """A name for a number that is used more than once."""
        return one if isinstance(one, int) else self._named(one, "Int")

    def bits(self, some: Bits) -> Bits:
        """Names for each formula of a set."""
        return {value: self.formula(held) for value, held in some.items()}

    def _named(self, text: str, sort: str) -> str:
        if not text.startswith("("):
            return text
        if (text, sort) not in self._known:
            name = f"d{len(self._known)}"
            self._known[text, sort] = name
            self.lines.append(f"(define-fun {name} () {sort} {text})")
        return self._known[text, sort]


def text_of(one: Formula | Number) -> str:
    """The words of a formula or a number."""
    if isinstance(one, bool):
        return "true" if one else "false"
    return f"(- {-one})" if isinstance(one, int) and one < 0 else str(one)


def negation(one: Formula) -> Formula:
    """The formula is false."""
    return not one if isinstance(one, bool) else f"(not {one})"


def conjunction(parts: Iterable[Formula]) -> Formula:
    """All are true."""
    return _joined("and", True, parts)


def disjunction(parts: Iterable[Formula]) -> Formula:
    """One is true."""
    return _joined("or", False, parts)


def _joined(word: str, neutral: bool, parts: Iterable[Formula]) -> Formula:
    """Parts joined by a word: a part that is `neutral` goes, and one that is its opposite decides."""
    left = []
    for part in parts:
        if part is (not neutral):
            return not neutral
        if part is not neutral:
            left.append(str(part))
    return neutral if not left else left[0] if len(left) == 1 else f"({word} {' '.join(left)})"


def same(one: Formula, other: Formula) -> Formula:
    """Both are true, or both are false."""
    if isinstance(one, bool):
        return other if one else negation(other)
    if isinstance(other, bool):
        return one if other else negation(one)
    return True if one == other else f"(= {one} {other})"


def either(condition: Formula, yes: Formula, no: Formula) -> Formula:
    """The first formula where the condition is true, else the second."""
    if isinstance(condition, bool):
        return yes if condition else no
    if yes == no:
        return yes
    if isinstance(yes, bool):
        return disjunction([condition, no]) if yes else conjunction([negation(condition), no])
    if isinstance(no, bool):
        return disjunction([negation(condition), yes]) if no else conjunction([condition, yes])
    return f"(ite {condition} {yes} {no})"


def either_number(condition: Formula, yes: Number, no: Number) -> Number:
    """The first number where the condition is true, else the second."""
    if isinstance(condition, bool):
        return yes if condition else no
    return yes if yes == no else f"(ite {condition} {text_of(yes)} {text_of(no)})"


def total(one: Number, other: Number) -> Number:
    """The sum of two numbers."""
    if isinstance(one, int) and isinstance(other, int):
        return one + other
    return one if other == 0 else f"(+ {text_of(one)} {text_of(other)})"


def less(one: Number, other: Number) -> Formula:
    """The first number is less than the second."""
    if isinstance(one, int) and isinstance(other, int):
        return one < other
    return f"(< {text_of(one)} {text_of(other)})"


def equal(one: Number, other: Number) -> Formula:
    """Both numbers are the same."""
    if isinstance(one, int) and isinstance(other, int):
        return one == other
    return one == other or f"(= {text_of(one)} {text_of(other)})"


def same_bits(one: Bits, other: Bits) -> Formula:
    """Both sets hold the same numbers."""
    return conjunction(same(one[value], other[value]) for value in one)


def less_bits(one: Bits, other: Bits) -> Formula:
    """The ascending list of the first set is lexicographically smaller than that of the second.

    At the least number that only one of them holds, the set with the number is smaller where the other goes on."""
    found: Formula = False
    more_of_one: Formula = False
    more_of_other: Formula = False
    for value in sorted(one, reverse=True):
        mine, its = one[value], other[value]
        found = either(same(mine, its), found, either(mine, more_of_other, negation(more_of_one)))
        more_of_one = disjunction([mine, more_of_one])
        more_of_other = disjunction([its, more_of_other])
    return found
