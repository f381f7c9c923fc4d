"""What the program writes is read as it is meant, whatever routers are called."""
from __future__ import annotations

import pytest
from hypothesis import given, settings
from hypothesis import strategies as st

from bonsainet.asking.reports import ClassAnswer, Count, Failing, Loss, Report, Solution, Tie, forwards_of, reports_of

# (names that look like the heads of lines)
NAMES = st.sampled_from(["a", "core1", "class", "solution", "link", "router", "question", "none", "yes", "tied"])
NUMBERS = st.integers(1, 99)
LABELS = st.sampled_from(["none", "cost 5", "bgp 100 path comms", "bgp 200 path 65001*2 3 comms 1:2 3:4"])


@st.composite
def label_lines(draw: st.DrawFn) -> tuple[str, ...]:
    return tuple(f"{draw(NAMES)} {draw(LABELS)}" for _ in range(draw(st.integers(1, 3))))


@st.composite
def answers(draw: st.DrawFn) -> ClassAnswer:
    tie = draw(st.none() | st.builds(Tie, NAMES, st.sampled_from(["communities", "path"])))
    link = st.builds(Loss, st.tuples(NAMES, NAMES), NUMBERS, st.sampled_from(["no", "none"]))
    router = st.builds(Loss, st.tuples(NAMES), st.none(), st.sampled_from(["no", "none"]))
    losses = st.lists(link, max_size=3) | st.lists(router, max_size=3)
    failing = draw(st.none() | st.builds(Failing, losses.map(tuple), NUMBERS, st.integers(0, 3)))
    labels = draw(label_lines()) if failing is None and draw(st.booleans()) else ()
    return ClassAnswer(draw(NUMBERS), draw(st.sampled_from(["yes", "no", "none"])), tie, labels, failing)


SOLUTIONS = st.builds(Solution, st.none() | NUMBERS, NUMBERS, label_lines())
PARTS = st.lists(answers() | st.builds(Count, NUMBERS, NUMBERS) | SOLUTIONS, max_size=4).map(lambda parts: tuple(parts))


def written(part: ClassAnswer | Count | Solution) -> list[str]:
    """The lines that the program writes for a part."""
    match part:
        case Count(number, solutions):
            return [f"class {number} solutions {solutions}"]
        case Solution(number, place, lines):
            return [f"class {number} solution {place}" if number else f"solution {place}", *lines]
    tied = f" tied {part.tie.router} {part.tie.by}" if part.tie else ""
    made = [f"class {part.number} {part.verdict}{tied}", *part.labels]
    for loss in part.failing.losses if part.failing else ():
        rank = "" if loss.rank is None else f" {loss.rank}"
        made.append(f"{'router' if loss.rank is None else 'link'} {' '.join(loss.routers)}{rank} {loss.verdict}")
    if part.failing:
        tied = f" tied {part.failing.tied}" if part.failing.tied else ""
        made.append(f"class {part.number} failing {len(part.failing.losses)} of {part.failing.tried}{tied}")
    return made


@settings(max_examples=40)
@given(PARTS)
def test_a_report_is_read_as_it_was_written(parts: tuple[ClassAnswer | Count | Solution, ...]) -> None:
    lines = [line for part in parts for line in written(part)]
    assert reports_of("".join(f"{line}\n" for line in lines)) == [Report(None, parts)]


@settings(max_examples=40)
@given(st.lists(st.tuples(NUMBERS, PARTS), min_size=1, max_size=4))
def test_reports_of_a_file_of_questions(reports: list[tuple[int, tuple[ClassAnswer | Count | Solution, ...]]]) -> None:
    lines = []
    for number, parts in reports:
        lines += [f"question {number}", *(line for part in parts for line in written(part))]
    assert reports_of("\n".join(lines)) == [Report(number, parts) for number, parts in reports]


def test_a_line_of_no_form() -> None:
    with pytest.raises(ValueError, match="no known form: 'class 1 maybe'"):
        reports_of("class 1 maybe\n")


def test_forwards() -> None:
    assert forwards_of(["a none", "b here", "c to a b"]) == {"a": None, "b": (), "c": ("a", "b")}


def test_yes_with_a_loss_is_no_yes() -> None:
    assert ClassAnswer(1, "yes").is_yes
    assert not ClassAnswer(1, "yes", failing=Failing((Loss(("a",), None, "no"),), 3, 0)).is_yes
    assert not ClassAnswer(1, "none").is_yes
