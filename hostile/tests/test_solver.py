"""The solver as a reader: formulas, gadgets that are known, and agreement with exhaustive search."""

import itertools
import json
import random
import subprocess

import pytest

from hostile.asked_run import text_of
from hostile.judge import answers
from hostile.judge.rests import Down, TooLarge
from hostile.makers import disputes
from hostile.solver import command, encoding, formulas, reader, smt
from hostile.solver.solving import route_texts
from hostile.tests.test_judge_asked import answer_by, network

NOTHING = Down()
pytestmark = pytest.mark.skipif(not smt.is_there(), reason="the package z3 is not there")


@pytest.fixture(scope="module")
def solver():
    """A process of the solver."""
    one = smt.Solver()
    yield one
    one.close()


def bits(held):
    """A set of some of the numbers 1, 2 and 3."""
    return {value: value in held for value in (1, 2, 3)}


def test_sets_are_ordered_as_ascending_lists():
    some = [held for size in range(4) for held in itertools.combinations((1, 2, 3), size)]
    for one, other in itertools.product(some, some):
        assert formulas.less_bits(bits(one), bits(other)) is (list(one) < list(other))


def test_values_of_a_model_are_read(solver):
    solver.begin(["(declare-const a Bool)", "(declare-const n Int)"])
    solver.add(["a", formulas.equal("n", -7)])
    assert solver.is_satisfiable()
    assert solver.model(["a", "n"]) == {"a": True, "n": -7} and solver.model([]) == {}
    assert solver.each_satisfiable(["a", "(not a)", "(= n (- 7))"]) == [True, False, True]
    solver.add(["(not a)"])
    assert not solver.is_satisfiable() and solver.model(["a"]) is None and solver.model([]) is None


def test_a_formula_that_is_used_twice_has_one_name():
    writer = formulas.Writer()
    assert writer.formula("(and a b)") == writer.formula("(and a b)") == "d0"
    assert writer.formula("a") == "a" and writer.formula(True) is True
    assert writer.lines == ["(define-fun d0 () Bool (and a b))"]


@pytest.mark.parametrize(
    "name, bad, both, count",
    [("disagree", False, True, 2), ("two pairs", False, True, 4), ("bad gadget", True, False, 0)],
)
def test_gadgets_have_as_many_solutions_as_griffin_shepherd_and_wilfong_say(name, bad, both, count):
    net = network(name, bad, both)
    assert len(set(reader.keys(net, 0, NOTHING))) == len(reader.keys(net, 0, NOTHING)) == count


def test_an_answer_is_judged_by_the_solver():
    net = network("disagree")
    assert answer_by(reader, net, ["1", "count"], 0, "class 1 solutions 2\n")
    assert not answer_by(reader, net, ["1", "count"], 0, "class 1 solutions 1\n")
    lines = "class 1 yes\nrouter r0 no\nclass 1 failing 1 of 3\n"
    assert answer_by(reader, net, ["1", "failing", "routers", "route", "*"], 8, lines)
    assert not answer_by(reader, net, ["1", "failing", "routers", "route", "*"], 8, lines.replace("r0", "r1"))


def test_ties_matter_where_only_communities_order_two_routes():
    chance = random.Random(3)
    texts = [disputes.text(chance) for _ in range(60)]
    nets = [
        net for net in map(lambda text: answers.read(text.encode()), texts) if not isinstance(net, answers.Expected)
    ]
    found = {reader.ties_matter(net, 0, NOTHING) for net in nets if net.classes}
    assert found == {True, False}


def answers_of(texts):
    """What Z3 says to texts in SMT-LIB."""
    run = [subprocess.run(["z3", "-in"], input=text, capture_output=True, text=True, check=True) for text in texts]
    return [one.stdout.strip() for one in run]


@pytest.mark.parametrize(
    "name, down, told",
    [
        ("two pairs", NOTHING, ["unsat", "sat"]),
        ("two pairs", Down(routers=frozenset([0])), ["sat", "sat"]),
        ("bad gadget", NOTHING, ["unsat", "unsat"]),
    ],
)
def test_route_everywhere_follows_from_two_texts(name, down, told):
    assert answers_of(route_texts(network(name, name == "bad gadget", name != "bad gadget"), 0, down)) == told


def test_who_is_lone_follows_from_what_is_left():
    net = network("disagree")
    assert encoding.lone_routers(net, 0, encoding.ways(net, NOTHING)) == {1, 2}
    between = next(at for at, link in enumerate(net.links) if {link[0], link[1]} == {1, 2})
    assert encoding.lone_routers(net, 0, encoding.ways(net, NOTHING.with_link(between))) == set()


def test_the_solver_finds_what_exhaustive_search_finds():
    classes = 0
    for start in range(40):
        chance = random.Random(start)
        net = answers.read(text_of(chance))
        if isinstance(net, answers.Expected) or answers.has_many_communities(net):
            continue
        for number in range(len(net.classes)):
            try:
                assert command.differences(chance, net, number) == []
                classes += 1
            except TooLarge:
                pass
    assert classes > 20


def test_the_comparison_is_left_out_by_name_without_the_package(monkeypatch, capsys):
    monkeypatch.setattr(smt.shutil, "which", lambda _name: None)
    assert command.main(["--seconds", "1"]) == 0
    assert "the package z3" in capsys.readouterr().out


def test_jobs_share_the_texts_and_one_class_of_each_is_enough(capsys, tmp_path, monkeypatch):
    monkeypatch.setattr(command, "KEPT", tmp_path / "solve.json")
    assert (
        command.main(["--seconds", "60", "--texts", "3", "--jobs", "2", "--one", "--seed", "1", "--record", "a"]) == 0
    )
    told = json.loads(capsys.readouterr().out)
    assert told["texts"] == told["classes"] >= 3 and told == json.loads((tmp_path / "solve.json").read_text())["a"]
