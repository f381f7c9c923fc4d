"""What real routers rest in: the networks, the judgement of a start, the table and the pictures. No FRR is started."""

import itertools
import json

import pytest

from bonsainet.nets.preferring import internet_text
from hostile.judge import answers, labels, questions
from hostile.judge.problem import problem
from hostile.judge.rests import Down
from hostile.resting import command, networks, pictures, record

NOTHING = Down()
BY_NAME = {made.name: made for made in networks.networks()}


def network(name):
    """A network by its name."""
    return answers.read(BY_NAME[name].text.encode())


@pytest.mark.parametrize("name", sorted(BY_NAME))
def test_a_network_has_as_many_solutions_as_its_source_says(name):
    made = BY_NAME[name]
    found = questions.keys(network(name), 0, NOTHING)
    assert made.count is None or len(found) == made.count


def test_there_are_ten_networks_of_different_names():
    assert len(BY_NAME) == len(networks.networks()) == 10


def test_the_backup_of_the_wedgie_stays_in_use_in_one_solution_alone():
    told = questions.forwards(network("wedgie"), 0, NOTHING)
    assert sorted("r2 to r1" in one for one in told) == [False, True]


def route(label):
    """A route as FRR shows it."""
    communities = [f"{one >> 16}:{one & 65535}" for one in sorted(label.communities)]
    found = {"aspath": {"segments": [{"list": list(label.path)}] if label.path else []}, "locPrf": label.preference}
    return {**found, "community": {"list": communities}, "valid": True, "bestpath": {"overall": True}}


def held(names, given):
    """What routers hold, in the words of FRR."""
    return {name: {networks.PREFIX: [route(label)] if label else []} for name, label in zip(names, given)}


class Listing:
    """A program that lists some solutions, and says whether the class is tied."""

    def __init__(self, whole, solutions, tied):
        rows = [
            f"solution {number}\n" + "".join(f"{name} {labels.text(one)}\n" for name, one in zip(whole.names, given))
            for number, given in enumerate(solutions, 1)
        ]
        self.told = {"solutions": "".join(rows), "route": f"class 1 yes{tied}\n"}

    def ask(self, _file, _class, word, *_more, texts):
        """An answer."""
        return _Answer(self.told[word])


class _Answer:
    status = 0
    reason = ""

    def __init__(self, text):
        self.text = text


def test_a_start_is_counted_by_the_solution_that_it_rests_in():
    net, made = network("disagree"), BY_NAME["disagree"]
    whole, found = problem(net, net.classes[0]), questions.solutions(net, 0, NOTHING)[1]
    starts = [{"held": held(whole.names, given), "rest": 5.0} for given in (found[1], found[0], found[1])]
    one = command.judged(made, Listing(whole, found, ""), [*starts, {"fault": "tables still change"}])
    assert (one.rests, one.weak, one.others, one.without_rest) == ({1: 1, 2: 2}, 0, [], 1)
    assert not one.is_right
    assert command.judged(made, Listing(whole, found, ""), starts).is_right
    left_out = command.judged(made, Listing(whole, found[:1], ""), starts)
    assert left_out.weak == 2 and not left_out.is_right


def test_a_tie_is_explained_where_the_program_says_so():
    net, made = network("tied"), BY_NAME["tied"]
    whole, found = problem(net, net.classes[0]), questions.solutions(net, 0, NOTHING)[1]
    at = whole.names.index("r3")
    other = next(one for one in labels.candidates(whole, found[0], at) if one != found[0][at])
    given = list(found[0])
    given[at] = other
    given[whole.names.index("r4")] = labels.candidates(whole, given, whole.names.index("r4"))[0]
    start = [{"held": held(whole.names, given), "rest": 5.0}]
    assert command.is_weakly_stable(whole, given)
    assert command.judged(made, Listing(whole, found, " tied r3 communities"), start).is_right
    assert not command.judged(made, Listing(whole, found, ""), start).is_right


def test_labels_that_no_routers_can_rest_in_are_told():
    net, made = network("disagree"), BY_NAME["disagree"]
    whole, found = problem(net, net.classes[0]), questions.solutions(net, 0, NOTHING)[1]
    given = [found[0][0], None, found[0][2]]
    one = command.judged(made, Listing(whole, found, ""), [{"held": held(whole.names, given), "rest": 5.0}])
    assert one.others == ["r0 bgp 100 path comms | r1 none | " + f"r2 {labels.text(given[2])}"]


def test_the_table_is_written_between_its_marks(tmp_path):
    kept = {
        "disagree": {
            "solutions": 2,
            "rests": {"1": 3, "2": 4},
            "weak": 0,
            "others": [],
            "without_rest": 0,
            "seconds": [5, 9],
        }
    }
    (tmp_path / "events.json").write_text(json.dumps(kept))
    page = tmp_path / "page.md"
    page.write_text("a\n<!-- measured: events; x -->\nold\n<!-- measured: end -->\nb\n")
    record.write(page, tmp_path / "events.json")
    assert "| disagree | 2 | 7 | 3, 4 | 0 | 0 | 0 | 5 to 9 |\n<!-- measured: end -->\nb\n" in page.read_text()
    assert "old" not in page.read_text()


def test_a_picture_shows_each_solution():
    told = "solution 1\nr0 here\nr1 to r0\nr2 to r1\nsolution 2\nr0 here\nr1 to r2\nr2 to r0\n"
    arrows = pictures.forwarding(told)
    assert arrows == [[("r1", "r0"), ("r2", "r1")], [("r1", "r2"), ("r2", "r0")]]
    drawn = pictures.dot(BY_NAME["disagree"], arrows)
    assert all(f"n{place}{low} -> n{place}{high}" in drawn for place, row in enumerate(arrows, 1) for low, high in row)


def test_pairs_of_an_internet_are_linked_once():
    for seed, count in itertools.product((1, 2, 3), (8, 16)):
        net = answers.read(internet_text(seed, count).encode())
        pairs = [frozenset(link[:2]) for link in net.links]
        assert len(set(pairs)) == len(pairs) and len(net.routers) == count
