"""Things taken down in real routers: the networks, what is taken down, and the judgement of a rest. No FRR is started."""

import dataclasses
import json
import random

import pytest

from bonsainet.configs.network import read_network
from bonsainet.lab.down import Down
from hostile.judge import answers, labels, questions, rests
from hostile.judge.problem import problem
from hostile.resting import lost, lost_networks, lost_record
from hostile.tests.test_resting import route

TEXTS = {text.name: text for text in lost_networks.texts()}


@pytest.mark.parametrize("name", sorted(TEXTS))
def test_each_router_is_taken_down_and_links_that_stand(name):
    network = read_network(TEXTS[name].text)
    found = lost_networks.losses(network, random.Random(name))
    pairs = {frozenset((link.low.device.name, link.high.device.name)) for link in network.links}
    assert {one for down in found if not down.pairs for one in down.routers} == set(network.by_name)
    assert all(down.pairs <= pairs for down in found)
    assert len({down.word for down in found if not down.routers}) == sum(not down.routers for down in found)


def test_ten_networks_lose_ten_links():
    counts = []
    for text in TEXTS.values():
        downs = lost_networks.losses(read_network(text.text), random.Random(1))
        counts.append(sum(not down.routers for down in downs))
    assert sum(count == lost_networks.MOST_LINKS for count in counts) >= 10


class Listing:
    """A program that lists the solutions of the second reader, and reports a tie or not."""

    def __init__(self, net, down, tied):
        self.net, self.down, self.tied = net, down, tied

    def ask(self, _file, number, _without, _word, task, *_more, texts):
        """An answer."""
        left, found = questions.solutions(self.net, int(number) - 1, self.down)
        blocks = [
            f"solution {place}\n" + "".join(f"{name} {labels.text(one)}\n" for name, one in zip(left.names, given))
            for place, given in enumerate(found, 1)
        ]
        return _Answer("".join(blocks) if task == "solutions" else f"class {number} yes{self.tied}\n")


@dataclasses.dataclass
class _Answer:
    text: str
    status: int = 0
    reason: str = ""


def judged(name, word, record, tied="", change=None):
    """What a record of a loss comes to: by default one that holds a solution."""
    text = TEXTS[name]
    network, net, down = read_network(text.text), answers.read(text.text.encode()), Down.of(word)
    places = [router.name for router in net.routers]
    links = {at for at, link in enumerate(net.links) if frozenset((places[link[0]], places[link[1]])) in down.pairs}
    of_reader = rests.Down(frozenset(map(places.index, down.routers)), frozenset(links))
    case = lost.Case(text, network, net, Listing(net, of_reader, tied))
    left, found = questions.solutions(net, 0, of_reader)
    given = dict(zip(left.names, found[0]))
    given.update(change(given) if change else {})
    held = {name: {case.prefixes[0]: [route(one)] if one else []} for name, one in given.items()}
    outcome = lost.Found(name, "")
    lost.compare(case, outcome, down, {"rest": 1.0, "held": held} | record)
    return outcome


def test_a_rest_in_a_solution_is_right():
    found = judged("disagree", "r1", {})
    assert (found.compared, found.solutions, found.tied, found.wrong) == (1, 1, 0, [])


def test_a_rest_in_other_labels_is_wrong():
    found = judged("disagree", "r1", {}, change=lambda _: {"r2": None})
    assert (found.compared, found.solutions, found.tied) == (1, 0, 0)
    assert found.wrong[0].startswith("without r1, class 1: ")


def test_a_route_that_came_over_what_is_down_is_wrong():
    net = answers.read(TEXTS["wedgie"].text.encode())
    whole = problem(net, net.classes[0])
    for before in (dict(zip(whole.names, one)) for one in rests.solutions(whole)):
        assert before["r3"].path == (65001,)
        assert len(judged("wedgie", "r0:r3", {}, change=lambda _: before).wrong) == 1


def test_other_labels_are_right_by_a_tie_alone():
    text = TEXTS["tied"].text
    net = answers.read(text.encode())
    left, _ = questions.solutions(net, 0, rests.Down(frozenset([4])))
    stable = {rests.keys(left, one) for one in rests.solutions(left)}
    other = next(one for one in rests.weak_rests(left) if rests.keys(left, one) not in stable)
    change = dict(zip(left.names, other))
    assert judged("tied", "r4", {}, " tied r3 communities", lambda _: change).tied == 1
    assert judged("tied", "r4", {}, "", lambda _: change).wrong


def test_no_rest_is_wrong_where_there_is_a_solution():
    found = judged("disagree", "r1", {"fault": "tables still change", "still_changes": True})
    assert found.restless == ["r1"] and found.wrong == ["without r1: tables still change"]


def test_the_table_is_written_between_its_marks(tmp_path):
    page, kept = tmp_path / "page.md", tmp_path / "kept.json"
    page.write_text("a\n<!-- measured: losses; made by x -->\nold\n<!-- measured: end -->\nb\n")
    found = judged("disagree", "r1", {})
    lost_record.keep(dataclasses.asdict(found), ["disagree"], page, kept)
    assert json.loads(kept.read_text())["disagree"]["solutions"] == 1
    assert "| disagree | 0 | 0 | 0 | 0 | 1 | 1 | 0 | 0 | 0 | 1 to 1 |\n<!-- measured: end -->\nb\n" in page.read_text()
