"""Makers of texts: what they make is what they say, and the same for one seed."""
from __future__ import annotations

import collections
import random
import re

import pytest

from hostile.judge import answers, groups, labels, problem, questions
from hostile.judge.network import Refused
from hostile.judge.rests import Down
from hostile.makers import certificates, faults, forms, internets, makers, meant, networks, policies, solutions
from hostile.makers import labels as label_maker
from hostile.tests.texts import pair

SEEDS = range(60)


def test_one_seed_makes_one_text() -> None:
    """Texts come again by their seed."""
    assert [makers.made(random.Random(seed)) for seed in SEEDS] == [makers.made(random.Random(seed)) for seed in SEEDS]


def test_most_networks_are_read() -> None:
    """Of both protocols, with lone routers, groups of several and several links of two routers."""
    kinds: collections.Counter[str] = collections.Counter()
    for seed in SEEDS:
        net = answers.read(networks.text(random.Random(seed)).encode())
        if isinstance(net, answers.Expected):
            kinds["refused"] += 1
            continue
        kinds[net.protocol] += 1
        kinds["parallel"] += len({link[:2] for link in net.links}) < len(net.links)
        for one in net.classes:
            whole = problem.problem(net, one)
            kinds["lone"] += bool(whole.lone)
            kinds["merged"] += len(groups.groups(whole)) < len(whole.names)
    assert (
        kinds["refused"] < len(SEEDS) / 10
        and min(kinds[name] for name in ("bgp", "ospf", "parallel", "lone", "merged")) > 3
    ), kinds


def test_policies_have_what_decides() -> None:
    """Exact matches, additive and plain sets, deletion, prepending, preferences, ranges of lengths, denying lines."""
    text = "".join(networks.bgp(random.Random(seed), networks.shape(random.Random(seed))) for seed in SEEDS)
    for piece in (
        " exact-match\n",
        " additive\n",
        "set community none",
        "comm-list D delete",
        "prepend",
        "local-preference",
        " ge ",
        " le ",
        "deny 65",
        "send-community\n",
        "shutdown",
        "match ip address",
        policies.LONG,
    ):
        assert text.count(piece) > 2, piece


def test_a_twist_changes_one_line() -> None:
    """One line, or none where nothing can be turned."""
    turned = 0
    for seed in SEEDS:
        chance = random.Random(seed)
        policy = policies.Policy.made(chance, policies.communities(chance))
        other = policy.twisted(chance)
        assert len(policy.lines) == len(other.lines)
        turned += sum(one != two for one, two in zip(policy.lines, other.lines))
    assert len(SEEDS) * 0.9 < turned <= len(SEEDS)


def test_lines_of_forms() -> None:
    """Most fit their form, some do not; each known head is made."""
    kinds: collections.Counter[str] = collections.Counter()
    for seed in range(3000):
        told = answers.read(forms.alone(random.Random(seed)))
        kinds[told.reason.split()[-1] if isinstance(told, answers.Expected) else "read"] += 1
    assert kinds["read"] > 900 and kinds["BadForm"] > 600 and kinds["WellKnown"] > 30 and kinds["Repeated"] > 10, kinds
    lines = [forms.line(random.Random(seed)) for seed in range(1000)]
    heads = {re.sub(r"\{.*", "", form).strip() for form in forms.FORMS}
    assert all(any(line.split()[: len(head.split())] == head.split() for line in lines) for head in heads)


@pytest.mark.parametrize("seed", range(20))
def test_planted_faults(seed: int) -> None:
    """At most three lines are put in, taken out, doubled or changed; bytes are changed at a few places."""
    text = networks.text(random.Random(seed))
    before, after = collections.Counter(text.splitlines()), collections.Counter(
        faults.planted(random.Random(seed), text).decode("latin-1").splitlines()
    )
    assert sum((before - after).values()) <= 3 and sum((after - before).values()) <= 3
    assert faults.planted(random.Random(seed), "") and faults.bytes_changed(random.Random(seed), b"") is not None


def test_planted_faults_are_of_many_kinds() -> None:
    """Within some hundred texts."""
    found = set()
    for seed in range(700):
        chance = random.Random(seed)
        text = (
            faults.planted(chance, networks.text(chance)) if seed % 2 else meant.changed(chance, networks.text(chance))
        )
        told = answers.read(text)
        found.add(told.reason.split()[-1] if isinstance(told, answers.Expected) else "read")
    assert len(found) >= 20, found


def test_a_line_is_planted_where_it_fits() -> None:
    """Behind the lines of its stanza, or at the top."""
    lines = ["hostname a", "interface Vlan1", " shutdown", "router bgp 1", "end"]
    assert (
        faults._places(lines, " ip ospf cost 1") == [2, 3]
        and faults._places(lines, " neighbor 1.1.1.1 shutdown") == [4]
        and faults._places(lines, "end") == [0, 1, 3, 4]
    )
    assert faults._places(lines, " match community A") == []


def test_examples_are_there() -> None:
    """Small ones, of both kinds."""
    assert len(faults.examples()) > 10 and all(len(text) < 40_000 for text in faults.examples())


def whole() -> tuple[problem.Network, problem.Problem]:
    """A network of two routers, with a list of one community."""
    net = pair(
        left=(" neighbor 172.16.0.1 route-map IN in",),
        lists=(
            "ip community-list standard A permit 65000:1",
            "route-map IN permit 10",
            " match community A exact-match",
            " set local-preference 200",
            "route-map IN permit 20",
        ),
    )
    return net, problem.problem(net, net.classes[0])


def test_labels_are_solutions_of_the_right_form() -> None:
    """They can be read; some are stable, and the first reasons differ."""
    reasons: collections.Counter[str] = collections.Counter()
    for seed in range(40):
        chance = random.Random(seed)
        net = answers.read(networks.bgp(chance, networks.shape(chance)).encode())
        if isinstance(net, answers.Expected):
            continue
        for one in net.classes[:1]:
            made = problem.problem(net, one)
            for _ in range(10):
                told = labels.fault(made, labels.read(label_maker.Maker(chance, net, made).text(), made))
                reasons[told[1] if told else "stable"] += 1
    assert (
        set(reasons) == {"stable", "not-a-candidate", "better-candidate", "none-with-candidate"}
        and min(reasons.values()) > 10
    ), reasons
    net, _ = whole()
    assert label_maker.telling_sets(net) == [frozenset({65000 << 16 | 1})]


def _kinds(made: list[bytes], read) -> collections.Counter[str]:
    kinds: collections.Counter[str] = collections.Counter()
    for text in made:
        try:
            read(text)
            kinds["read"] += 1
        except Refused as refused:
            kinds[refused.kind] += 1
    return kinds


def test_broken_solutions() -> None:
    """Some stay as they are; the others have each fault of a solution."""
    _, one = whole()
    text = "a bgp 100 path 65002 comms\nb bgp 100 path comms\n"
    made = [solutions.broken(random.Random(seed), text, one.names) for seed in range(400)]
    kinds = _kinds(made, lambda data: labels.read(data, one))
    assert set(kinds) == {"read", "BadForm", "UnknownRouter", "Repeated", "WrongProtocol", "Missing"}, kinds
    assert solutions.broken(random.Random(1), "", one.names) is not None


def test_broken_certificates() -> None:
    """Some stay as they are; the others have several faults of a certificate."""
    from hostile.judge.certificates import Judge

    _, one = whole()
    text = "bonsai certificate 1\ngroup a\ngroup b\nend\n"
    kinds = _kinds(
        [certificates.broken(random.Random(seed), text, one.names) for seed in range(400)],
        lambda data: Judge(one).read(data),
    )
    assert {"read", "BadForm", "UnknownRouter", "WrongGroups", "NoEnd", "NoEdge"} <= set(kinds), kinds


def test_internets_have_lone_routers_and_routes_everywhere() -> None:
    """A valley-free internet has one solution, in which the origin is reached; where a session leaks there may be more."""
    lone = single = 0
    for seed in SEEDS:
        net = answers.read(internets.text(random.Random(seed)).encode())
        assert not isinstance(net, answers.Expected)
        whole, found = questions.solutions(net, 0, Down())
        lone += bool(whole.lone)
        single += len(found) == 1
        assert all(label is not None for given in found for label in given)
    assert lone > len(SEEDS) / 2 and single > len(SEEDS) * 0.9


def test_tied_networks_are_tied() -> None:
    """In half of them real routers may rest otherwise than the solutions say."""
    tied = 0
    for seed in SEEDS:
        net = answers.read(internets.tied(random.Random(seed)).encode())
        assert not isinstance(net, answers.Expected)
        tied += questions.ties_matter(net, 0, Down())
    assert tied > len(SEEDS) / 3
