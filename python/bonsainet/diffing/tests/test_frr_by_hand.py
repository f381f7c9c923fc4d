"""Edits of folders on FRR, before and after: all labels at rest are those from which the difference was made. Needs root:
run by hand with BONSAI_LAB=1."""
from __future__ import annotations

import os

import pytest

import bonsainet
from bonsainet.ask.labels import Label
from bonsainet.diffing.tests.mutations import Mutation
from bonsainet.diffing.tests.test_mutations import MUTATIONS, before, imported
from bonsainet.exporting import frr
from bonsainet.lab.enclosure import run_plan
from bonsainet.lab.held import labels_of
from bonsainet.lab.plan import plan_of

SECONDS, QUIET = 300.0, 3.0
NAMES = (
    "a cost",
    "a link that is shut",
    "a link that is passive",
    "a new router",
    "a prefix that moves",
    "a session that is shut",
    "another community",
    "a preference for one neighbour",
    "a longer path",
    "a spine that is drained",
    "a prefix list that denies",
    "a prefix that two leaves announce",
)

pytestmark = pytest.mark.skipif(os.geteuid() != 0 or not os.environ.get("BONSAI_LAB"), reason="run by hand, as root")


@pytest.mark.parametrize("mutation", [one for one in MUTATIONS if one.name in NAMES], ids=lambda one: one.name)
def test_both_sides_on_frr(mutation: Mutation) -> None:
    compared = sum(agreeing(network) for network in (before(mutation.base), imported(mutation.made())))
    print(f"{mutation.name}: {compared} labels agree")
    assert compared


def agreeing(network: bonsainet.Network) -> int:
    """How many labels routers on FRR hold at rest, each of which has the key of a stable solution that the program gives."""
    prefixes = [prefix for one in network.classes for prefix in one.prefixes]
    exported = frr.export(network.parsed, with_lab_timers=True)
    record = run_plan(plan_of(network.parsed, exported, prefixes), SECONDS, QUIET)
    compared = 0
    for one in network.classes:
        solutions = [keys_of(labels) for labels in one.solutions()]
        for prefix in one.prefixes:
            held = keys_of(labels_of(network.parsed, record["held"], prefix))
            assert held in solutions, f"{prefix}: {held} is none of {solutions}"
            compared += len(held)
    return compared


def keys_of(labels: dict[str, Label]) -> dict[str, object]:
    """What of each label two routers may not hold otherwise: of paths of equal length any may be held."""
    return {name: label and label.key(frozenset()) for name, label in labels.items()}
