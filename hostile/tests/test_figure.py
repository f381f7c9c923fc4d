"""The figure: its networks, its table and its plot. Nothing is measured but small networks."""

import math

import pytest

from bonsainet.ask.native import native
from bonsainet.ask.program import Program
from bonsainet.ask.where import NoProgram
from bonsainet.cli.command_line import Refused
from hostile.figure import command, drawing, measuring, networks
from hostile.judge import answers
from hostile.judge.questions import class_of
from hostile.solver import smt

INF = math.inf
ROW = measuring.Row("ring", 16, 16, 16, 9, 8, "yes", 0.02, 12.345, 0.5, INF, 0.01, None, 3.0, None, 4.0)


@pytest.mark.parametrize("family", networks.FAMILIES, ids=lambda family: family.name)
def test_the_smallest_network_of_a_family_has_the_prefix(family):
    net = answers.read(family.text(family.sizes[0]).encode())
    assert not isinstance(net, answers.Expected) and class_of(net, family.prefix) is not None
    assert list(family.sizes) == sorted(set(family.sizes))


def test_each_spine_of_the_data_centre_tags_by_a_community_of_its_own():
    net = answers.read(networks.data_centre(4).encode())
    spines = [router for router in net.routers if router.maps]
    tags = {value for router in spines for value, _ in router.named}
    assert len(spines) == len(tags) == networks.SPINES


@pytest.mark.skipif(not smt.is_there(), reason="the package z3 is not there")
def test_the_solver_answers_with_its_processor_seconds():
    answer, seconds = measuring.by_solver(networks.FAMILIES[0].text(4), networks.FAMILIES[0].prefix)
    assert answer == "yes" and 0 < seconds < 60


def test_a_program_that_is_ended_by_its_limit_was_given_up(monkeypatch):
    monkeypatch.setattr(measuring, "MOST_SECONDS", 1)
    assert measuring.ran(["sh", "-c", "while :; do :; done"]) == ("", INF)


def test_the_table_says_what_was_given_up_and_what_was_not_tried():
    assert drawing.table([ROW]).splitlines()[2] == (
        "| ring | 16 | 16 | 9 | 8 | 0.020 | 12 | 0.50 | given up | 0.010 |  | 3.00 |"
    )


def test_readme_has_the_largest_fat_tree_that_the_solver_answered(tmp_path):
    sizes = [(4, 20, 1.0), (12, 180, 17.25), (20, 500, INF), (30, 1125, None)]
    rows = [measuring.Row("fat tree", size, n, n, 6, 5, "yes", 0.1, z3, 0.06, 0.014, 0.01) for size, n, z3 in sizes]
    page = tmp_path / "README.md"
    page.write_text("a\n<!-- measured: asked; x -->\nold\n<!-- measured: end -->\nb\n")
    drawing.put(page, drawing.short([ROW, *rows]))
    assert "| fat tree | 180 | 17 s | 0.060 s | 0.014 s |\n<!-- measured: end -->\nb\n" in page.read_text()
    assert "old" not in page.read_text() and page.read_text().startswith("a\n<!-- measured: asked; x -->\n| `route")


def test_rows_are_kept_and_read_again(tmp_path, monkeypatch):
    monkeypatch.setattr(command, "KEPT", tmp_path / "asked.csv")
    command.keep([ROW], "as it was made")
    assert command.read(tmp_path / "asked.csv") == [ROW]


def test_the_same_rows_give_the_same_plot(tmp_path):
    pytest.importorskip("matplotlib", reason="the package python3-matplotlib is not there")
    for name in ("one.svg", "two.svg"):
        drawing.draw([ROW, measuring.Row("mesh", 8, 8, 28, 2, 1, "yes", 0.1, 1.0, 0.1, 0.1, 0.1)], tmp_path / name)
    assert (tmp_path / "one.svg").read_bytes() == (tmp_path / "two.svg").read_bytes()


def test_what_the_solver_took_is_taken_from_a_known_row(monkeypatch):
    small = measuring.Compressed(measuring.Size(1, 16, 16, 9, 8), "small", 0.02)
    monkeypatch.setattr(measuring, "compressed", lambda *_: small)
    monkeypatch.setattr(measuring, "by_program", lambda *_: ("yes", 0.25))
    monkeypatch.setattr(measuring, "by_solver", lambda text, _: ("yes", 40.0))
    ring = next(family for family in networks.FAMILIES if family.name == "ring")
    known = measuring.Row("ring", 16, 16, 16, 9, 8, "yes", 0.5, INF, 0.75, 0.5, 0.5, 3.0, None, 4.0)
    row = measuring.measured("bonsai", "ask", ring, 16, None, known)
    assert (row.solver, row.solver_after, row.ask, row.compress) == (40.0, 0.75, 0.25, 0.02)
    with pytest.raises(measuring.Disagreement):
        measuring.measured("bonsai", "ask", ring, 16, None, measuring.Row(**{**vars(known), "answer": "no"}))


def test_frr_is_not_started_where_it_took_a_minute_or_the_lab_is_too_large():
    assert measuring.is_for_frr(20, 0.0) and measuring.is_for_frr(measuring.MOST_ON_FRR, 60.0)
    assert not measuring.is_for_frr(20, 60.5) and not measuring.is_for_frr(20, INF)
    assert not measuring.is_for_frr(20, None) and not measuring.is_for_frr(measuring.MOST_ON_FRR + 1, 0.0)


def test_frr_is_started_for_what_is_not_known_and_where_there_is_memory(monkeypatch):
    """What is small goes first; where there is no memory for the large network, it can be measured later."""
    started = []

    def on_frr(text, _prefix):
        started.append(text)
        if text == "large" and len(started) < 3:
            raise Refused("a lab takes more than half of the memory")
        return 2.0, 5.0

    small = measuring.Compressed(measuring.Size(1, 16, 16, 9, 8), "small", 0.02)
    monkeypatch.setattr(measuring, "compressed", lambda *_: small)
    monkeypatch.setattr(measuring, "on_frr", on_frr)
    family = networks.Family("ring", lambda _: "large", (16,), "10.0.0.0/24")
    row = measuring.Row("ring", 16, 16, 16, 9, 8, "yes", 0.5, INF, 0.75, 0.5, 0.5)
    with pytest.raises(Refused):
        measuring.measure_frr("bonsai", family, row, None)
    assert (row.frr, row.frr_after, started) == (None, 2.0, ["small", "large"])
    assert measuring.measure_frr("bonsai", family, row, None) and row.frr == 2.0
    assert not measuring.measure_frr("bonsai", family, row, None) and started == ["small", "large", "large"]
    too_large = measuring.Row("ring", 64, 64, 64, 33, 32, "yes", 0.5, INF, 0.75, 0.5, 0.5)
    row.frr = row.frr_after = 61.0
    assert not measuring.measure_frr("bonsai", family, too_large, row)


def test_a_row_is_measured_again_with_what_frr_took():
    again = measuring.Row("ring", 16, 16, 16, 9, 8, "yes", 0.5, INF, 0.75, 0.5, 0.5)
    assert measuring.with_frr_of(again, None) == again
    found = measuring.with_frr_of(again, ROW)
    assert (found.compress, found.solver_after, found.frr_after, found.rest_after) == (0.5, 0.75, 3.0, 4.0)


@pytest.mark.skipif(not smt.is_there(), reason="the package z3 is not there")
def test_a_row_has_the_sizes_that_the_program_says():
    try:
        bonsai, ask = (native(Program(name=name)) for name in ("bonsai", "bonsai-ask"))
    except (Refused, NoProgram, FileNotFoundError) as why:
        pytest.skip(str(why))
    made = next(family for family in networks.FAMILIES if family.name == "ring")
    row = measuring.measured(bonsai, ask, made, 16, None)
    assert (row.routers, row.links, row.groups, row.links_after, row.answer) == (16, 16, 9, 8, "yes")


def test_what_frr_takes_is_said_beside_how_the_rest_was_made():
    told = command._with_frr("2026, as made; FRR: then", 3.0)
    assert told.startswith("2026, as made; FRR: 20") and told.count("FRR") == 1
