"""Fat trees, rings and meshes have the groups that their shape gives, and kept measurements are drawn alike each
time."""
from pathlib import Path

import pytest

from bonsainet.nets import synthetic
from bonsainet.bench.paper import KEPT, Row, keep, read, table
from bonsainet.bench.plot import PAGES, PICTURES, draw, with_tables
from bonsainet.nets.fat_tree import fat_tree_text
from bonsainet.ask.program import Program
from bonsainet.tests.asking import bytes_of


@pytest.mark.parametrize("size", [4, 8])
def test_fat_trees(size: int) -> None:
    text = fat_tree_text(size)
    told = Program().summary(text)
    assert len(told) == size * size // 2
    assert {(found.routers, found.links, found.groups, found.links_after) for found in told} == {
        (5 * size * size // 4, size**3 // 2, 6, 5)
    }


def test_the_fat_tree_of_four_is_the_example() -> None:
    assert Program().classes(fat_tree_text(4)) == Program().classes(bytes_of("fat-tree-4.cfg"))


@pytest.mark.parametrize("size", [4, 9, 40])
def test_rings(size: int) -> None:
    assert {(found.routers, found.links, found.groups) for found in Program().summary(synthetic.ring(size))} == {
        (size, size, size // 2 + 1)
    }


@pytest.mark.parametrize("size", [3, 20])
def test_meshes(size: int) -> None:
    told = Program().summary(synthetic.mesh(size))
    assert {(found.links, found.groups, found.links_after) for found in told} == {(size * (size - 1) // 2, 2, 1)}


def test_the_largest_mesh_keeps_the_limits_of_a_text() -> None:
    text = synthetic.mesh(362)
    assert len(text) <= 16777216 and text.count(" remote-as ") <= 131072 and text.count("\n") <= 1000000
    assert Program().refusal(text) is None


def test_measurements_are_kept_as_they_are(tmp_path, monkeypatch) -> None:
    rows = [Row("ring", 4, 1000, 4, 4, 4, 3, 2, 0.001, 0.0001, 0.001, 1.5, 3)]
    monkeypatch.setattr("bonsainet.bench.paper.KEPT", tmp_path / "paper.csv")
    keep(rows, "load 0.1")
    assert read(tmp_path / "paper.csv") == rows
    assert "| ring | 4 | 4 | 3 | 2 | 3 | 4 | 0.00 | 0.0001 | 0.00 | 2 |" in table(rows)


@pytest.mark.parametrize("page", PAGES, ids=lambda page: page.name)
def test_the_pages_have_the_kept_tables(page: Path) -> None:
    text = page.read_text("utf-8")
    assert "<!-- measured: " in text and with_tables(text) == text, "bench/plot writes the tables"


def test_plots_are_those_of_the_kept_measurements(tmp_path) -> None:
    pytest.importorskip("matplotlib", reason="the package python3-matplotlib is not there: no plot is drawn")
    draw(tmp_path)
    for name in ("time.svg", "memory.svg"):
        assert (tmp_path / name).read_bytes() == (PICTURES / name).read_bytes(), "bench/plot draws docs/data anew"
    assert KEPT.read_text().startswith("# load ")
