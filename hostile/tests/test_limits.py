"""Each limit at its value and one beyond."""
from __future__ import annotations

import shutil
from pathlib import Path

import pytest

from hostile.limits import collisions
from hostile.limits.measuring import is_left_out, measured
from hostile.limits.numbers import NUMBERED
from hostile.limits.stale import Ring, ran
from hostile.limits.products import PRODUCTS, Product
from hostile.limits.texts import Case, cases, exact_pairs, long_text, worst


@pytest.mark.parametrize("case", cases(), ids=lambda case: case.name)
def test_a_limit(case: Case, tmp_path: Path) -> None:
    """The answer is the one that the pages tell."""
    assert measured(case, tmp_path).wrong == ""


@pytest.mark.skipif(shutil.which("gcc") is None, reason="the package gcc is not there: nothing is compiled")
@pytest.mark.parametrize("case", worst(1), ids=lambda case: case.name)
def test_a_text_made_to_take_long(case: Case, tmp_path: Path) -> None:
    """The answer is that of a plain text, or `out of memory` where memory is bounded."""
    if is_left_out(case):
        pytest.skip("an unproved build reserves address space for its checks")
    assert measured(case, tmp_path).wrong == ""


@pytest.mark.skipif(shutil.which("gcc") is None, reason="the package gcc is not there: nothing is compiled")
def test_keys_that_meet() -> None:
    """Different keys of each kind, as many as were asked for."""
    for kind in ("names", *(numbered.kind for numbered in NUMBERED)):
        found = collisions.keys(kind, 2000)
        assert len(set(found)) == len(found) == 2000
    assert all(len(name) == 8 and name[0] == "a" and name[-1] == "0" for name in collisions.keys("names", 10))


@pytest.mark.skipif(shutil.which("gcc") is None, reason="the package gcc is not there: nothing is compiled")
def test_one_sum() -> None:
    """The preferences of maps lead to one sum."""
    sums = set()
    for preferences in collisions.keys("sums", 20):
        total = 0
        for place, preference in enumerate(preferences.split(".")):
            for part in (10 * place + 10, 1, 6, int(preference), 10, 11, 0):
                total = (total ^ part) * 1_099_511_628_211 % 2**64
        sums.add(total)
    assert len(sums) == 1


def test_the_sizes_of_texts() -> None:
    """The makers of texts keep their word."""
    assert len(long_text(70_003)) == 70_003
    assert exact_pairs(0).count(b"Vlan1\n") == 1448


def test_stale_labels(tmp_path: Path) -> None:
    """In a small ring too, each label is left with a path over more than half of the routers."""
    ring = Ring(parts=6, part=5)
    assert ran(ring, tmp_path).startswith("moving ")
    labels = (tmp_path / "T").read_text().splitlines()
    assert labels[0] == "r0 bgp 100 path comms"
    hops = [line.count("*11") for line in labels[1:]]
    assert len(hops) == ring.size and min(hops) > ring.size // 2 and max(hops) == ring.size


@pytest.mark.parametrize("product", PRODUCTS, ids=lambda product: product.name)
def test_texts_of_a_product_differ_in_what_meets_alone(product: Product) -> None:
    """Both have the same number of lines, or one more or less, and the largest are texts that may be read."""
    plain, meeting = (product.text(min(64, product.bound), meet) for meet in (False, True))
    assert plain != meeting and abs(plain.count(b"\n") - meeting.count(b"\n")) <= 1
    assert len(product.text(product.bound, True)) <= 16_777_216


@pytest.mark.parametrize(
    ("name", "together"),
    [
        ("prefix lists of 2 entries over nested prefixes", 128),
        ("prefixes and prefix lists that first deny all", 128),
    ],
)
def test_the_entries_of_64_lists(name: str, together: int) -> None:
    """They have so many together, and no list says what another one does."""
    product = next(product for product in PRODUCTS if product.name == name)
    lists: dict[str, list[str]] = {}
    for line in product.text(6400, True).decode().splitlines():
        if line.startswith("ip prefix-list "):
            lists.setdefault(line.split()[2], []).append(line.partition(" seq ")[2])
    counts = [len(entries) for entries in lists.values()]
    assert {sum(counts[first : first + 64]) for first in range(0, 6400, 64)} == {together}
    assert len({tuple(entries) for entries in lists.values()}) == len(lists) == 6400
