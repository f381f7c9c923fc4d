"""Who is linked with whom: both ends of a link agree, and each originator has an address in its prefix."""
from __future__ import annotations

import random
from ipaddress import IPv4Address, IPv4Network

import pytest

from hostile.makers.shapes import LINKS, Shape, mask, own_address, ports, shape


@pytest.mark.parametrize("seed", range(40))
def test_both_ends_of_a_link_agree(seed: int) -> None:
    one = shape(random.Random(seed))
    ends = {
        (number, place): (far, own, other)
        for place in range(one.count)
        for number, far, own, other in ports(one, place)
    }
    for number, (low, high) in enumerate(one.pairs):
        assert low != high
        assert ends[number, low] == (high, LINKS + 2 * number, LINKS + 2 * number + 1)
        assert ends[number, high] == (low, LINKS + 2 * number + 1, LINKS + 2 * number)
    assert one.origins and set(one.origins) <= set(range(one.count))


@pytest.mark.parametrize("seed", range(40))
def test_an_originator_has_an_address_in_its_prefix(seed: int) -> None:
    one = shape(random.Random(seed))
    for place, prefixes in one.origins.items():
        for prefix, length in prefixes:
            assert own_address(prefix, length, place) in IPv4Network(f"{prefix}/{length}")


def test_shapes_differ() -> None:
    made = [shape(random.Random(seed)) for seed in range(200)]
    assert {one.count for one in made} == set(range(2, 8))
    assert any(len(set(one.pairs)) < len(one.pairs) for one in made)


def test_a_router_without_links_has_no_port() -> None:
    assert ports(Shape(3, [(0, 1)], {}), 2) == []


@pytest.mark.parametrize("length, told", [(0, "0.0.0.0"), (24, "255.255.255.0"), (32, "255.255.255.255")])
def test_the_mask_of_a_length(length: int, told: str) -> None:
    assert mask(length) == IPv4Address(told)
