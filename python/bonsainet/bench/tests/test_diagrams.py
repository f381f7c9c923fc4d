"""The model of diagrams means what lists mean, in each order, and the networks that it writes are read."""
import itertools
from pathlib import Path

import pytest

from bonsainet.bench.decisions import TRUE, Store
from bonsainet.bench.diagrams import ORDERS, Matched, asked, built, by_chance, network, shape_of, words, work
from bonsainet.cli.command_line import Refused
from bonsainet.ask.native import native
from bonsainet.ask.program import Program


def permits(lines: Matched, carried: set[int]) -> bool:
    return next((permits for permits, names in lines if carried.issuperset(names)), False)


def value(store: Store, place: int, carried: set[int]) -> bool:
    while place > TRUE:
        variable, high, low = store.nodes[place]
        place = high if variable in carried else low
    return place == TRUE


def taken(order: str, lists: list[Matched], carried: set[int]) -> bool:
    held = [permits(lines, carried) for lines in lists]
    return any(held) if "entries" not in order else True in held and held.index(True) % 2 == 0


@pytest.mark.parametrize("order", ORDERS)
@pytest.mark.parametrize(("shape", "named"), [((3, 3, 0), 1), ((4, 6, 8), 1), ((3, 4, 8), 2)])
def test_each_order_gives_what_the_lists_say(order: str, shape: tuple[int, int, int], named: int) -> None:
    lists = by_chance(*shape, named)
    for remembered in (0, 8):
        store = Store(remembered, 10000)
        made = ORDERS[order](store, lists)
        for carried in itertools.chain.from_iterable(itertools.combinations(range(9), count) for count in range(10)):
            assert value(store, made, set(carried)) == taken(order, lists, set(carried))


def test_the_orders_have_one_outcome() -> None:
    sizes = {name: built(order, by_chance(5, 8, 16, 1), 0, 100000)[2] for name, order in ORDERS.items()}
    assert len({size for name, size in sizes.items() if "entries" not in name}) == 1
    assert len({size for name, size in sizes.items() if "entries" in name}) == 1


def test_with_few_operations_remembered_the_work_is_done_again() -> None:
    lists = by_chance(3, 16, 0, 1)
    (few, nodes, size, _), (all_of, same_nodes, same_size, _) = (
        built(ORDERS["as the program"], lists, remembered, 100000) for remembered in (64, 0)
    )
    assert (nodes, size) == (same_nodes, same_size) and few > 2 * all_of


def test_the_model_gives_up_at_its_limit() -> None:
    assert built(ORDERS["balanced"], by_chance(4, 16, 0, 1), 0, 100)[2] == "given up"


def test_the_networks_are_read() -> None:
    assert asked(native(Program()), network(by_chance(2, 4, 0, 1)), None, 60)[2] == "status 0"


def test_what_is_no_text_is_refused() -> None:
    assert shape_of("4x32x128") == (4, 32, 128)
    with pytest.raises(Refused):
        shape_of("4x32")
    for word in ("0x4x8", "2x0x8", "2x4x-1"):
        with pytest.raises(Refused, match="at least one"):
            shape_of(word)
    for shape, named in (((2, 32, 16), 1), ((2, 4, 2), 3), ((2, 4, 0), 0)):
        with pytest.raises(Refused):
            by_chance(*shape, named)


def program_of(folder: Path, *lines: str) -> Path:
    program = folder / "program"
    program.write_text("".join(f"{line}\n" for line in ("#!/bin/sh", *lines)))
    program.chmod(0o755)
    return program


@pytest.mark.parametrize(
    ("line", "outcome"),
    [
        ("kill -KILL $$", "killed, as where the machine has no memory left"),
        ("kill -XCPU $$", "ended after 60 s"),
        ("kill -TERM $$", "ended by signal 15"),
        ("echo no >&2; exit 3", "status 3, `no`"),
    ],
)
def test_how_a_program_ended(tmp_path: Path, line: str, outcome: str) -> None:
    assert asked(program_of(tmp_path, line), "", None, 60)[2] == outcome


def test_a_program_that_takes_too_long_is_ended(tmp_path: Path) -> None:
    assert asked(program_of(tmp_path, "while :; do :; done"), "", None, 1)[2] == "ended after 1 s"


def test_memory_is_that_of_the_program(tmp_path: Path) -> None:
    held = bytearray(b"x" * 2**26)
    assert int(asked(program_of(tmp_path, "exit 0"), "", None, 60)[1]) < 8 and held


def test_a_program_that_is_not_there_is_refused(tmp_path: Path) -> None:
    with pytest.raises(Refused, match="no program"):
        work(words().parse_args(["--program", str(tmp_path / "none")]))
