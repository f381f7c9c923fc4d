"""The tables of the page say what is slower and what grows fast."""
from pathlib import Path

import pytest

from bonsainet.bench.kept import Row, Table
from bonsainet.bench.measures import INSTRUCTIONS, MEMORY, SECONDS
from bonsainet.bench.tables import growth, instructions_text, judgement, memory_text, turns_text


def row(size: int, command: str, before: float, after: float, shape: str = "ospf-ring", **more: int) -> Row:
    told = {"links": size, "classes": 1, "bytes": 100 * size} | more
    return Row(
        size, command, size, told["links"], told["classes"], told["bytes"], 5, 1.5, shape, ((before, 0.0), (after, 0.0))
    )


def table(*rows: Row) -> Table:
    return Table(SECONDS, Path("unused"), "before: old; after: new", list(rows))


def test_the_largest_network_is_shown_with_its_growth() -> None:
    text = turns_text(
        table(
            row(1024, "groups", 0.04, 0.02),
            row(2048, "groups", 0.12, 0.05),
            row(1024, "json", 0.001, 0.001),
            row(2048, "json", 0.004, 0.002),
        )
    )
    assert "| ospf-ring | 2,048 | `groups` | 0.120 | 0.050 | 0.42 | 3.0 | 2.5 |" in text
    assert "| ospf-ring | 2,048 | `json` | 0.004 | 0.002 | 0.50 |  |  |" in text
    assert " | 4.0 (2.0 a class) | 3.0 (1.5 a class) |" in turns_text(
        table(row(512, "trial", 1, 1, classes=512), row(1024, "trial", 4, 3, classes=1024))
    )
    assert text.endswith("- Made with: before: old; after: new, in 5 to 5 turns, at a load of 1.5 to 1.5.\n")


def test_growth_is_that_while_links_double() -> None:
    assert growth(
        row(12, "trial", 9, 9, links=4000), row(8, "trial", 1, 3, links=1000), lambda it: it.after
    ) == pytest.approx(3**0.5)


def test_what_is_slower_is_named() -> None:
    slower, _, read = judgement(
        [
            row(1024, "groups", 0.1, 0.12),
            row(1024, "json", 0.1, 0.103),
            row(1024, "run", 0.1, 0.1),
            row(1024, "classes", 0.004, 0.0045),
        ]
    )
    assert (
        slower
        == "- Slower by more than 5 % and 1 ms, of 4 rows of all sizes: ospf-ring 1,024 `groups` 1.20 (0.1000 s, 0.1200 s). By less: 2 rows; faster or alike: 1."
    )
    assert read == "- `classes` reads and writes 23 to 23 MB a second."


def test_what_grows_fast_is_named() -> None:
    def fast(*rows: Row) -> str:
        return judgement(list(rows))[1].partition(": ")[2]

    assert fast(row(1024, "groups", 0.1, 0.1), row(2048, "groups", 0.4, 0.22)) == "none."
    assert fast(row(1024, "groups", 0.1, 0.001), row(2048, "groups", 0.4, 0.1)) == "none."
    assert fast(row(1024, "groups", 0.1, 0.1), row(2048, "groups", 0.4, 0.3)) == "ospf-ring `groups` 3.0."
    assert (
        fast(row(1024, "check", 0.1, 0.1, bytes=100), row(2048, "check", 0.4, 0.4, bytes=390))
        == "ospf-ring `check` 4.0, where the bytes that are read and written grow by 3.9."
    )
    assert (
        fast(row(512, "summary", 1, 1, classes=512), row(1024, "summary", 4, 4, classes=1024))
        == "ospf-ring `summary` 4.0, for each class 2.0."
    )


def test_it_is_told_how_many_series_are_judged() -> None:
    rows = [
        row(size, command, 0.1, after)
        for command, afters in (("groups", (0.1, 0.2)), ("json", (0.004, 0.1)), ("run", (0.1,)))
        for size, after in zip((1024, 2048), afters)
    ]
    assert (
        judgement(rows)[1]
        == "- Grows by more than 2.3 while the links double, of 1 of 3 series, which take at least 5 ms at the smaller size: none."
    )


def test_memory_of_both_states() -> None:
    made = [
        Row(64, command, 64, 64, 1, 1000, 3, 1.5, "bgp-ring", ((before,), (after,)))
        for command, before, after in (("classes", 20, 10.4), ("groups", 30, 31))
    ]
    text = memory_text(Table(MEMORY, Path("unused"), "told", made))
    assert (
        "| bgp-ring | 64 | 20, 10 | 30, 31 |" in text
        and "The most is now 31 MiB. Made with: told, at a load of 1.5 to 1.5." in text
    )


def test_instructions_of_both_states() -> None:
    made = [
        row(256, "groups", 20.0, 15.0),
        row(256, "check", 10.0, 10.3),
        row(225, "groups", 40.0, 40.4, "ospf-grid"),
        row(80, "trial", 1000.0, 900.0, "fat-tree"),
    ]
    text = instructions_text(Table(INSTRUCTIONS, Path("unused"), "told", made))
    assert "| command | ospf-ring 256 | ospf-grid 225 |\n" in text
    assert "| `groups` | 15.0 (0.75) | 40.4 (1.01) |\n| `check` | 10.3 (1.03) |  |\n" in text
    assert "- `trial` on fat trees: 80 routers 900.0 (0.90).\n" in text
    assert "- More by over 2 %, of 4 rows: ospf-ring 256 `check` 1.03.\n- Made with: told.\n" in text
