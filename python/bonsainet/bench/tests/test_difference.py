"""Two networks that differ in one line, and the table of what their comparison took."""
from __future__ import annotations

from pathlib import Path

import pytest

from bonsainet.bench.difference import CASES, KEPT, PAGE, Case, Row, keep, read, table, with_table
from bonsainet.repo.sentences import formed

ROW = Row("now", "fat tree, BGP", "a session shut", "texts", 500, 200, 190, 3, 1.5, 0.75, 2.5, 3.2)


@pytest.mark.parametrize("case", CASES, ids=lambda case: case.network)
def test_one_line_differs(case: Case) -> None:
    old, new = (text.splitlines() for text in case.sides())
    assert len(old) == len(new) and sum(one != other for one, other in zip(old, new)) == 1
    assert 500 <= sum(line.startswith("hostname ") for line in old) <= 510


def test_rows_are_kept(tmp_path: Path) -> None:
    keep([ROW], "the programs", tmp_path / "rows.csv")
    assert read(tmp_path / "rows.csv") == ("the programs", [ROW])
    assert "| fat tree, BGP | a session shut | texts | 500 | 200 | 190 | now | 1.50 | 3.25 | 0.75 | 3 |" in table(
        "", [ROW]
    )


def test_the_page_has_the_table_of_what_is_kept() -> None:
    page = PAGE.read_text("utf-8")
    assert KEPT.is_file() and with_table(page, *read()) == page and formed(table(*read())) in page
