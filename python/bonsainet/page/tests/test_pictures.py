"""Classes that look alike except for digits of names are laid out once, and have their own names."""
from __future__ import annotations

import re
import shutil

import pytest

pytest.importorskip("graphviz", reason="the package python3-graphviz is not there: the page is not tried")

import graphviz

from bonsainet.ask.program import Program
from bonsainet.configs.compressed import asked
from bonsainet.nets.fat_tree import fat_tree_text
from bonsainet.page import pictures
from bonsainet.page.pictures import Pictures

pytestmark = pytest.mark.skipif(not shutil.which("dot"), reason="the package graphviz is not there: no page is made")


def words_of(drawn: str) -> list[str]:
    return re.findall(r"<text[^>]*>([^<]*)<", drawn)


def test_a_picture_with_other_names_is_that_of_the_class(monkeypatch: pytest.MonkeyPatch) -> None:
    """Of a fat tree classes look alike whose groups come in one order; each picture has the words that it has where it is laid out by itself."""
    text = asked(Program(), fat_tree_text(6).encode(), "F")
    found = list(text.compress_each([8, 11, 14, 18]))
    alone = [Pictures(text).each([each])[0] for each in found]
    count = 0
    laid_out = pictures.laid_out

    def counting(drawn: graphviz.Graph, form: str) -> bytes:
        nonlocal count
        count += 1
        return laid_out(drawn, form)

    monkeypatch.setattr(pictures, "laid_out", counting)
    together = Pictures(text).each(found)
    assert count == 1
    assert [words_of(drawn) for drawn, _ in together] == [words_of(drawn) for drawn, _ in alone]
    assert len({tuple(words_of(drawn)) for drawn, _ in together}) == 4
    assert together[0] == alone[0]


def test_a_line_that_stands_for_two_is_laid_out_again(monkeypatch: pytest.MonkeyPatch) -> None:
    text = asked(Program(), fat_tree_text(4).encode(), "F")
    first, other = text.compress_each([1, 2])
    made = Pictures(text)
    (drawn, _), *_ = made.each([first])
    look, (_, kept) = next(iter(made.of_look.items()))
    made.of_look[look] = ["same"] * len(made.of_look[look][0]), kept
    assert made.each([other])[0] == Pictures(text).each([other])[0] != (drawn, "")
