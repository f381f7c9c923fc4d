"""What `bonsai-ask` writes of solutions, cut at its heads, in whatever pieces it comes."""
from __future__ import annotations

import io

import pytest

from bonsainet.library import written
from bonsainet.library.written import MOST_PASSED, MOST_SOLUTIONS, Written, read


def out(*solutions: tuple[int, int, str]) -> bytes:
    """What the program writes."""
    return "".join(f"class {number} solution {place}\n{lines}" for number, place, lines in solutions).encode()


@pytest.mark.parametrize("block", [1, 2, 7, 30, 1 << 20])
def test_it_is_cut_at_its_heads(block: int, monkeypatch: pytest.MonkeyPatch) -> None:
    monkeypatch.setattr(written, "BLOCK", block)
    text = out((3, 1, "class cost 1\na none\n"), (3, 2, "class cost 2\na none\n"), (11, 1, "class none\na cost 7\n"))
    found, is_whole = read(io.BytesIO(text))
    assert found == {
        3: Written(((b"class cost 1", b"a none"), (b"class cost 2", b"a none"))),
        11: Written((b"class none\na cost 7",)),
    }
    assert is_whole


def test_nothing_is_written() -> None:
    assert read(io.BytesIO(b"")) == ({}, True)


@pytest.mark.parametrize(
    "text",
    [
        b"anything\n",
        b"class 1",
        b"class 1 solution 2\na none\n",
        b"class 2 solution 1\na none\nclass 1 solution 1\na none\n",
        b"class 1 solution 1\na none\nclass 1 solution 1\na none\n",
        b"class 1 solution 1\na none\nclass 2 solution 1\na no",
    ],
)
def test_what_is_of_no_known_form(text: bytes) -> None:
    with pytest.raises(ValueError):
        read(io.BytesIO(text))


@pytest.mark.parametrize("count", [MOST_SOLUTIONS, MOST_SOLUTIONS + 1, MOST_PASSED, MOST_PASSED + 1, 2 * MOST_PASSED])
def test_of_many_solutions_the_first_are_kept(count: int) -> None:
    """Further ones are passed over, unless they are too many."""
    many = [(2, place, f"a cost {place}\n") for place in range(1, count + 1)]
    found, is_whole = read(io.BytesIO(out((1, 1, "a none\n"), *many, (3, 1, "a cost 3\n"))))
    assert is_whole == (count <= MOST_PASSED)
    assert list(found) == ([1, 2, 3] if is_whole else [1, 2])
    assert found[1] == Written((b"a none",)) and found.get(3, Written((b"a cost 3",))) == Written((b"a cost 3",))
    kept = [(f"a cost {place}".encode(),) for place in range(1, MOST_SOLUTIONS + 1)]
    assert found[2].lines() == kept and found[2].only is None
    assert found[2].is_whole == (count == MOST_SOLUTIONS)
