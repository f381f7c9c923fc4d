"""Each law of `laws.py` is broken by a program that errs in it, and by no program that does not."""
from __future__ import annotations

import dataclasses
from collections.abc import Callable, Mapping
from typing import Any

import pytest

from hostile import laws
from hostile.asking import Asked, Asker, Counts
from hostile.tests.texts import program
from bonsainet.ask.program import TOP, Answer, Program

INPUTS = TOP / "examples" / "inputs"
Edit = Callable[[tuple[str, ...], Answer], Answer]


class Erring(Program):
    """The program, of which an edit turns some answers."""

    def __init__(self, edit: Edit) -> None:
        super().__init__(program().path)
        self.edit = edit

    def ask(self, *words: str, texts: Mapping[str, str | bytes] | None = None, seconds: float | None = None) -> Answer:
        """The answer as the edit has it."""
        answer = Asker.ask(program(), *words, texts=texts, seconds=seconds)
        return self.edit(words, answer)


def turned(command: str, **parts: Any) -> Edit:
    """An edit of the answers of one command that were done."""

    def edit(words: tuple[str, ...], answer: Answer) -> Answer:
        if words[0] != command or answer.status:
            return answer
        told = {key: value(getattr(answer, key)) if callable(value) else value for key, value in parts.items()}
        return dataclasses.replace(answer, **told)

    return edit


def broken(edit: Edit, name: str = "fabric.cfg", seeds: int = 4) -> set[str]:
    """The names of the laws that do not hold over an example."""
    text = (INPUTS / name).read_bytes()
    return {one.command for seed in range(seeds) for one in laws.broken(Asked(Erring(edit), Counts()), text, seed)}


@pytest.mark.parametrize(
    "name", ["fabric.cfg", "ring-with-maps.cfg", "campus.cfg", "edge-and-provider.cfg", "shared-space.cfg"]
)
def test_the_program_keeps_all_laws(name: str) -> None:
    """Over examples of both protocols, also where `canon` refuses a line that another text has elsewhere."""
    assert broken(lambda words, answer: answer, name) == set()


def _one_group_less(out: bytes) -> bytes:
    first, _, rest = out.partition(b"\n")
    second, _, rest = rest.partition(b"\n")
    return first + b" " + second.partition(b": ")[2] + b"\n" + rest


CASES = {
    "compressed-is-read": turned("compress", out=lambda out: out.replace(b"\nend", b"\nend all", 1)),
    "compressed-again": turned("groups", out=_one_group_less),
    "compressed-twice": turned(
        "compress", out=lambda out: out.replace(b"hostname ", b"hostname x-", 1) if out.count(b"! member") <= 3 else out
    ),
    "check-compressed-is-lift": turned("lift", status=6, err=b"not stable: x not-a-candidate\n"),
    "lifted-from-compressed-is-stable": turned("lift", out=lambda out: out.replace(b" bgp 100 ", b" bgp 101 ", 1)),
    "folded-is-stable-in-compressed": turned("fold", out=lambda out: out.replace(b" bgp 100 ", b" bgp 101 ", 1)),
    "rest-is-stable": turned("run", out=lambda out: out.replace(b"rest\n", b"moving x\n", 1)),
    "check-is-fold": turned("fold", status=6, err=b"not stable: x better-candidate\n"),
    "folded-is-lifted": turned("fold", out=lambda out: out.replace(b" bgp 100 ", b" bgp 101 ", 1)),
    "reached-rests": turned("reach", out=b""),
    "certified-is-verified": turned("certify", out=lambda out: out.replace(b"group ", b"group x", 1)),
}


@pytest.mark.parametrize("law", CASES)
def test_a_program_that_errs_breaks_the_law(law: str) -> None:
    """Each law by an error of its own."""
    assert f"law-{law}" in broken(CASES[law])


@pytest.mark.parametrize(
    ("law", "command"),
    [
        ("permuted-classes", "classes"),
        ("permuted-groups", "groups"),
        ("renamed-classes", "classes"),
        ("renamed-groups", "groups"),
        ("moved-lines-classes", "classes"),
        ("moved-lines-groups", "groups"),
        ("renumbered-groups", "groups"),
        ("rewritten-groups", "groups"),
    ],
)
def test_a_program_that_looks_at_order_or_names(law: str, command: str) -> None:
    """The second text that it is asked about, as a permuted one, has another answer."""
    seen: list[bytes] = []

    class Second(Program):
        def ask(
            self, *words: str, texts: Mapping[str, str | bytes] | None = None, seconds: float | None = None
        ) -> Answer:
            answer = Asker.ask(program(), *words, texts=texts, seconds=seconds)
            given = (texts or {})["F"]
            text = given if isinstance(given, bytes) else given.encode()
            if text not in seen:
                seen.append(text)
            if words[0] != command or seen[0] == text or answer.status:
                return answer
            out = answer.out.replace(b"/24", b"/25", 1) if command == "classes" else _one_group_less(answer.out)
            return Answer(0, out, b"")

    names = set()
    text = (INPUTS / "fabric.cfg").read_bytes()
    for seed in range(12):
        seen.clear()
        names |= {one.command for one in laws.broken(Asked(Second(program().path), Counts()), text, seed)}
    assert f"law-{law}" in names


class WithCanon(Erring):
    """The program, with `compress` for `canon`: right over networks of OSPF, and wrong where maps are written in
    several ways."""

    def ask(self, *words: str, texts: Mapping[str, str | bytes] | None = None, seconds: float | None = None) -> Answer:
        """The answer as the edit has it."""
        answer = Asker.ask(
            program(), *(["compress", *words[1:]] if words[0] == "canon" else words), texts=texts, seconds=seconds
        )
        return self.edit(words, answer)


def broken_of_canon(edit: Edit, name: str, seeds: int = 4) -> set[str]:
    """The names of the laws that do not hold over an example."""
    text = (INPUTS / name).read_bytes()
    return {one.command for seed in range(seeds) for one in laws.broken(Asked(WithCanon(edit), Counts()), text, seed)}


def test_canon_is_compress_in_ospf() -> None:
    """No law is broken, and each other text is seen."""
    assert broken_of_canon(lambda words, answer: answer, "campus.cfg") == set()
    assert "law-canon-is-compress" in broken_of_canon(
        turned("canon", out=lambda out: out.replace(b"hostname ", b"hostname x-", 1)), "campus.cfg"
    )


def test_canon_does_not_depend_on_what_is_written() -> None:
    """`compress` copies maps as they are written, so in its place `canon` breaks the law."""
    assert "law-canon-of-rewritten" in broken_of_canon(lambda words, answer: answer, "ring-with-maps.cfg", 12)


def test_canon_has_the_groups_of_compress() -> None:
    """Where a member is left out, and where what is compressed has another canonical text."""
    found = broken_of_canon(
        turned("canon", out=lambda out: out.replace(b"! member", b"! ember", 1)), "ring-with-maps.cfg"
    )
    assert {"law-canon-has-the-groups"} <= found


def test_a_program_without_canon_is_not_asked_for_it() -> None:
    """Usage says that there is none."""

    class Without(Erring):
        def ask(
            self, *words: str, texts: Mapping[str, str | bytes] | None = None, seconds: float | None = None
        ) -> Answer:
            return (
                Answer(2, b"", b"usage: bonsai\n")
                if words[0] == "canon"
                else super().ask(*words, texts=texts, seconds=seconds)
            )

    counts = Counts()
    assert not laws.broken(
        Asked(Without(lambda words, answer: answer), counts), (INPUTS / "fabric.cfg").read_bytes(), 1
    )
    assert "canon" not in counts.commands
