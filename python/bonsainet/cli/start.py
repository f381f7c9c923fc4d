"""Where each tool starts: the functions that pyproject.toml and the scripts in tools/, dev/ and bench/ name.

A tool's module loads inside, so that a key in that time, or a package that is not there, ends with one line too.
"""
from __future__ import annotations

import importlib

from bonsainet.cli.command_line import run
from bonsainet.cli.memory import expect_many_objects


def start(name: str, place: str, words: list[str] | None = None) -> int:
    """Runs the function `module:function` of a tool by the words of its command line, and turns each failure into a
    line and a status."""

    def work() -> int | None:
        expect_many_objects()
        module, _, function = place.partition(":")
        return getattr(importlib.import_module(module), function)(words)

    return run(name, work)


def architecture(words: list[str] | None = None) -> int:
    """Runs `dev/architecture`."""
    return start("dev/architecture", "bonsainet.repo.architecture:main", words)


def bonsai_ask(words: list[str] | None = None) -> int:
    """Runs the options of `bonsai-ask`, for which the launcher calls it."""
    return start("bonsai-ask", "bonsainet.asking.tool:main", words)


def bonsai_diff(words: list[str] | None = None) -> int:
    """Runs `tools/bonsai-diff`."""
    return start("bonsai-diff", "bonsainet.diffing.tool:main", words)


def bonsai_doubts(words: list[str] | None = None) -> int:
    """Runs `tools/bonsai-doubts`."""
    return start("bonsai-doubts", "bonsainet.doubts.tool:main", words)


def bonsai_draw(words: list[str] | None = None) -> int:
    """Runs `tools/bonsai-draw`."""
    return start("bonsai-draw", "bonsainet.drawing.tool:main", words)


def bonsai_every(words: list[str] | None = None) -> int:
    """Runs `tools/bonsai-every`."""
    return start("bonsai-every", "bonsainet.every.tool:main", words)


def bonsai_export(words: list[str] | None = None) -> int:
    """Runs `tools/bonsai-export`."""
    return start("bonsai-export", "bonsainet.exporting.tool:main", words)


def bonsai_import(words: list[str] | None = None) -> int:
    """Runs `tools/bonsai-import`."""
    return start("bonsai-import", "bonsainet.importing.tool:main", words)


def bonsai_json(words: list[str] | None = None) -> int:
    """Runs `tools/bonsai-json`."""
    return start("bonsai-json", "bonsainet.document.tool:main", words)


def bonsai_lab(words: list[str] | None = None) -> int:
    """Runs `tools/bonsai-lab`."""
    return start("bonsai-lab", "bonsainet.lab.tools:lab", words)


def bonsai_page(words: list[str] | None = None) -> int:
    """Runs `tools/bonsai-page`."""
    return start("bonsai-page", "bonsainet.page.tool:main", words)


def bonsai_refusals(words: list[str] | None = None) -> int:
    """Runs `tools/bonsai-refusals`."""
    return start("bonsai-refusals", "bonsainet.refusals.tool:main", words)


def bonsai_why(words: list[str] | None = None) -> int:
    """Runs `tools/bonsai-why`."""
    return start("bonsai-why", "bonsainet.why.tool:main", words)


def corpus(words: list[str] | None = None) -> int:
    """Runs `dev/corpus`."""
    return start("corpus", "bonsainet.corpus.tool:main", words)


def gate_times(words: list[str] | None = None) -> int:
    """Runs `dev/gate-times`."""
    return start("gate-times", "bonsainet.repo.gate_times:main", words)


def keep_rounds(words: list[str] | None = None) -> int:
    """Runs `dev/keep-rounds`."""
    return start("keep-rounds", "bonsainet.lab.kept:main", words)


def lines_page(words: list[str] | None = None) -> int:
    """Runs `dev/lines-page`."""
    return start("lines-page", "bonsainet.lines.page:main", words)


def random_rounds(words: list[str] | None = None) -> int:
    """Runs `dev/random-rounds`."""
    return start("random-rounds", "bonsainet.lab.tools:random_rounds", words)


def round_figures(words: list[str] | None = None) -> int:
    """Runs `dev/round-figures`."""
    return start("round-figures", "bonsainet.lab.figures:main", words)


def round_trip(words: list[str] | None = None) -> int:
    """Runs `dev/round-trip`."""
    return start("round-trip", "bonsainet.lab.tools:round_trip", words)


def commands(words: list[str] | None = None) -> int:
    """Runs the part of `dev/manual` that goes by the launcher."""
    return start("commands", "bonsainet.repo.commands:main", words)


def reading_list(words: list[str] | None = None) -> int:
    """Runs `dev/reading-list`."""
    return start("reading-list", "bonsainet.repo.reading_list:main", words)


def fast_build(words: list[str] | None = None) -> int:
    """Runs `dev/fast-build`."""
    return start("fast-build", "bonsainet.repo.fast_build:main", words)


def sentences(words: list[str] | None = None) -> int:
    """Runs `dev/sentences`."""
    return start("sentences", "bonsainet.repo.sentences:main", words)


def skips(words: list[str] | None = None) -> int:
    """Runs `dev/skips`."""
    return start("skips", "bonsainet.repo.skips:main", words)


def bench_all(words: list[str] | None = None) -> int:
    """Runs `bench/all`."""
    return start("all", "bonsainet.bench.everything:main", words)


def bench_diagrams(words: list[str] | None = None) -> int:
    """Runs `bench/diagrams`."""
    return start("diagrams", "bonsainet.bench.diagrams:main", words)


def bench_difference(words: list[str] | None = None) -> int:
    """Runs `bench/difference`."""
    return start("difference", "bonsainet.bench.difference:main", words)


def bench_imports(words: list[str] | None = None) -> int:
    """Runs `bench/imports`."""
    return start("imports", "bonsainet.bench.imports:main", words)


def bench_paper(words: list[str] | None = None) -> int:
    """Runs `bench/paper`."""
    return start("paper", "bonsainet.bench.paper:main", words)


def bench_plot(words: list[str] | None = None) -> int:
    """Runs `bench/plot`."""
    return start("plot", "bonsainet.bench.plot:main", words)


def bench_profile(words: list[str] | None = None) -> int:
    """Runs `bench/profile`."""
    return start("profile", "bonsainet.bench.profile:main", words)


def bench_tools(words: list[str] | None = None) -> int:
    """Runs `bench/tools`."""
    return start("tools", "bonsainet.bench.tools:main", words)


def bench_turns(words: list[str] | None = None) -> int:
    """Runs `bench/turns`."""
    return start("turns", "bonsainet.bench.turns:main", words)


def build(words: list[str] | None = None) -> int:
    """Runs `build`."""
    return start("build", "bonsainet.repo.building:main", words)


def examples_check(words: list[str] | None = None) -> int:
    """Runs `examples/check`."""
    return start("examples/check", "bonsainet.repo.examples:main", words)
