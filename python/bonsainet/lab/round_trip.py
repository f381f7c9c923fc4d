"""The round on real routers: a network and its compressed one on FRR, each judged by `check`, and the small answer
carried back by `lift`."""
from __future__ import annotations

import dataclasses
from collections.abc import Callable

from bonsainet.lab.enclosure import MEBI
from bonsainet.lab.imports import compare_imports
from bonsainet.lab.lab import Case, Rested, Verdict, Waiting, case_of, case_with, export_told, judge, run_lab
from bonsainet.lab.ties import run_with_ties
from bonsainet.ask.labels import Label, read_solution, solution_text
from bonsainet.ask.program import Program
from bonsainet.cli.words import counted


@dataclasses.dataclass
class Run:
    """One network on FRR: what it is called, the case, what it rested in, and the verdict."""

    name: str
    case: Case
    rested: Rested
    verdict: Verdict
    imports: int = 0
    differing: list[str] = dataclasses.field(default_factory=list)


@dataclasses.dataclass
class Round:
    """A round: all runs in order, ties as they were told, and the keys of the small answer carried back against the
    large one's."""

    runs: list[Run]
    ties: list[str]
    large: Run
    small: Run
    lifted: str | None = None
    unequal: list[str] = dataclasses.field(default_factory=list)

    @property
    def agrees(self) -> bool:
        """Whether both networks rest in stable labels, every import that was compared is the model's, and the lifted
        labels are stable."""
        stable = self.large.verdict.is_stable and self.small.verdict.is_stable and self.lifted == "stable"
        return stable and not any(run.differing for run in self.runs)


def run_round(
    program: Program, text: str, file: str, number: int, ties: str, waiting: Waiting, tell: Callable[[str], None]
) -> Round:
    """Runs a round. `ties` is `frr`, `model`, or `both`: as FRR decides first, and again as the model does where a tie
    is left."""
    large_case = case_of(program, text, file, number)
    small_text = program.compress(text, number)
    small_case = case_with(program, small_text, "compressed", large_case.of_class.prefixes)
    runs: list[Run] = []
    told: list[str] = []
    ends: list[Run] = []
    for name, case in (("large", large_case), ("small", small_case)):
        tell(f"{name}: {counted(len(case.network.devices), 'router')} on FRR")
        rested = run_lab(case, waiting, export_told(case, tell))
        run = Run(name, case, rested, judge(program, case, rested))
        run.imports, run.differing = compare_imports(program, case, rested)
        runs.append(run)
        if run.verdict.tie:
            told.append(f"{name}: {run.verdict.tie}")
        if case.network.protocol == "bgp" and (ties == "model" or ties == "both" and run.verdict.tie):
            tell(f"{name}: again, ties decided as in the model")
            run = Run(f"{name}, ties as in the model", case, *run_with_ties(program, case, rested, waiting))
            run.imports, run.differing = compare_imports(program, case, run.rested)
            runs.append(run)
        ends.append(run)
    large, small = ends
    found = Round(runs, told, large, small)
    if found.large.verdict.is_stable and found.small.verdict.is_stable:
        carry_back(program, found)
    return found


def carry_back(program: Program, found: Round) -> None:
    """Lifts the labels of the small network for each prefix, has them checked, and compares keys with the large
    network's."""
    large, small = found.large, found.small
    found.lifted = "stable"
    for prefix in large.case.of_class.prefixes:
        texts = {"F": large.case.text, "S": solution_text(small.rested.labels[prefix])}
        lifted = program.done("lift", "F", str(large.case.number), "S", texts=texts)
        answer = program.ask("check", "F", str(large.case.number), "S", texts={"F": large.case.text, "S": lifted})
        if answer.text != "stable\n":
            found.lifted = answer.reason
        carried = read_solution(lifted)
        for name, label in large.rested.labels[prefix].items():
            if _key(large.case, label) != _key(large.case, carried[name]):
                found.unequal.append(f"{name} {prefix}")


def _key(case: Case, label: Label) -> tuple[object, ...] | None:
    return label.key(case.lone) if label else None


def table(found: Round) -> str:
    """The round as a table, and its outcome in words."""
    rows = [["", *(run.name for run in found.runs)]]
    rows.append(["routers", *(str(len(run.case.network.devices)) for run in found.runs)])
    rows.append(["links", *(str(len(run.case.network.links)) for run in found.runs)])
    rows.append(["daemons", *(str(run.rested.processes) for run in found.runs)])
    rows.append(["memory, MiB", *(f"{run.rested.memory / MEBI:.0f}" for run in found.runs)])
    rows.append(["processor seconds", *(f"{run.rested.work:.1f}" for run in found.runs)])
    rows.append(["seconds until rest", *(f"{run.rested.rest:.1f}" for run in found.runs)])
    rows.append(["check", *(run.verdict.word for run in found.runs)])
    if any(run.imports for run in found.runs):
        rows.append(
            [
                "imports as in the model",
                *(f"{run.imports - len(run.differing)} of {run.imports}" if run.imports else "-" for run in found.runs),
            ]
        )
    widths = [max(len(row[column]) for row in rows) for column in range(len(rows[0]))]
    lines = ["  ".join(word.ljust(width) for word, width in zip(row, widths)).rstrip() for row in rows]
    lines += [f"{run.name}: {import_told}" for run in found.runs for import_told in run.differing]
    lines += [f"tie: {tie}" for tie in found.ties]
    if found.lifted:
        count = sum(map(len, found.large.rested.labels.values()))
        lines.append(f"lift of the small network's labels: {found.lifted}")
        lines.append(f"keys equal: {count - len(found.unequal)} of {count}")
        if found.unequal:
            lines.append(
                f"first that differs: {found.unequal[0]} (each is stable: the network has more than one stable solution)"
            )
    lines.append("agreement" if found.agrees else "no agreement")
    return "".join(f"{line}\n" for line in lines)


def outcome(found: Round) -> list[str]:
    """The round in a few words."""
    sizes = f"{counted(len(found.large.case.network.devices), 'router')} and {counted(len(found.small.case.network.devices), 'group')}:"
    words = [sizes, "agreement" if found.agrees else "no agreement"]
    if found.ties:
        words.append("after ties")
    if found.unequal:
        words.append("in another stable solution")
    words += [f"({run.name}: {run.verdict.word})" for run in (found.large, found.small) if not run.verdict.is_stable]
    return [*words, *(f"({run.name}: {told})" for run in found.runs for told in run.differing)]
