"""Z3 as a process that reads SMT-LIB and answers, problem after problem."""

from __future__ import annotations

import functools
import os
import re
import shutil
import subprocess
from collections.abc import Iterable

from hostile.solver.formulas import Formula, text_of

PROGRAM = "z3"
VALUE = re.compile(r"\((\w+) (true|false|\d+|\(- \d+\))\)")


def _is_sat(answer: str) -> bool:
    if answer not in ("sat", "unsat"):
        raise ValueError(f"z3 answers {answer}")
    return answer == "sat"


@functools.cache
def _solver_of(_process: int, _use: str) -> Solver:
    return Solver()


def shared(use: str) -> Solver:
    """The process of Z3 that this process has for a use."""
    return _solver_of(os.getpid(), use)


class NoSolver(Exception):
    """The program z3 is not there: install the package z3."""


def is_there() -> bool:
    """Whether the program is there."""
    return shutil.which(PROGRAM) is not None


class Solver:
    """One process of Z3. NoSolver where the program is not there."""

    def __init__(self) -> None:
        if not is_there():
            raise NoSolver("the program z3 is not there: install the package z3")
        self.process = subprocess.Popen([PROGRAM, "-in"], stdin=subprocess.PIPE, stdout=subprocess.PIPE, text=True)

    def close(self) -> None:
        """Ends the process."""
        self.process.kill()
        self.process.communicate()

    def begin(self, lines: Iterable[str]) -> None:
        """A new problem: declarations and definitions."""
        self._send(["(reset)", "(set-logic QF_LIA)", *lines])

    def add(self, formulas: Iterable[Formula]) -> None:
        """Formulas that must hold."""
        self._send(f"(assert {text_of(one)})" for one in formulas if one is not True)

    def is_satisfiable(self) -> bool:
        """Whether all formulas can hold."""
        return _is_sat(self._ask("(check-sat)"))

    def each_satisfiable(self, formulas: list[Formula]) -> list[bool]:
        """Of each of some formulas, whether it can hold beside those that were added. All are asked at once."""
        if not formulas:
            return []
        told = self._ask("".join(f"(push)(assert {text_of(one)})(check-sat)(pop)" for one in formulas))
        return [_is_sat(word) for word in told.split()]

    def model(self, names: list[str]) -> dict[str, bool | int] | None:
        """Values of variables with which all formulas hold, or None where they cannot."""
        asked = f"(get-value ({' '.join(names)}))" if names else ""
        word, _, answer = self._ask(f"(check-sat){asked}").partition("\n")
        if not _is_sat(word):
            return None
        found: dict[str, bool | int] = {}
        for name, value in VALUE.findall(answer):
            found[name] = value == "true" if value in ("true", "false") else int(value.strip("()").replace(" ", ""))
        return found

    def _send(self, lines: Iterable[str]) -> None:
        assert self.process.stdin
        self.process.stdin.write("".join(f"{line}\n" for line in lines))

    def _ask(self, line: str) -> str:
        """What Z3 says to a line, up to a mark of its end."""
        assert self.process.stdin and self.process.stdout
        self._send([line, '(echo "answered")'])
        self.process.stdin.flush()
        told: list[str] = []
        for row in self.process.stdout:
            if row == "answered\n":
                return "".join(told).strip()
            told.append(row)
        raise ValueError(f"z3 ended: {''.join(told)}")
