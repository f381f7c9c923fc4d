"""One text asked of the program and of the second reader: every command, and what differs."""
from __future__ import annotations

import dataclasses
import json
import random

from hostile.asking import Asked
from hostile.judge import answers, canonical, certificates as judge, groups, labels, problem
from hostile.judge.network import Refused
from hostile.makers import certificates, labels as maker, solutions
from bonsainet.ask.program import Answer

LARGEST_SUMMARY = 60
PROBES = 6


@dataclasses.dataclass(frozen=True)
class Difference:
    """A command over a text whose answer is not the judge's."""

    command: str
    expected: str
    answered: str


class Enough(Exception):
    """The difference that was looked for is found."""


class Comparison:
    """The commands over one text. `found` are the differences; `seed` decides class, schedule and labels.

    Where a command is given as `until`, its first difference ends all by Enough."""

    def __init__(self, asked: Asked, text: bytes, seed: int, until: str | None = None) -> None:
        self.asked, self.text, self.until = asked, text, until
        self.has_canon = asked.has_canon()
        self.chance = random.Random(seed)
        self.found: list[Difference] = []

    def run(self) -> list[Difference]:
        """Asks all commands and gives what differs. Of a text with many communities only `classes` is asked."""
        net = answers.read(self.text)
        if isinstance(net, answers.Expected):
            self._same("classes", self._ask("classes"), net)
            return self.found
        self._same("classes", self._ask("classes"), answers.Expected(0, out=answers.classes(net)))
        if answers.has_many_communities(net):
            self.asked.counts.partly += 1
            return self.found
        if len(net.classes) <= LARGEST_SUMMARY:
            self._same("summary", self._ask("summary"), answers.Expected(0, out=answers.summary(net)))
        beyond = str(len(net.classes) + self.chance.randint(1, 3))
        self._same("groups", self._ask("groups", beyond), answers.Expected(1, f"refused: NoClass {beyond}", ""))
        if net.classes:
            self._class(net, self.chance.randint(1, len(net.classes)))
        return self.found

    def _ask(self, *words: str, S: bytes = b"") -> Answer:
        return self.asked.ask(self.text, *words, S=S)

    def _differ(self, command: str, expected: object, answer: Answer) -> None:
        self.found.append(Difference(command, str(expected), f"status {answer.status} {answer.reason}\n{answer.text}"))
        if command == self.until:
            raise Enough

    def _same(self, command: str, answer: Answer, expected: answers.Expected) -> None:
        wrong_out = expected.out is not None and answer.out != expected.out.encode()
        if answer.status != expected.status or answer.reason != expected.reason or wrong_out:
            self._differ(command, expected, answer)

    def _class(self, net: problem.Network, number: int) -> None:
        word = str(number)
        whole = problem.problem(net, net.classes[number - 1])
        parts = groups.groups(whole)
        self._written(net, number, whole, parts)
        self._certificate(word, whole)
        self._labels(net, word, whole, parts)

    def frames(self, net: problem.Network, number: int) -> None:
        """Asks what `bonsai-all` writes of a class too."""
        whole = problem.problem(net, net.classes[number - 1])
        self._written(net, number, whole, groups.groups(whole))
        made = self._ask("certify", str(number))
        try:
            if made.status:
                raise Refused(0, f"status {made.status}")
            judge.Judge(whole).read(made.out)
        except Refused as refused:
            self._differ("certify", f"a certificate, not {refused}", made)

    def _written(self, net: problem.Network, number: int, whole: problem.Problem, parts: list[list[int]]) -> None:
        word = str(number)
        self._same("groups", self._ask("groups", word), answers.Expected(0, out=answers.group_lines(whole, parts)))
        self._same("report", self._ask("report", word), answers.Expected(0, out=answers.report(net, number)))
        self._json(net, number, whole, parts)
        self._compress(net, number)
        if self.has_canon:
            self._canon(net, number, whole)

    def _json(self, net: problem.Network, number: int, whole: problem.Problem, parts: list[list[int]]) -> None:
        document = {
            "class": number,
            "groups": [
                {
                    "lone": part[0] in whole.lone,
                    "members": [whole.names[place] for place in part],
                    "name": whole.names[part[0]],
                    "origin": part[0] in whole.initial,
                }
                for part in parts
            ],
            "links": {"after": groups.links_between(whole, parts), "before": whole.link_count},
            "routers": {"after": len(parts), "before": len(whole.names)},
            "unmatched": [{"address": answers.dotted(address), "router": name} for name, address in net.unmatched],
        }
        text = json.dumps(document, sort_keys=True, separators=(",", ":")) + "\n"
        self._same("json", self._ask("json", str(number)), answers.Expected(0, out=text))

    def _compress(self, net: problem.Network, number: int) -> None:
        answer, line = self._ask("compress", str(number)), answers.pool_line(net, number)
        if line is not None:
            self._same("compress", answer, answers.Expected(1, f"refused: line {line}: PoolOverlap", ""))
        elif answer.status or (fault := answers.compress_fault(net, number, answer.out)):
            self._differ("compress", "a compressed network" if answer.status else fault, answer)

    def _canon(self, net: problem.Network, number: int, whole: problem.Problem) -> None:
        answer, line = self._ask("canon", str(number)), answers.pool_line(net, number)
        refusals = canonical.refusals(whole) or ([] if line is None else [f"refused: line {line}: PoolOverlap"])
        if refusals:
            if (answer.status, answer.out) != (1, b"") or answer.reason not in refusals:
                self._differ("canon", " or ".join(refusals), answer)
        elif answer.status or (fault := canonical.canon_fault(net, number, answer.out)):
            self._differ("canon", "a compressed network with canonical lists" if answer.status else fault, answer)

    def _certificate(self, word: str, whole: problem.Problem) -> None:
        made = self._ask("certify", word)
        if made.status:
            self._differ("certify", "a certificate", made)
            return
        for text in (made.out, certificates.broken(self.chance, made.text, whole.names)):
            expected = answers.Expected(0, out="yes\n")
            try:
                judge.Judge(whole).read(text)
            except Refused as refused:
                expected = answers.Expected(1, f"refused: certificate {refused}", "")
            self._same("verify", self._ask("verify", word, "S", S=text), expected)

    def _labels(self, net: problem.Network, word: str, whole: problem.Problem, parts: list[list[int]]) -> None:
        names = [*whole.names, "*", "*"]
        schedule = (
            " ".join(self.chance.choice(names) for _ in range(self.chance.randint(0, 12)))
            + "\n"
            + "*\n" * self.chance.choice([0, 9, 9])
        )
        rest = self._run(word, whole, schedule)
        if rest is None:
            return
        above = solutions.broken(self.chance, rest, whole.names)
        for command in ("check", "fold", "reach"):
            self._judged(command, word, whole, parts, above)
        probes = maker.Maker(self.chance, net, whole)
        for _ in range(PROBES if whole.protocol == "bgp" else 1):
            self._judged("check", word, whole, parts, probes.text())
        small = groups.quotient(whole, parts)
        below = "".join(line + "\n" for line in rest.splitlines() if line.split(" ")[0] in small.names)
        self._judged("lift", word, small, parts, solutions.broken(self.chance, below, small.names), whole)

    def _run(self, word: str, whole: problem.Problem, schedule: str) -> str | None:
        """The labels that a schedule leads to, where one more activation behind it does what it should."""
        router = self.chance.randrange(len(whole.names))
        before, after = (
            self._ask("run", word, "S", S=text.encode()) for text in (schedule, f"{schedule}{whole.names[router]}\n")
        )
        held = []
        for ran in (before, after):
            first, _, rest = ran.text.partition("\n")
            if ran.status:
                self._differ("run", "labels", ran)
                return None
            held.append(labels.read(rest.encode(), whole))
            stop = labels.fault(whole, held[-1])
            if first != (f"moving {stop[0]}" if stop else "rest"):
                self._differ("run", stop or "rest", ran)
        if not labels.activated(whole, held[0], held[1], router):
            self._differ("run", f"a best candidate at {whole.names[router]}, and nothing else changed", after)
        return before.text.partition("\n")[2]

    def _judged(
        self,
        command: str,
        word: str,
        whole: problem.Problem,
        parts: list[list[int]],
        text: bytes,
        large: problem.Problem | None = None,
    ) -> None:
        answer = self._ask(command, word, "S", S=text)
        try:
            held = labels.read(text, whole)
        except Refused as refused:
            self._same(command, answer, answers.Expected(1, f"refused: solution {refused}", ""))
            return
        stop = labels.fault(whole, held)
        if stop:
            self._same(command, answer, answers.Expected(6, f"not stable: {' '.join(stop)}", ""))
        elif command == "check":
            self._same(command, answer, answers.Expected(0, out="stable\n"))
        elif answer.status:
            self._differ(command, "done", answer)
        elif command == "reach":
            again = self._ask("run", word, "S", S=answer.out)
            first, _, rest = again.text.partition("\n")
            other = labels.read(rest.encode(), whole)
            if first != "rest" or [labels.key(whole, one) for one in other] != [labels.key(whole, one) for one in held]:
                self._differ("reach", "an order to these keys", answer)
        else:
            self._carried(command, answer, whole, parts, held, large)

    def _carried(
        self,
        command: str,
        answer: Answer,
        whole: problem.Problem,
        parts: list[list[int]],
        held: list[labels.Label],
        large: problem.Problem | None,
    ) -> None:
        target = large or groups.quotient(whole, parts)
        try:
            carried = labels.read(answer.out, target)
        except Refused as refused:
            self._differ(command, f"it is refused: {refused}", answer)
            return
        above, below = (carried, held) if large else (held, carried)
        big, small = (large, whole) if large else (whole, target)
        why = labels.fault(target, carried) or labels.correspond(big, above, parts, small, below)
        if why:
            self._differ(command, why, answer)
