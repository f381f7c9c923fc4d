"""What the second reader expects over many texts, kept in a file, and the first text over which another one expects
something else. It needs no program.

A faulty reader that differs here is found by `hostile/run` too, as far as the program agrees with the right one. Labels
that are carried, run or compressed are not looked at."""
from __future__ import annotations

import json
import random
import sys
from pathlib import Path
from typing import Any

from hostile.judge import answers, groups, labels, problem
from hostile.judge.certificates import Judge
from hostile.judge.network import Refused
from hostile.makers import certificates, makers, solutions
from hostile.makers import labels as label_maker

LABELS = 6
Said = dict[str, str]


def _said_of_labels(whole: problem.Problem, text: str) -> str:
    try:
        return str(labels.fault(whole, labels.read(text.encode(), whole)))
    except Refused as refused:
        return str(refused)


def _said_of_certificate(whole: problem.Problem, text: str) -> str:
    try:
        Judge(whole).read(text.encode())
        return "yes"
    except Refused as refused:
        return str(refused)


def _certificate(whole: problem.Problem) -> str:
    """A certificate of the blocks that need no split. It is right where these are the groups."""
    named = [" ".join(["group", *(whole.names[place] for place in block)]) for block in sorted(Judge(whole).blocks)]
    return "\n".join(["bonsai certificate 1", *named, "end"]) + "\n"


def asked(text: bytes, start: int) -> dict[str, Any]:
    """A text with the class, the labels and the certificates to ask about, by the reader that runs this."""
    chance = random.Random(start)
    net = answers.read(text)
    found: dict[str, Any] = {"text": text.decode("latin-1")}
    if isinstance(net, answers.Expected) or not net.classes or answers.has_many_communities(net):
        return found
    number = chance.randint(1, len(net.classes))
    whole = problem.problem(net, net.classes[number - 1])
    maker = label_maker.Maker(chance, net, whole)
    made = [maker.text().decode() for _ in range(LABELS)]
    made.append(solutions.broken(chance, made[0], whole.names).decode("latin-1"))
    right = _certificate(whole)
    return {
        **found,
        "number": number,
        "labels": made,
        "certificates": [right, *(certificates.broken(chance, right, whole.names).decode("latin-1") for _ in range(3))],
    }


def said(one: dict[str, Any]) -> Said:
    """What the reader that runs this expects."""
    net = answers.read(str(one["text"]).encode("latin-1"))
    if isinstance(net, answers.Expected):
        return {"classes": net.reason}
    found = {"classes": answers.classes(net)}
    if answers.has_many_communities(net):
        return found
    found["summary"] = answers.summary(net)
    if "number" in one and int(one["number"]) <= len(net.classes):
        whole = problem.problem(net, net.classes[int(one["number"]) - 1])
        found["groups"] = answers.group_lines(whole, groups.groups(whole))
        found["check"] = "\n".join(_said_of_labels(whole, text) for text in one["labels"])
        found["verify"] = "\n".join(_said_of_certificate(whole, text) for text in one["certificates"])
    return found


def keep(file: Path, count: int, seed: int) -> None:
    """Writes this many texts with what is expected of them, one a line."""
    with file.open("w") as lines:
        for turn in range(1, count + 1):
            start = seed * 1_000_003 + turn
            one = asked(makers.made(random.Random(start)), start)
            print(json.dumps({**one, "said": said(one)}), file=lines)


def first_other(file: Path) -> tuple[int, str]:
    """The number of the first text over which something else is expected, and the command; or how many texts there are,
    and nothing."""
    turn = 0
    with file.open() as lines:
        for turn, line in enumerate(lines, 1):
            one = json.loads(line)
            try:
                now = said(one)
            except Exception:  # a faulty reader may fail: that is seen too
                return turn, "reader"
            for command, was in one["said"].items():
                if now.get(command) != was:
                    return turn, command
    return turn, ""


if __name__ == "__main__":
    print(*first_other(Path(sys.argv[1])))
