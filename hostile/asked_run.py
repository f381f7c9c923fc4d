"""`hostile/ask`: the program that answers questions, asked over made networks and judged by exhaustive search."""

from __future__ import annotations

import argparse
import collections
import dataclasses
import functools
import gc
import importlib
import json
import os
import random
import shutil
import subprocess
import time
import zlib
from collections.abc import Iterator
from pathlib import Path

from bonsainet.ask.program import TOP, Answer
from bonsainet.ask.where import named_by
from hostile import asked_files, asked_shut, slices
from hostile.asking import Asker
from hostile.judge import answers, asked, asked_questions, asked_words, questions
from hostile.judge.problem import Network
from hostile.judge.reading import lines_of, split
from hostile.judge.rests import Down, TooLarge
from hostile.makers import asked as maker
from hostile.makers import disputes, internets, networks
from hostile.makers.shapes import MOST, shape
from hostile.recording import keep_record, told_of

CALLS = 8
READERS = ("search", "solver")
SELDOM = 100_000
"""How many objects are made between two looks for garbage: what is made here is let go of by itself."""
REFUSED, USAGE = 1, 2
SOME = 0.25
"""How many of the texts get a call of their own where none is asked for, besides those of a loss."""
FILES = 0.3
"""How many of the calls have a file of questions."""
MEASURED = Path(__file__).resolve().parent / "measured"
KEPT = MEASURED / "asked.json"


@dataclasses.dataclass
class Found:
    """What was asked: texts by what they have; commands by task, of which a question of a file is one; calls of the program by
    how they ended; what was too large to judge, and what differs."""

    texts: int = 0
    kinds: collections.Counter[str] = dataclasses.field(default_factory=collections.Counter)
    commands: collections.Counter[str] = dataclasses.field(default_factory=collections.Counter)
    ends: collections.Counter[str] = dataclasses.field(default_factory=collections.Counter)
    too_large: int = 0
    differences: list[str] = dataclasses.field(default_factory=list)

    @property
    def asked(self) -> int:
        """How many commands were asked and judged."""
        return sum(self.commands.values())

    def add(self, other: Found) -> None:
        """Takes what another job found to this."""
        self.texts += other.texts
        self.kinds += other.kinds
        self.commands += other.commands
        self.ends += other.ends
        self.too_large += other.too_large
        self.differences += other.differences

    def note(self, words: list[str]) -> None:
        """One more command."""
        task = next((word for word in words if word in TASKS), "other")
        self.commands[
            ("failing " if "failing" in words else "") + ("without " if "without" in words else "") + task
        ] += 1

    def end(self, answer: Answer) -> None:
        """One more call of the program."""
        self.ends[f"status {answer.status}" + (" tied" if b" tied " in answer.out else "")] += 1


def text_of(chance: random.Random, most: int = MOST) -> bytes:
    """A network of either protocol, of so many routers or of a known gadget; most are of BGP, and many of these dispute. In some
    nobody prefers anything."""
    how = chance.random()
    if how < 0.5:
        return (disputes.even if how < 0.12 else disputes.text)(chance, most).encode()
    if how < 0.7:
        return networks.text(chance, most).encode()
    if how < 0.85:
        return networks.ospf(chance, shape(chance, most)).encode()
    return (internets.text(chance, most) if how < 0.94 else internets.tied(chance)).encode()


def fault(
    net: Network | answers.Expected,
    words: list[str],
    answer: Answer,
    reader: asked.Reader = questions,
    file: bytes | None = None,
) -> str | None:
    """Why an answer is not allowed by what a reader finds, or None; with a file of questions, to that one. TooLarge where the
    reader does not find it."""
    if file is not None:
        return _fault_of_file(net, file, answer, reader)
    is_refused = isinstance(net, answers.Expected)
    try:
        call = asked_words.call_of(EMPTY if isinstance(net, answers.Expected) else net, words)
    except asked_words.NoForm:
        return _ended_fault(USAGE, asked_words.USAGE, answer)
    except asked_words.Unanswered as why:
        if not is_refused:
            return _ended_fault(REFUSED, f"refused: {why}", answer)
    if isinstance(net, answers.Expected):
        return _ended_fault(REFUSED, net.reason, answer)
    if answer.status not in (0, 8):
        return "an answer"
    try:
        asked.judge(net, call, answer.status, answer.text, reader)
    except asked.Differs as why:
        return str(why)
    return None


def _fault_of_file(net: Network | answers.Expected, file: bytes, answer: Answer, reader: asked.Reader) -> str | None:
    if isinstance(net, answers.Expected):
        return _ended_fault(REFUSED, net.reason, answer)
    try:
        asked_questions.judge(net, file, answer.status, answer.text, reader)
    except asked_questions.Faulty as why:
        return _ended_fault(REFUSED, f"refused: {why}", answer)
    except asked.Differs as why:
        return str(why)
    return None


def _ended_fault(status: int, wanted: str, answer: Answer) -> str | None:
    is_right = (answer.status, answer.reason, answer.out) == (status, wanted, b"")
    return None if is_right else f"status {status}, {wanted}"


EMPTY = Network([], "none", [], [], [])


@dataclasses.dataclass(frozen=True)
class How:
    """How a run asks: the program, the reader that judges, how many calls a text gets, and where differences go."""

    path: str
    seed: int
    reader: str
    calls: int
    keep: Path
    most: int = MOST


def reader_of(name: str) -> asked.Reader:
    """The reader of a name. The solver is loaded where it is asked for."""
    return questions if name == "search" else importlib.import_module("hostile.solver.reader")


def over_text(program: Asker, text: bytes, start: int, found: Found, how: How) -> None:
    """Asks several questions over one text."""
    chance = random.Random(start)
    net = answers.read(text)
    if not isinstance(net, answers.Expected) and answers.has_many_communities(net):
        return
    found.texts += 1
    found.kinds.update(kinds_of(net))
    made = maker.Maker(chance, EMPTY if isinstance(net, answers.Expected) else net)
    calls = how.calls or int(chance.random() < SOME)
    for _ in range(calls if not isinstance(net, answers.Expected) else 1):
        _ask(program, text, start, net, made, found, how)
    _ask_files(program, text, start, net, found, how)
    if isinstance(net, answers.Expected) or (loss := asked_shut.loss_of(chance, text, net)) is None:
        return
    try:
        _ask_lost(program, text, start, net, loss, found, how)
    except TooLarge:
        found.too_large += 1


def kinds_of(net: Network | answers.Expected) -> Iterator[str]:
    """What a text has, of which a run is to have many: a protocol, lone routers, and what exhaustive search finds of its
    classes."""
    if isinstance(net, answers.Expected):
        yield "refused"
        return
    yield net.protocol
    found = set()
    for number in range(len(net.classes)):
        try:
            left, solutions = questions.solutions(net, number, Down())
        except TooLarge:
            continue
        found |= {"lone"} if left.lone else set()
        found |= {"none"} if not solutions else {"several"} if len(solutions) > 1 else set()
    yield from sorted(found)


def _ask(
    program: Asker,
    text: bytes,
    start: int,
    net: Network | answers.Expected,
    made: maker.Maker,
    found: Found,
    how: How,
) -> None:
    """One call, with words or a file of questions."""
    file = made.file() if made.chance.random() < FILES else None
    words = made.words() if file is None else ["questions", "S"]
    try:
        answer = program.ask("F", *words, texts={"F": text} if file is None else {"F": text, "S": file})
        why = fault(net, words, answer, reader_of(how.reader), file)
    except TooLarge:
        found.too_large += 1
        return
    except subprocess.TimeoutExpired:
        answer, why = Answer(-1, b"", b""), "an answer in time"
    for one in [words] if file is None or answer.status not in DONE else _questions_of(file):
        found.note(one)
    found.end(answer)
    if why:
        found.differences.append(_kept(how.keep, text, start, words, why, answer, file))


def _questions_of(file: bytes) -> list[list[str]]:
    """The words of each question of a file."""
    lines = (split(line) for line in lines_of(file) if not line.startswith(b"!"))
    return [line for line in lines if line]


def _ask_files(
    program: Asker, text: bytes, start: int, net: Network | answers.Expected, found: Found, how: How
) -> None:
    """A call whose files are not there or too long, over some texts."""
    chance = random.Random(f"files {start}")
    if chance.random() >= asked_files.SOME:
        return
    call = asked_files.call_of(chance, text, net)
    found.commands["of a file that is not read"] += 1
    if why := asked_files.fault(program, call):
        found.differences.append(_kept(how.keep, text, start, list(call.words), *why))


def _ask_lost(
    program: Asker, text: bytes, start: int, net: Network, loss: asked_shut.Loss, found: Found, how: How
) -> None:
    """Both calls of a loss. The first is judged too."""
    try:
        without, after = asked_shut.asked(program, text, loss)
    except subprocess.TimeoutExpired:
        found.differences.append(
            _kept(how.keep, text, start, loss.questions[0], "an answer in time", Answer(-1, b"", b""), loss.without)
        )
        return
    words = ["questions", "S"]
    why = fault(net, words, without, reader_of(how.reader), loss.without)
    for one in [*loss.questions, *loss.others]:
        found.note(one)
    found.commands["of the text that is shut"] += len(loss.questions)
    found.kinds["shut"] += 1
    for answer in (without, after):
        found.end(answer)
    if why:
        found.differences.append(_kept(how.keep, text, start, words, why, without, loss.without))
    if differs := asked_shut.fault(loss, without, after):
        found.differences.append(_kept(how.keep, text, start, *differs, without, loss.without))


DONE = (0, 8)
TASKS = {*maker.TASKS, "questions", "route", "isolated", "hops", "through", "avoids", "carries", "lacks"}


def _kept(
    folder: Path, text: bytes, start: int, words: list[str], why: str, answer: Answer, file: bytes | None = None
) -> str:
    folder.mkdir(parents=True, exist_ok=True)
    name = f"ask-{start}-{len(words)}-{zlib.crc32(' '.join(words).encode() + (file or b''))}"
    (folder / f"{name}.cfg").write_bytes(text)
    if file is not None:
        (folder / f"{name}.questions").write_bytes(file)
    told = f"words {' '.join(words)}\nexpected {why}\nstatus {answer.status}\n{answer.text}{answer.err.decode(errors='replace')}"
    (folder / f"{name}.txt").write_text(told)
    return name


def part_of_job(how: How, number: int, turn: int, seconds: float) -> tuple[Found, int]:
    """A job's texts from a turn on, for some time, and the next turn."""
    slices.leave_signals()
    gc.set_threshold(SELDOM)
    program, found, until = Asker(how.path), Found(), time.monotonic() + seconds
    try:
        while time.monotonic() < until:
            turn += 1
            start = how.seed * 1_000_003 + number * 100_000_007 + turn
            over_text(program, text_of(random.Random(start), how.most), start, found, how)
    finally:
        program.close()
    return found, turn


def run(how: How, seconds: float, jobs: int, texts: int | None, commands: int | None) -> Found:
    """All jobs until their time is over, or as many texts or commands were asked."""
    found = Found()

    def is_enough(more: Found) -> bool:
        found.add(more)
        return (texts is not None and found.texts >= texts) or (commands is not None and found.asked >= commands)

    slices.work(functools.partial(part_of_job, how), jobs, seconds, is_enough)
    return found


def own_program() -> str | None:
    """The program bonsai-ask that the repository's launcher names, or None where there is no such launcher."""
    launcher = TOP / "bonsai-ask"
    return named_by(str(launcher)).path if launcher.is_file() else None


def main(arguments: list[str] | None = None) -> int:
    """Status 0 without a difference, 1 with one or where no text was asked, 2 for wrong words."""
    parser = argparse.ArgumentParser(prog="hostile/ask", description=(__doc__ or "").strip())
    parser.add_argument("--program", help="the program bonsai-ask (default: that of the repository)")
    parser.add_argument("--seconds", type=float, default=20, help="how long (default 20)")
    parser.add_argument("--texts", type=int, help="end when so many texts were asked")
    parser.add_argument("--commands", type=int, help="end when so many commands were asked and judged")
    parser.add_argument(
        "--calls",
        type=int,
        default=CALLS,
        help="how many calls a text gets besides those of a loss (default %(default)s); with 0 one text in four gets one",
    )
    parser.add_argument(
        "--most", type=int, default=MOST, help="how many routers most texts have at most (default %(default)s)"
    )
    parser.add_argument(
        "--by",
        choices=READERS,
        default="search",
        help="who finds the solutions: exhaustive search (default), or Z3 (package z3)",
    )
    parser.add_argument("--record", metavar="NAME", help=f"keep the counts in {MEASURED.name}/asked.json by this name")
    parser.add_argument("--jobs", type=int, default=2, help="how many processes (default 2)")
    parser.add_argument("--seed", type=int, help="the same seed makes the same texts in the same order")
    parser.add_argument("--keep", type=Path, default=Path("out/hostile"), help="the folder for what differs")
    given = parser.parse_args(arguments)
    seed = given.seed if given.seed is not None else int.from_bytes(os.urandom(3), "big")
    program = given.program or own_program()
    if not program:
        print("ask: left out: the repository has no bonsai-ask; --program names one")
        return 0
    if given.by == "solver" and not shutil.which("z3"):
        print("ask: left out: the program z3 is not there: install the package z3")
        return 0
    how = How(os.path.abspath(program), seed, given.by, given.calls, given.keep, given.most)
    load, begun = os.getloadavg()[0], time.monotonic()
    found = run(how, given.seconds, given.jobs, given.texts, given.commands)
    table = {
        "date": time.strftime("%Y-%m-%d"),
        "reader": given.by,
        "seconds": round(time.monotonic() - begun),
        "jobs": given.jobs,
        "load": [round(load, 1), round(os.getloadavg()[0], 1)],
        "seed": seed,
        "program": told_of(Path(program)),
        "texts": found.texts,
        "by_kind": dict(sorted(found.kinds.items())),
        "commands": found.asked,
        "by_task": dict(sorted(found.commands.items())),
        "calls": sum(found.ends.values()),
        "by_end": dict(sorted(found.ends.items())),
        "too_large": found.too_large,
        "differences": found.differences,
    }
    print(json.dumps(table, indent=1))
    if given.record:
        keep_record(KEPT, given.record, table)
    return 1 if found.differences or not found.texts else 0
