"""The options of bonsai-ask: what the program says as JSON or JUnit, the ways that traffic goes, and many classes at once."""
from __future__ import annotations

import argparse
import dataclasses
import json
import os
import sys
from collections.abc import Callable

from bonsainet.ask.program import Answer, NotAnswered, Program, Status
from bonsainet.asking.calls import FORWARDS, IS_DONE, QUESTIONS, SOLUTIONS, Asked, Call
from bonsainet.asking.documents import document
from bonsainet.asking.junit import junit
from bonsainet.asking.questions import questions_of
from bonsainet.asking.reports import ClassAnswer, Solution, forwards_of, reports_of
from bonsainet.asking.shares import is_shared, shared
from bonsainet.asking.ways import Nexts, carriers_of, chain_line, longest_way, way_lines, way_to
from bonsainet.cli import streams
from bonsainet.cli.command_line import Refused, parser, write_output
from bonsainet.configs.network import read_network

NAME = "bonsai-ask"
CHAINS = ("through", "avoids", "hops")


def count(word: str) -> int:
    """How many processes, as a word."""
    if not (word.isascii() and word.isdigit() and int(word) > 0):
        raise argparse.ArgumentTypeError(f"not a number from 1 on: {word!r}")
    return int(word)


def words() -> argparse.ArgumentParser:
    """The words of the command line."""
    made = parser(
        NAME,
        "Answers a question about every stable solution of a network, also where routers or links are down.",
        (("8", "The work was done, and an answer is not yes."),),
    )
    made.usage = "bonsai-ask [--json | --way A] [--junit FILE] [--jobs COUNT] F WORD.."
    made.add_argument("--json", action="store_true", help="write the answers as one JSON document")
    made.add_argument(
        "--junit",
        metavar="FILE",
        help="write the answers to a file of questions also as a JUnit report; a question is named by the comment above it",
    )
    made.add_argument(
        "--way",
        metavar="A",
        help="without a question: the ways that traffic of the router A goes in each solution, with interfaces: in OSPF "
        "those that carry it; of several BGP sessions between two routers one or more carry it, and policies decide which; "
        "behind the answer no to hops, through or avoids: a way that makes it no, from A if there is one",
    )
    made.add_argument(
        "--jobs",
        metavar="COUNT",
        type=count,
        default=len(os.sched_getaffinity(0)),
        help="how many processes share the classes of '*', where there are more than 64 (default: one for each processor)",
    )
    made.add_argument("words", nargs=argparse.REMAINDER, metavar="WORD", help="the words of bonsai-ask, F first")
    return made


def main(argv: list[str] | None = None) -> int:
    """Runs the tool."""
    made = words()
    given = made.parse_args(argv)
    given.words = given.words[given.words[:1] == ["--"] :]
    if not given.words:
        made.error("the words of bonsai-ask are missing: F N QUESTION, or F questions S")
    if given.json and given.way is not None:
        made.error("--json and --way do not go together")
    call = Call.of(given.words)
    if given.junit and call.classes != QUESTIONS:
        made.error("--junit needs a file of questions: F questions S")
    if call.file == call.asked_in == "-":
        made.error("- names standard input, and can stand for one file only")
    try:
        if given.way is not None:
            return ways(call, given.way)
        return answers(Asked.of(Program(name=NAME), call), call, given)
    except NotAnswered as ended:
        return _ended(ended.answer)


def _ended(answer: Answer) -> int:
    """Ends as the program did: with its line, and its status, which is another one where the line is not taken."""
    return answer.status if streams.takes(2, answer.err) else Status.WRITE_FAULT


def say(made: bytes) -> None:
    """Writes to standard output. NotAnswered as the program ends where that does not take it."""
    if not streams.takes(1, made):
        raise NotAnswered(Answer(Status.WRITE_FAULT, b"", b"write fault\n"), "")


def answers(asked: Asked, call: Call, given: argparse.Namespace) -> int:
    """Writes the answers, as the program does or as JSON, and the JUnit report."""
    kept: list[bytes] = []
    is_kept = given.json or given.junit

    def write(part: bytes) -> None:
        if is_kept:
            kept.append(part)
        if not given.json:
            say(part)

    answer = _answered(asked, call, given.jobs, write)
    if answer.status not in IS_DONE:
        return _ended(answer)
    if is_kept:
        reports = reports_of(b"".join(kept).decode("ascii"))
        questions = questions_of(asked.questions)
        if given.json:
            made = document(asked.program.identity, given.words[1:], answer.status, reports, questions)
            say(json.dumps(made, indent=1).encode() + b"\n")
        if given.junit:
            assert call.asked_in is not None
            write_output(given.junit, junit(call.asked_in, questions, reports), call.file, call.asked_in)
    return answer.status


def _answered(asked: Asked, call: Call, jobs: int, write: Callable[[bytes], None]) -> Answer:
    if is_shared(call, jobs):
        return shared(asked, call, jobs, write)
    answer = asked.ask(call.words(call.task))
    write(answer.out)
    return answer


def ways(call: Call, router: str) -> int:
    """Writes the ways of a router's traffic, or behind the answer `no` a way that makes it `no`."""
    if call.classes == QUESTIONS or call.task[:1] in (("count",), (SOLUTIONS,), (FORWARDS,), ("failing",)):
        raise Refused("--way takes no task but a question: F N [without DOWN], or F N [without DOWN] QUESTION")
    if not call.task:
        return _all_ways(Asked.of(Program(name=NAME), dataclasses.replace(call, task=(FORWARDS,))), router)
    asked = Asked.of(Program(name=NAME), call)
    status, text = asked.done(call.words(call.task))
    say(text.encode())
    (report,) = reports_of(text)
    answer = report.parts[0] if len(report.parts) == 1 else None
    if isinstance(answer, ClassAnswer) and answer.labels and call.task[0] in CHAINS:
        _offending_way(asked, call, answer, router)
    return status


def _all_ways(asked: Asked, router: str) -> int:
    status, text = asked.done(asked.call.words((FORWARDS,)))
    carriers = carriers_of(read_network(asked.text.decode("ascii"), asked.name))
    (report,) = reports_of(text)
    for part in report.parts:
        assert isinstance(part, Solution)
        nexts = _with_router(asked, forwards_of(part.lines), router)
        head = f"class {part.number} solution {part.place}" if part.number else f"solution {part.place}"
        say("".join(f"{line}\n" for line in (head, *way_lines(nexts, router, carriers))).encode())
    if not report.parts:
        print(f"{NAME}: no class that is named has a stable solution", file=sys.stderr)
    return status


def _with_router(asked: Asked, nexts: Nexts, router: str) -> Nexts:
    if router not in nexts:
        raise Refused(f"{asked.name}: no router {router}")
    return nexts


def _offending_way(asked: Asked, call: Call, answer: ClassAnswer, router: str) -> None:
    """Writes a chain of forwarding that makes the answer `no`, in the solution whose labels the program shows."""
    nexts = _with_router(asked, _nexts_of(asked, call, answer), router)
    chain = _offending_chain(asked, call, answer, nexts, router)
    if chain:
        carriers = carriers_of(read_network(asked.text.decode("ascii"), asked.name))
        say(f"way\n{chain_line(chain, carriers)}\n".encode())


def _nexts_of(asked: Asked, call: Call, answer: ClassAnswer) -> Nexts:
    """To whom each router forwards in the solution with the labels behind `no`. The program lists its solutions in the
    same order for `solutions` and `forwards`."""
    (solutions,) = asked.reports(call.words((SOLUTIONS,)))
    (forwards,) = asked.reports(call.words((FORWARDS,)))
    for one, other in zip(solutions.parts, forwards.parts):
        assert isinstance(one, Solution) and isinstance(other, Solution)
        if one.lines == answer.labels:
            return forwards_of(other.lines)
    raise Refused(f"{asked.name}: the labels behind no are not among the solutions")


def _offending_chain(asked: Asked, call: Call, answer: ClassAnswer, nexts: Nexts, router: str) -> list[str] | None:
    question, first, of = call.task
    down = set(call.routers_down)
    starts = [name for name in _routers(of, nexts) if name not in down]
    starts = [router] * (router in starts) + [name for name in starts if name != router]
    if question == "hops":
        found = (longest_way(nexts, name) for name in starts)
        return next((chain for chain in found if len(chain) > int(first) + 1), None)
    named = set(_routers(first, nexts)) - down
    if question == "avoids":
        return next(filter(None, (way_to(nexts, name, named) for name in starts)), None)
    origins = {name for name, _ in Program().classes(asked.text)[answer.number - 1].origins} - down
    return next(filter(None, (way_to(nexts, name, origins, named) for name in starts)), None)


def _routers(word: str, nexts: Nexts) -> list[str]:
    return list(nexts) if word == "*" else word.split(",")
