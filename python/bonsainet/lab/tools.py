"""The commands `bonsai-lab` and `round-trip`."""
from __future__ import annotations

import argparse
import sys
from collections import Counter

from bonsainet.ask.accepted import a_class, accepted_text, class_of
from bonsainet.cli.command_line import Refused, name_of, parser, read_input
from bonsainet.lab.after import expected
from bonsainet.lab.down import Down, withdrawn
from bonsainet.lab.enclosure import refuse_unless_able
from bonsainet.lab.lab import Case, Waiting, case_of, export_told, judge, run_lab, run_loss
from bonsainet.lab.round_trip import MEBI, outcome, run_round, table
from bonsainet.lab.ties import run_with_ties
from bonsainet.ask.labels import Label, solution_text
from bonsainet.ask.program import NotAnswered, Program, Status
from bonsainet.ask.where import judged_by
from bonsainet.nets.random_networks import PREFIX, random_text
from bonsainet.cli.words import counted

STATUS_NOT_STABLE = 6
STATUSES = (
    (
        f"{STATUS_NOT_STABLE}",
        "The routers came to rest in labels that are not stable, or are no solution, as after a tie.",
    ),
)
WITHOUT = (
    "wait for rest, take routers and links down for real, and compare what is left at rest with all solutions of "
    "`bonsai-ask F N without DOWN solutions`. DOWN: routers A, and A:B for all links between two, with commas. Of a router "
    "all interfaces go down and the daemons are ended, of a link both interfaces go down"
)
TIE_WORDS = {"communities": "their communities", "path": "the lone routers on their paths"}


def _seconds(word: str) -> float:
    """A number of seconds above 0."""
    found = float(word)
    if not 0 < found < float("inf"):
        raise argparse.ArgumentTypeError(f"no number of seconds: {word}")
    return found


def tell(line: str) -> None:
    """Says on standard error what goes on."""
    print(line, file=sys.stderr, flush=True)


def _parser(name: str, purpose: str, ties: tuple[str, ...]) -> argparse.ArgumentParser:
    made = parser(name, purpose, STATUSES)
    made.add_argument("text", metavar="TEXT", help="a text that bonsai accepts, or - for standard input")
    made.add_argument("number", metavar="N", type=a_class, help="the class: its number, a prefix of it, or an address")
    made.add_argument(
        "--ties",
        choices=ties,
        default=ties[0],
        help=f"who decides between routes that tie after the second key (default: {ties[0]})",
    )
    made.add_argument("--seconds", type=_seconds, default=300.0, help="how long to wait for rest (default: 300)")
    made.add_argument("--quiet", type=_seconds, default=3.0, help="how long no table may change at rest (default: 3)")
    return made


def _text(program: Program, name: str) -> str:
    return accepted_text(program, read_input(name), name_of(name))


def lab(argv: list[str] | None = None) -> int:
    """Runs a text on FRR and prints what the routers hold for a class, for each of its prefixes."""
    made = _parser("bonsai-lab", lab.__doc__ or "", ("frr", "model"))
    made.add_argument("--without", metavar="DOWN", help=WITHOUT)
    words = made.parse_args(argv)
    if words.without is not None and words.ties != "frr":
        made.error("--without leaves ties to FRR: give no --ties with it")
    refuse_unless_able()
    program = Program()
    case = case_of(program, _text(program, words.text), name_of(words.text), words.number)
    waiting = Waiting(words.seconds, words.quiet)
    if words.without is not None:
        return _without(made, program, case, waiting, words.without)
    rested = run_lab(case, waiting, export_told(case, tell))
    verdict = judge(program, case, rested)
    if words.ties == "model":
        rested, verdict = run_with_ties(program, case, rested, waiting)
    _write(rested.labels)
    sizes = f"{counted(len(case.network.devices), 'router')}, {counted(rested.processes, 'daemon')}"
    tell(f"{sizes}, {rested.memory / MEBI:.0f} MiB, at rest after {rested.rest:.1f} s: {verdict.word}")
    tell(judged_by(program.identity))
    if verdict.tie:
        tell(f"tie: {verdict.tie}")
    return 0 if verdict.is_stable else STATUS_NOT_STABLE


def _write(labels: dict[str, dict[str, Label]]) -> None:
    """Writes what the routers hold for the first prefix, and says where they hold something else for another one."""
    texts = list(dict.fromkeys(map(solution_text, labels.values())))
    sys.stdout.write(texts[0])
    if len(texts) > 1:
        tell(
            f"the routers hold {len(texts)} different solutions for the {len(labels)} prefixes of the class; the first prefix's is written"
        )


def _without(made: argparse.ArgumentParser, program: Program, case: Case, waiting: Waiting, word: str) -> int:
    """The lab with something taken down."""
    ask = Program(name="bonsai-ask")
    answer = ask.ask("F", str(case.number), "without", word, "count", texts={"F": case.text})
    if answer.status == Status.USAGE:
        made.error(f"argument --without: no routers `A` and links `A:B` with commas between them: {word!r}")
    if answer.status != Status.DONE:
        raise NotAnswered(answer, f"without {word}")
    down = Down.of(word)
    gone = sorted(withdrawn(case.network, down) & set(case.of_class.prefixes))
    if gone:
        raise Refused(
            f"{gone[0]}, of class {case.number}, is the subnet of a wire that goes down: routers withdraw it, and `without` does not"
        )
    said = expected(program, ask, case.text, case.network, case.of_class, down)
    rested = run_loss(case, waiting, export_told(case, tell), down)
    _write(rested.labels)
    before = f"after {rested.before:.1f} s" if rested.before is not None else "not, tables still changed,"
    tell(f"{counted(len(case.network.devices), 'router')}, at rest {before} with all up")
    places = {prefix: said.place_of(labels) for prefix, labels in rested.labels.items()}
    none = [prefix for prefix, place in places.items() if place is None]
    found = f"solution {next(iter(places.values()))} of {len(said.solutions)}" if not none else "no solution"
    tell(f"without {word}: at rest after {rested.rest:.1f} s: {found}")
    tell(judged_by(program.identity))
    tell(judged_by(ask.identity))
    if none and said.tie:
        tell(f"tie: {said.tie.router} has offers that tie after the second key and differ in {TIE_WORDS[said.tie.by]}")
    return STATUS_NOT_STABLE if none else 0


def random_rounds(argv: list[str] | None = None) -> int:
    """Runs the rounds of random networks, one a seed, and prints a line for each and a last one for all."""
    made = parser("random-rounds", random_rounds.__doc__ or "")
    made.add_argument("first", metavar="FIRST", type=int, help="the first seed")
    made.add_argument("last", metavar="LAST", type=int, help="the last seed")
    words = made.parse_args(argv)
    refuse_unless_able()
    program = Program()
    counts: Counter[str] = Counter()
    for seed in range(words.first, words.last + 1):
        text = random_text(seed)
        number = next(found.number for found in program.classes(text) if PREFIX in found.prefixes)
        found = run_round(program, text, f"seed {seed}", number, "both", Waiting(), lambda _: None)
        counts["networks"] += 1
        counts["agree"] += found.agrees
        counts["with ties"] += bool(found.ties)
        counts["keys differ"] += bool(found.unequal)
        counts["imports"] += sum(run.imports for run in found.runs)
        counts["imports that differ"] += sum(len(run.differing) for run in found.runs)
        print(f"seed {seed}: {found.large.case.network.protocol}, {' '.join(outcome(found))}", flush=True)
    print(
        ", ".join(
            f"{counts[name]} {name}"
            for name in ("networks", "agree", "with ties", "keys differ", "imports", "imports that differ")
        )
    )
    return 0 if counts["agree"] == counts["networks"] else STATUS_NOT_STABLE


def round_trip(argv: list[str] | None = None) -> int:
    """Runs a network and its compressed one on FRR, has both judged, and carries the small answer back."""
    words = _parser("round-trip", round_trip.__doc__ or "", ("both", "frr", "model")).parse_args(argv)
    refuse_unless_able()
    program = Program()
    text = _text(program, words.text)
    found = run_round(
        program,
        text,
        name_of(words.text),
        class_of(program.classes(text), words.number, name_of(words.text)).number,
        words.ties,
        Waiting(words.seconds, words.quiet),
        tell,
    )
    sys.stdout.write(table(found))
    tell(judged_by(program.identity))
    return 0 if found.agrees else STATUS_NOT_STABLE
