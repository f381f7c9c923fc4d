"""A class of a network on real routers: its labels at rest, and what the program says of them."""
from __future__ import annotations

import dataclasses
import re
from collections.abc import Callable

from bonsainet.ask.accepted import Wanted, class_of
from bonsainet.cli.command_line import Refused
from bonsainet.exporting import frr
from bonsainet.exporting.writer import Exported
from bonsainet.lab.down import Down
from bonsainet.lab.enclosure import run_plan
from bonsainet.lab.held import accepted, labels_of
from bonsainet.lab.plan import plan_of
from bonsainet.ask.labels import BgpLabel, Label, solution_text
from bonsainet.configs.network import Network, read_network
from bonsainet.ask.program import Class, NotAnswered, Program, Status


@dataclasses.dataclass(frozen=True)
class Waiting:
    """How long to wait for rest, and how long nothing may change, in seconds."""

    seconds: float = 300.0
    quiet: float = 3.0


@dataclasses.dataclass
class Case:
    """A class of a text that the program accepts, with what the program says of it."""

    text: str
    file: str
    network: Network
    of_class: Class
    lone: frozenset[int]

    @property
    def number(self) -> int:
        """The number of the class."""
        return self.of_class.number


@dataclasses.dataclass
class Rested:
    """What a lab came to: seconds of its set-up and until rest, daemons, their memory in bytes and processor seconds,
    and labels for each prefix."""

    setup: float
    rest: float
    processes: int
    memory: int
    work: float
    held: dict
    labels: dict[str, dict[str, Label]]
    exported: Exported
    plain: dict[str, str] | None = None


@dataclasses.dataclass
class Lost:
    """What a lab came to after a loss: seconds of rest before it, none where tables still changed then, seconds until rest
    after it, and labels for each prefix."""

    before: float | None
    rest: float
    held: dict
    labels: dict[str, dict[str, Label]]


@dataclasses.dataclass(frozen=True)
class Verdict:
    """What `check` says of labels. `tie` tells where routes were equal in preference and length, and another than the
    model's was taken."""

    word: str
    tie: str | None = None

    @property
    def is_stable(self) -> bool:
        """Whether the labels are stable."""
        return self.word == "stable"


def case_of(program: Program, text: str, file: str, number: Wanted) -> Case:
    """The class of a text, by its number, a prefix or an address. NotAnswered where the program refuses the text; Refused where there is no such class."""
    return _case(program, text, file, read_network(text, file), class_of(program.classes(text), number, file))


def case_with(program: Program, text: str, file: str, prefixes: tuple[str, ...]) -> Case:
    """The class of a text that has these prefixes."""
    found = [of_class for of_class in program.classes(text) if of_class.prefixes == prefixes]
    if not found:
        raise Refused(f"{file} has no class with the prefixes {' '.join(prefixes)}")
    return _case(program, text, file, read_network(text, file), found[0])


def _case(program: Program, text: str, file: str, network: Network, of_class: Class) -> Case:
    names = [name for group in program.groups(text, of_class.number) if group.is_lone for name in group.members]
    lone = frozenset(network.by_name[name].own_bgp.number for name in names)
    return Case(text, file, network, of_class, lone)


def export_told(case: Case, tell: Callable[[str], None]) -> Exported:
    """The configurations of a case for the lab. Tells each line that FRR may take otherwise."""
    exported = frr.export(case.network, with_lab_timers=True)
    for doubt in exported.doubts:
        tell(f"{doubt.place}: {doubt.before}: {doubt.reason}")
    return exported


def run_lab(case: Case, waiting: Waiting, exported: Exported) -> Rested:
    """Runs a case on FRR until it rests. Refused where it could not, with the reason."""
    record = run_plan(plan_of(case.network, exported, list(case.of_class.prefixes)), waiting.seconds, waiting.quiet)
    labels = {prefix: labels_of(case.network, record["held"], prefix) for prefix in case.of_class.prefixes}
    return Rested(
        record["setup"],
        record["rest"],
        record["processes"],
        record["memory"],
        record["work"],
        record["held"],
        labels,
        exported,
    )


def run_loss(case: Case, waiting: Waiting, exported: Exported, down: Down) -> Lost:
    """Runs a case on FRR until it rests, takes something down, and waits for rest again. Where the tables of the whole
    network still change at the end of the time, it goes on. Refused where it could not, with the reason."""
    prefixes = list(case.of_class.prefixes)
    record = run_plan(plan_of(case.network, exported, prefixes, [down]), waiting.seconds, waiting.quiet)
    (after,) = record["losses"]
    if "fault" in after:
        raise Refused(f"the lab without {down.word}: {after['fault']}")
    labels = {prefix: labels_of(case.network, after["held"], prefix) for prefix in prefixes}
    return Lost(record["rest"], after["rest"], after["held"], labels)


def judge(program: Program, case: Case, rested: Rested) -> Verdict:
    """What `check` says of the labels of each prefix: the first that is not stable, or `stable`."""
    for prefix in case.of_class.prefixes:
        labels = rested.labels[prefix]
        answer = program.ask("check", "F", str(case.number), "S", texts={"F": case.text, "S": solution_text(labels)})
        if answer.status == Status.NOT_STABLE:
            found = re.fullmatch(r"not stable: (\S+) (\S+)", answer.reason)
            tie = tie_at(case, rested, prefix, found[1]) if found and found[2] == "better-candidate" else None
            return Verdict(answer.reason, tie)
        if answer.status != Status.DONE:
            raise NotAnswered(answer, "check")
    return Verdict("stable")


def tie_at(case: Case, rested: Rested, prefix: str, name: str) -> str | None:
    """Whether a router holds a route that ties, in preference and length, with an accepted one of a better key; in
    words, or none."""
    label = rested.labels[prefix][name]
    if not isinstance(label, BgpLabel):
        return None
    routes = accepted(case.network.by_name[name], rested.held[name][prefix])
    tied = [route for route in routes if route.key(case.lone)[:2] == label.key(case.lone)[:2]]
    best = min(tied, key=lambda route: route.key(case.lone), default=label)
    if best.key(case.lone) >= label.key(case.lone):
        return None
    by = "communities" if best.communities != label.communities else "lone routers on the path"
    return f"{name}: FRR chose by age or router identifier between routes that tie after the second key; the model chooses by {by}"
