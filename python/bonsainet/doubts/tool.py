"""bonsai-doubts: what is accepted and likely not meant."""
from __future__ import annotations

import argparse
import json
import sys
from collections.abc import Iterator, Mapping

from bonsainet.ask.accepted import add_classes, add_text, chosen
from bonsainet.cli.command_line import name_of, parser, printable, read_input
from bonsainet.configs.compressed import asked
from bonsainet.doubts.agreement import doubts_of_agreement
from bonsainet.doubts.diagrams import doubts_of_diagrams
from bonsainet.doubts.finding import SORTS, Doubt
from bonsainet.doubts.links import doubts_of_links
from bonsainet.doubts.numbers import doubts_of_numbers
from bonsainet.doubts.policies import doubts_of_policies
from bonsainet.doubts.suggested import doubts_of_folder
from bonsainet.doubts.ties import doubts_of_ties
from bonsainet.importing.read import add_skip, read_folder
from bonsainet.ask.program import ALL, ASK, BONSAI, identities, named
from bonsainet.ask.where import Identity, judged_by_each

TIE_SORTS = ("tie", "tie-not-asked")
PURPOSE = """Lists what a text says that Bonsai accepts and that is likely not meant.

Lines that originate nothing, neighbours in no session, interfaces in the area without a neighbour, routers without links, links whose
ends differ in timers, authentication, MTU or password, which Bonsai takes to agree, lists and maps that nothing uses, entries that
nothing reaches, each with the reason. Route maps whose matched lists multiply, so that a command that compresses may not end: these are
named on standard error too, before ties are asked for. Ties: where at rest two routes of a router have one preference and one length, and
communities or lone numbers decided. Real routers break these by age or identifier, and may rest elsewhere. bonsai-ask says which classes
have none; of the others the routes are asked on the compressed networks of the first 16, by `run` and `check`. Paths that pass two routers
of one AS number, where bonsai-import --own-as gave them numbers of their own. With --folder: links that the raw folder suggests, by two
interfaces in one subnet, and the text has not. A doubt is no fault: the status is 0."""


def words() -> argparse.ArgumentParser:
    """The words of the command line."""
    made = parser("bonsai-doubts", PURPOSE)
    add_text(made)
    made.add_argument(
        "--folder", metavar="FOLDER", help="the folder that the text was imported from, for the links that it suggests"
    )
    add_skip(made)
    add_classes(made, "ask for the ties and numbers of this class alone; may be repeated")
    made.add_argument("--no-ties", action="store_true", help="ask neither for ties nor for numbers")
    made.add_argument("--json", action="store_true", help="write one JSON object")
    return made


def main(argv: list[str] | None = None) -> None:
    """Runs the tool."""
    work(words().parse_args(argv))


def work(arguments: argparse.Namespace) -> None:
    """Writes the doubts."""
    name = name_of(arguments.file)
    text = asked(named(BONSAI), read_input(arguments.file), name)
    folder = read_folder(arguments.folder, arguments.skip) if arguments.folder else None
    found = [*doubts_of_links(text.network), *doubts_of_agreement(text.network), *doubts_of_policies(text.network)]
    multiplied = list(doubts_of_diagrams(text.network))
    found += multiplied
    if not arguments.no_ties:
        # (who waits for the programs reads now why)
        sys.stderr.writelines(f"bonsai-doubts: {_told([one])}\n" for one in multiplied)
    names = [BONSAI]
    if not arguments.no_ties:
        numbers = chosen(text.classes, arguments.numbers, text.name)
        found += [*doubts_of_ties(named(BONSAI), text, numbers), *doubts_of_numbers(text, numbers)]
        names += [ASK] if numbers and text.network.protocol == "bgp" else []
        names += [ALL] if any(one.sort in TIE_SORTS for one in found) else []
    if folder:
        found += doubts_of_folder(text.network, folder)
    programs = identities(*names)
    print(
        json.dumps(as_json(name, found, programs), indent=1)
        if arguments.json
        else "\n".join([*as_text(name, found), "", *judged_by_each(programs)])
    )


def as_json(name: str, found: list[Doubt], programs: Mapping[str, Identity]) -> dict[str, object]:
    """The doubts as one object."""
    return {
        "form": 1,
        "program": programs[BONSAI].plain,
        "programs": {each: program.plain for each, program in programs.items()},
        "input": name,
        "doubts": [_one_json(one) for one in found],
    }


def as_text(name: str, found: list[Doubt]) -> Iterator[str]:
    """The doubts for a person, sort by sort."""
    yield f"{printable(name)}: {len(found)} {'doubt' if len(found) == 1 else 'doubts'}"
    for sort, title in SORTS.items():
        those = [one for one in found if one.sort == sort]
        alike: dict[tuple[str, str], list[Doubt]] = {}
        for one in those:
            alike.setdefault((one.told, one.text), []).append(one)
        if those:
            yield from ("", f"{title}: {len(those)}")
            yield from (f"  {_told(doubts)}" for doubts in alike.values())


def _told(doubts: list[Doubt]) -> str:
    """One doubt, or several that say the same of the same line on several routers."""
    one = doubts[0]
    place = f"{one.place}: " if one.place else ""
    names = " ".join(name for name in dict.fromkeys(each.router for each in doubts) if name)
    text = f"{one.text}: " if one.text else ""
    more = f" (and at {', '.join(str(each.place.line) for each in doubts[1:] if each.place)})" if doubts[1:] else ""
    return printable(f"{place}{f'{names}: ' if names else ''}{text}{one.told}{more}")


def _one_json(one: Doubt) -> dict[str, object]:
    place = {"file": one.place.file, "line": one.place.line} if one.place else {"file": None, "line": None}
    return {"sort": one.sort, "routers": one.router.split(), **place, "text": one.text, "told": one.told}
