"""Each allocation fails in turn: `out of memory`, status 5 and nothing written, or the answer as without the fault.
Never a crash.

Where memory runs out before the program has its words, status 5 comes without a line: docs/use/COMMANDS.md says so. How
many allocations that are is counted over as many words that are no command."""
from __future__ import annotations

import argparse
import concurrent.futures
import dataclasses
import os
import random
import subprocess
import tempfile
from collections.abc import Iterator
from pathlib import Path

from hostile.asking import has_canon
from hostile.judge import answers
from hostile.makers import networks as makers
from hostile.makers.shapes import shape
from bonsainet.cli.command_line import Refused
from bonsainet.ask.native import program_file
from bonsainet.ask.program import TOP, Program

SOURCE = Path(__file__).with_name("refuse.c")
End = tuple[int, bytes, bytes]
# The programs whose words begin with F.
BESIDE = ("bonsai-ask", "bonsai-all")
OUT_OF_MEMORY = (5, b"", b"out of memory\n")
BEFORE_WORDS = (5, b"", b"")


@dataclasses.dataclass(frozen=True)
class Wrong:
    """A run with a failing allocation that ended in no way that is allowed."""

    words: tuple[str, ...]
    fails_at: int
    fails_on: bool
    status: int
    out: bytes
    err: bytes


def allocator(folder: Path) -> Path:
    """Builds the allocator into a folder. CalledProcessError where gcc fails."""
    library = folder / "refuse.so"
    subprocess.run(
        ["gcc", "-shared", "-fPIC", "-O1", "-Wall", "-Werror", "-fno-builtin", "-o", str(library), str(SOURCE), "-ldl"],
        check=True,
    )
    return library


def _asked(words: tuple[str, ...]) -> list[str]:
    """A command with the file of its program: `bonsai`, or the one that its first word names."""
    # (the launcher is a script, whose memory would fail first)
    return [program_file(words[0]), *words[1:]] if words[0] in BESIDE else [program_file(), *words]


def _without_form(words: tuple[str, ...]) -> tuple[str, ...]:
    """As many words of the same program, of no form."""
    return (*words[:2], "nonsense", *words[3:]) if words[0] in BESIDE else ("nonsense", *words[1:])


def _run(words: tuple[str, ...], library: Path, **more: str) -> End:
    ran = subprocess.run(
        _asked(words),
        env={**os.environ, "LD_PRELOAD": str(library), **more},
        capture_output=True,
        check=False,
    )
    return ran.returncode, ran.stdout, ran.stderr


def count(words: tuple[str, ...], library: Path, folder: Path) -> tuple[int, End]:
    """How many allocations a command makes, and its answer. Refused where there is none, since a build with checks of
    memory has an allocator of its own."""
    file = folder / "count"
    answer = _run(words, library, COUNT_TO=str(file))
    found = int(file.read_text())
    if not found:
        raise Refused(
            f"{_asked(words)[0]}: has an allocator of its own: take the proved program, or `hostile/plant --as-it-is`"
        )
    return found, answer


def wrong(words: tuple[str, ...], library: Path, folder: Path, most: int | None = None) -> Iterator[Wrong]:
    """The runs that ended otherwise: each allocation of a command fails in turn, alone and with all behind it.

    At most `most` of them, spread evenly, where there are more."""
    total, plain = count(words, library, folder)
    before, _ = count(_without_form(words), library, folder)
    step = 1 if most is None else max(1, total // most)
    for place in range(1, total + 1, step):
        for fails_all in (False, True):
            more = {"FAIL_ALL": "1"} if fails_all else {}
            ended = _run(words, library, FAIL_AT=str(place), **more)
            if not _is_allowed(words, ended, plain) and not (ended == BEFORE_WORDS and place <= before):
                yield Wrong(words, place, fails_all, *ended)


def _is_allowed(words: tuple[str, ...], ended: End, plain: End) -> bool:
    """Whether a run ended as without the fault, or out of memory: with nothing written, or of the programs that write each
    answer before the next one is begun a first part of the output."""
    status, out, err = ended
    is_begun = words[0] in BESIDE and (status, err) == (OUT_OF_MEMORY[0], OUT_OF_MEMORY[2]) and plain[1].startswith(out)
    return ended in (plain, OUT_OF_MEMORY) or is_begun


def networks(folder: Path, each: int = 4) -> list[str]:
    """Files of networks of either protocol: an example, and for the rest small random ones, which have a class that
    `compress` takes."""
    inputs = TOP / "examples" / "inputs"
    found = [str(inputs / "fabric.cfg"), str(inputs / "campus.cfg")]
    for write in (makers.bgp, makers.ospf):
        seed, made = 0, 1
        while made < each:
            seed += 1
            chance = random.Random(seed)
            text = write(chance, shape(chance)).encode()
            net = answers.read(text)
            if (
                isinstance(net, answers.Expected)
                or not net.classes
                or not net.links
                or answers.has_many_communities(net)
            ):
                continue
            file = folder / f"{write.__name__}-{made}.cfg"
            file.write_bytes(text)
            if Program().ask("check", str(file), "1", "S", texts={"S": _rest(str(file))}).out == b"stable\n":
                found.append(str(file))
                made += 1
    return found


def _rest(text: str) -> str:
    return Program().ask("run", text, "1", "S", texts={"S": "*\n" * 9}).text.partition("\n")[2]


def commands(texts: list[str], folder: Path) -> Iterator[tuple[str, ...]]:
    """Every command on class 1 of each text, with labels of rest, an order to them and a certificate, in files of a
    folder."""
    program = Program()
    for number, text in enumerate(texts):
        names = {name: str(folder / f"{number}-{name}") for name in ("rounds", "above", "below", "certificate")}
        Path(names["rounds"]).write_text("*\n" * 9)
        Path(names["above"]).write_text(program.done("run", text, "1", names["rounds"]).partition("\n")[2])
        Path(names["below"]).write_text(program.done("fold", text, "1", names["above"]))
        Path(names["certificate"]).write_text(program.done("certify", text, "1"))
        yield from ((word, text) for word in ("classes", "summary"))
        more = ("canon",) if has_canon(program) else ()
        yield from ((word, text, "1") for word in ("groups", "compress", "report", "json", "certify", *more))
        yield from ((word, text, "1", names["above"]) for word in ("check", "fold", "reach"))
        yield from [
            ("lift", text, "1", names["below"]),
            ("run", text, "1", names["rounds"]),
            ("verify", text, "1", names["certificate"]),
        ]
        questions = folder / f"{number}-questions"
        questions.write_text("1 count\n1 failing links route *\n")
        for task in ("count", "solutions", "forwards", "route *", "hops 1 *", "lacks 1:1 *", "failing routers route *"):
            yield ("bonsai-ask", text, "*", *task.split())
        yield "bonsai-ask", text, "questions", str(questions)
        yield from (("bonsai-all", text, word) for word in ("groups", "compress", "json", "certify"))
    yield "trial", "4"


def main(arguments: list[str] | None = None) -> int:
    """`hostile/failing/measure`: each allocation of each command; status 1 where a run ended otherwise."""
    parser = argparse.ArgumentParser(
        prog="hostile/failing/measure",
        description="Let each allocation of each command fail, alone and with all behind it.",
    )
    parser.add_argument("--networks", type=int, default=4, help="how many networks of either protocol (default 4)")
    parser.add_argument("--most", type=int, help="at most so many allocations of a command, spread evenly")
    parser.add_argument("--jobs", type=int, default=2, help="how many commands are tried side by side (default 2)")
    given = parser.parse_args(arguments)
    with tempfile.TemporaryDirectory() as name, concurrent.futures.ThreadPoolExecutor(given.jobs) as pool:
        folder = Path(name)
        library = allocator(folder)
        try:
            count(("trial", "4"), library, folder)
        except Refused as why:
            parser.exit(1, f"hostile/failing/measure: {why}\n")
        asked = list(commands(networks(folder, given.networks), folder))

        def tried(number: int) -> tuple[int, list[Wrong]]:
            room = folder / str(number)
            room.mkdir()
            total, _ = count(asked[number], library, room)
            step = 1 if given.most is None else max(1, total // given.most)
            return 2 * len(range(1, total + 1, step)), list(wrong(asked[number], library, room, given.most))

        runs, found = 0, []
        for more, bad in pool.map(tried, range(len(asked))):
            runs += more
            found += bad
    print(f"commands {len(asked)}, runs {runs}, other ends {len(found)}", *found, sep="\n")
    return 1 if found else 0
