"""Texts at a limit and one beyond it, with what each must come to."""
from __future__ import annotations

import dataclasses
import functools
import math
from collections.abc import Callable, Iterator

from hostile.limits import collisions, diagrams, outputs, questions
from hostile.limits.numbers import NUMBERED, address, joined
from hostile.limits.products import PRODUCTS

TOO_LONG = "refused: FileTooLong"


@dataclasses.dataclass(frozen=True)
class Case:
    """A command over a text F, and S where it has one: its status, its line on standard error, and how many lines and
    bytes it writes. The words are those of `bonsai` or of another program.

    `memory` bounds the address space of the command, in KiB."""

    name: str
    words: tuple[str, ...]
    make: Callable[[], bytes]
    status: int = 0
    reason: str = ""
    lines: int | None = None
    second: Callable[[], bytes] | None = None
    memory: int | None = None
    size: int | None = None
    program: str = "bonsai"

    @property
    def command(self) -> str:
        """The first word that is no text."""
        return next(word for word in self.words if word not in ("F", "S"))


def long_text(size: int) -> bytes:
    """A router behind comments, of this many bytes in all."""
    tail, line = b"hostname a\nend\n", b"!" * 1000 + b"\n"
    body = line * ((size - len(tail)) // len(line))
    rest = size - len(tail) - len(body)
    return body + (b"!" * (rest - 1) + b"\n" if rest else b"") + tail


def many_lines(count: int) -> bytes:
    """This many lines."""
    return b"!\n" * count


def long_line(size: int) -> bytes:
    """A comment of this many bytes."""
    return b"!" * size + b"\r\nhostname a\nend\n"


def routers(count: int) -> bytes:
    """This many routers without anything."""
    return joined([line for number in range(count) for line in (f"hostname r{number}", "end")])


def communities(count: int) -> bytes:
    """A list with this many communities, one a line."""
    return joined(
        ["hostname a", *(f"ip community-list standard L permit {number}" for number in range(1, count + 1)), "end"]
    )


def neighbors(count: int) -> bytes:
    """A router with this many neighbours."""
    lines = [f" neighbor {address((10 << 24) + number)} remote-as 65002" for number in range(count)]
    return joined(["hostname a", "router bgp 65001", *lines, "end"])


ONE = b"hostname a\ninterface Vlan1\n ip address 10.0.0.1 255.255.255.0\nrouter ospf 1\n network 0.0.0.0 255.255.255.255 area 0\nend\n"


def cases() -> Iterator[Case]:
    """All limits of the README and of docs/use/FORMATS.md."""
    one = ("classes", "F")
    yield Case("bytes", one, lambda: long_text(16_777_216))
    yield Case("bytes and 1", one, lambda: long_text(16_777_217), 1, TOO_LONG, 0)
    yield Case("lines", one, lambda: many_lines(1_000_000))
    yield Case("lines and 1", one, lambda: many_lines(1_000_001), 1, "refused: line 1000001: TooManyLines", 0)
    yield Case("line length", one, lambda: long_line(1024))
    yield Case("line length and 1", one, lambda: long_line(1025), 1, "refused: line 1: LineTooLong", 0)
    yield Case("routers", one, lambda: routers(4096))
    yield Case("routers and 1", one, lambda: routers(4097), 1, "refused: line 8193: TooManyRouters", 0)
    yield Case("communities", one, lambda: communities(1024))
    yield Case("communities and 1", one, lambda: communities(1025), 1, "refused: line 1026: TooManyCommunities", 0)
    yield Case("neighbours", one, lambda: neighbors(131_072))
    yield Case("neighbours and 1", one, lambda: neighbors(131_073), 1, "refused: line 131075: TooManyNeighbors", 0)
    yield Case("pairs", ("summary", "F"), lambda: exact_pairs(0), 0, "", 4)
    yield Case("pairs and 1", one, lambda: exact_pairs(1), 1, "refused: line 8779: TooManyLinks", 0)
    yield Case(
        "solution bytes", ("check", "F", "1", "S"), lambda: ONE, 0, "", 1, lambda: padded(b"a cost 1\n", 268_435_456)
    )
    yield Case(
        "solution bytes and 1",
        ("check", "F", "1", "S"),
        lambda: ONE,
        1,
        "refused: solution FileTooLong",
        0,
        lambda: padded(b"a cost 1\n", 268_435_457),
    )
    yield Case("schedule bytes", ("run", "F", "1", "S"), lambda: ONE, 0, "", 2, lambda: padded(b"a\n", 16_777_216))
    yield Case(
        "schedule bytes and 1",
        ("run", "F", "1", "S"),
        lambda: ONE,
        1,
        "refused: schedule FileTooLong",
        0,
        lambda: padded(b"a\n", 16_777_217),
    )
    certificate = b"bonsai certificate 1\ngroup a\nend\n"
    yield Case(
        "certificate bytes", ("verify", "F", "1", "S"), lambda: ONE, 0, "", 1, lambda: padded(certificate, 16_777_216)
    )
    yield Case(
        "certificate bytes and 1",
        ("verify", "F", "1", "S"),
        lambda: ONE,
        1,
        "refused: certificate FileTooLong",
        0,
        lambda: padded(certificate, 16_777_217),
    )
    compress = ("compress", "F", "1")
    yield Case("bytes of an output", compress, lambda: outputs.exact_bytes(0), size=outputs.BYTES)
    yield Case("bytes of an output and 1", compress, lambda: outputs.exact_bytes(1), 1, "refused: OutputTooLong", 0)
    yield Case("lines of an output", compress, lambda: outputs.exact_lines(0), lines=outputs.LINES)
    yield Case("lines of an output and 1", compress, lambda: outputs.exact_lines(1), 1, "refused: OutputTooLong", 0)
    yield Case("fat tree", ("trial", "20"), lambda: b"", 0, "", 200)
    yield Case("fat tree and 2", ("trial", "22"), lambda: b"", 1, "refused: BadSize 22", 0)


def worst(scale: int) -> Iterator[Case]:
    """Texts made to take long: against the tables by hashes and by the product of two numbers, each beside a plain text of the
    same size, and against the diagrams. `scale` multiplies their sizes."""
    one = ("classes", "F")
    for named in collisions.NAMED:
        count = min(4000 * scale, named.bound)
        yield Case(f"{count:,} {named.name}", one, functools.partial(collisions.plain_names, named, count), 0, "", 0)
        yield Case(
            f"{count:,} {named.name} that meet", one, functools.partial(collisions.with_names, named, count), 0, "", 0
        )
    for numbered in NUMBERED:
        count = min(4000 * scale, numbered.bound)
        for meet in (False, True):
            name = f"{count:,} {numbered.name}{' that meet' if meet else ''}"
            text, second = (functools.partial(make, count, meet) for make in (numbered.text, numbered.second))
            yield Case(name, numbered.words, text, 0, "", numbered.output, second)
    for product in PRODUCTS:
        count = min(4000 * scale, product.bound)
        for meet in (False, True):
            name = f"{count:,} {product.name}{', each with each' if meet else ''}"
            yield Case(name, product.words, functools.partial(product.text, count, meet))
    meshed = questions.routers_for(4000 * scale)
    yield Case(
        f"{math.comb(meshed, 2):,} links and a question that names them all",
        ("F", "questions", "S"),
        lambda: questions.meshed(meshed),
        0,
        "",
        2,
        lambda: questions.without_links(meshed),
        program="bonsai-ask",
    )
    groups = ("groups", "F", "1")
    for pairs in (8, 12, 14):
        yield Case(
            f"a list of {pairs} lines whose diagram has 2^{pairs} nodes",
            groups,
            functools.partial(diagrams.exploding, pairs),
            0,
            "",
            2,
        )
    for memory in (32_768, 65_536):
        yield Case(
            f"2^60 nodes in {memory // 1024} MiB",
            groups,
            lambda: diagrams.exploding(60),
            5,
            "out of memory",
            0,
            memory=memory,
        )


def padded(text: bytes, size: int) -> bytes:
    """A text with blanks behind it, of this many bytes."""
    return text + b" " * (size - len(text) - 1) + b"\n"


def exact_pairs(more: int) -> bytes:
    """Subnets with 1,048,576 pairs of adjacent interfaces in all, or one more.

    1,448 routers make 1,047,628 pairs in the first subnet, 44 make 946 in the second; two subnets of two make the last
    2, or one of three makes 3.
    """
    lines = []
    for number in range(1448):
        lines += [f"hostname r{number}", "interface Vlan1", f" ip address {address((10 << 24) + number)} 255.255.0.0"]
        lines += ["interface Vlan2", f" ip address {address((11 << 24) + number)} 255.255.0.0"] if number < 44 else []
        lines += (
            ["interface Vlan3", f" ip address {address((12 << 24) + number)} 255.255.0.0"]
            if 100 <= number < 103 - (0 if more else 1)
            else []
        )
        lines += (
            ["interface Vlan4", f" ip address {address((13 << 24) + number)} 255.255.0.0"]
            if 200 <= number < 202 and not more
            else []
        )
        lines += ["router ospf 1", " network 0.0.0.0 255.255.255.255 area 0", "end"]
    return joined(lines)
