"""Texts that the program accepts, which is what the tools behind it read."""
from __future__ import annotations

import argparse
from collections.abc import Iterable, Sequence
from ipaddress import IPv4Network
from typing import Protocol, TypeVar

from bonsainet.cli.command_line import Refused
from bonsainet.ask.program import Class, NotAnswered, Program, Status, classes_of


def accepted_classes(program: Program, raw: bytes, name: str) -> list[Class]:
    """The classes of a text. Refused, with its name, the program's reason and the tool for all refusals, where the
    program does not accept it, or it is empty."""
    if not raw.strip():
        raise Refused(f"{name}: no router in it; bonsai-import writes nothing where it refuses a line")
    answer = program.ask("classes", "F", texts={"F": raw})
    if answer.status == Status.REFUSED:
        raise Refused(f"{name}: {answer.reason}; tools/bonsai-refusals lists all refusals")
    if answer.status != Status.DONE:
        raise NotAnswered(answer, f"classes {name}")
    return classes_of(answer.text)


def accepted_text(program: Program, raw: bytes, name: str) -> str:
    """The text of bytes that the program accepts. Refused where it does not."""
    accepted_classes(program, raw, name)
    return raw.decode("ascii")


Wanted = int | IPv4Network


def a_class(word: str) -> Wanted:
    """A class as a word of the command line names it: by its number, a prefix of it, or an address."""
    if word.isascii() and word.isdigit():
        return int(word)
    try:
        return IPv4Network(word)
    except ValueError:
        raise argparse.ArgumentTypeError(f"neither a number, a prefix nor an address: {word!r}") from None


def add_text(made: argparse.ArgumentParser) -> None:
    """Adds the word F, a text."""
    made.add_argument("file", metavar="F", help="the configurations of the network, or - for standard input")


def add_classes(made: argparse.ArgumentParser, told: str) -> None:
    """Adds the option `--class N`, with what its help says of it."""
    made.add_argument("--class", dest="numbers", metavar="N", type=a_class, action="append", help=told)


def class_of(classes: list[Class], wanted: Wanted, name: str) -> Class:
    """The class of a number or a prefix; of an address the class with the longest prefix around it. Refused where the
    text of this name has none."""
    if isinstance(wanted, IPv4Network):
        return _class_with(classes, wanted, name)
    if not 1 <= wanted <= len(classes):
        told = (
            f"the classes are 1 to {len(classes)}"
            if len(classes) > 1
            else "the one class is 1"
            if classes
            else "the network has no class, since no router originates a prefix"
        )
        raise Refused(f"{name}: no class {wanted}: {told}")
    return classes[wanted - 1]


def chosen(classes: list[Class], wanted: Sequence[Wanted] | None, name: str) -> list[int]:
    """The numbers of the classes that are asked for, ascending: all, where none is named. Refused where the text of this
    name has no such class."""
    if not wanted:
        return [one.number for one in classes]
    return sorted({class_of(classes, one, name).number for one in wanted})


def _class_with(classes: list[Class], wanted: IPv4Network, name: str) -> Class:
    """The class of a prefix, or around an address."""
    is_address = wanted.prefixlen == wanted.max_prefixlen
    found = class_with(classes, wanted, is_address)
    if found is None:
        told = f"a prefix around {wanted.network_address}" if is_address else f"the prefix {wanted}"
        raise Refused(f"{name}: no class has {told}")
    return found


class HasPrefixes(Protocol):
    """What has prefixes."""

    @property
    def prefixes(self) -> tuple[str, ...]:
        """The prefixes."""


Found = TypeVar("Found", bound=HasPrefixes)


def class_with(classes: Iterable[Found], wanted: IPv4Network, is_address: bool) -> Found | None:
    """The class that has a prefix, or of an address the one with the longest prefix around it."""
    prefixes = ((IPv4Network(prefix), one) for one in classes for prefix in one.prefixes)
    around = [
        (prefix.prefixlen, one)
        for prefix, one in prefixes
        if prefix == wanted or is_address and wanted.subnet_of(prefix)
    ]
    return max(around, key=lambda found: found[0])[1] if around else None
