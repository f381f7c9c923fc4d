"""A network: a text that the program accepts, read from a text, a file, or a folder of running configurations."""
from __future__ import annotations

import dataclasses
import functools
import os
import re
from collections.abc import Iterable, Iterator
from ipaddress import IPv4Address, IPv4Network
from pathlib import Path
from typing import TYPE_CHECKING, Any, Literal

from bonsainet.ask.frames import Frame, frames_of
from bonsainet.ask.program import (
    ASK,
    BONSAI,
    IS_DONE,
    Class,
    Group,
    NotAnswered,
    Status,
    bytes_of,
    classes_of,
    groups_of,
    sizes_of,
)
from bonsainet.ask.program import Answer as Said
from bonsainet.ask.shares import side_by_side
from bonsainet.asking.questions import questions_of
from bonsainet.cli.command_line import Refused
from bonsainet.asking.reports import ClassAnswer, Count, Part, reports_of
from bonsainet.configs.network import Network as Parsed
from bonsainet.configs.network import read_network
from bonsainet.configs.reading import device_of
from bonsainet.library.answers import Answer, Reply
from bonsainet.library.calls import call, errors_of, program, read
from bonsainet.library.classes import DestClass
from bonsainet.library.errors import ClassNotFound, FolderRefused, ImportRefused, ProgramFailed, error_of
from bonsainet.library.questions import AllQuestions, names_of

if TYPE_CHECKING:
    import pandas

    from bonsainet.importing.report import Report

FilePath = str | os.PathLike[str]
LONGEST_PREFIX = 32
COLUMNS = ["class", "prefixes", "origins", "routers", "links", "groups", "group_links"]
NUMBER = re.compile(r"[1-9][0-9]{0,9}")


@dataclasses.dataclass(frozen=True)
class Network:
    """The network of a text. `name` is what errors call it, and `report` says what an import changed, by file and line.
    Made with a text alone, the network is not judged before something is asked; `from_text` judges it at once."""

    text: str = dataclasses.field(repr=False)
    name: str = "text"
    report: Report | None = dataclasses.field(default=None, repr=False, compare=False)

    @classmethod
    def from_text(cls, text: str, name: str = "text") -> Network:
        """The network of a text. TextRefused where the program does not accept it."""
        made = cls(text, name)
        _ = made.classes
        return made

    @classmethod
    def from_file(cls, path: FilePath) -> Network:
        """The network of a file. TextRefused where the program does not accept it, OSError where it cannot be read."""
        return cls.from_text(Path(path).read_bytes().decode("ascii", "surrogateescape"), os.fspath(path))

    @classmethod
    def from_folder(
        cls, path: FilePath, decisions: FilePath | None = None, own_as: bool = False, stubs: Iterable[str] = ()
    ) -> Network:
        """The network of a folder of running configurations. `decisions` is a file of decisions, `own_as` gives each
        router of a shared AS number a number of its own, and `stubs` are routers to add, as `PEER=PREFIX,..`.
        ImportRefused where lines are left to a person, FolderRefused where the folder, decisions or stubs are not of their
        form, OSError where a file cannot be read."""
        # (who reads texts alone does not wait for the rules of the import)
        from bonsainet.importing.decisions import decisions_in
        from bonsainet.importing.rules.options import Options
        from bonsainet.importing.tool import import_folder

        name, made, asked = os.fspath(path), None, program(BONSAI)
        try:
            if decisions is not None:
                made = decisions_in(os.fspath(decisions))
            report = import_folder(name, asked, made, Options.of(own_as, list(names_of(stubs)), False))
        except Refused as fault:
            raise FolderRefused(str(fault), tuple(fault.details)) from fault
        except NotAnswered as fault:
            raise error_of(fault.answer, name, "") from fault
        except OSError as fault:
            if fault.filename != asked.path:
                raise
            raise ProgramFailed(Status.NO_PROGRAM, str(fault)) from fault
        return cls.of_import(report, name)

    @classmethod
    def of_import(cls, report: Report, name: str) -> Network:
        """The network that an import came to. ImportRefused where lines are left to a person."""
        if report.folder.log.refusals:
            raise ImportRefused(name, report)
        return cls(report.folder.text, name, report)

    def write(self, path: FilePath) -> None:
        """Writes the text to a file. OSError where that cannot be written."""
        Path(path).write_bytes(self.raw)

    @functools.cached_property
    def raw(self) -> bytes:
        """The bytes of the text."""
        return bytes_of(self.text)

    @functools.cached_property
    def parsed(self) -> Parsed:
        """What the lines say: devices, links and origins, each with its lines. A line has its place in the text, or in the
        folder that was imported."""
        if self.report:
            return Parsed([device_of(router) for router in self.report.folder.routers])
        return read_network(self.text, self.name)

    @functools.cached_property
    def routers(self) -> tuple[str, ...]:
        """The names of the routers, in the order of the text."""
        return tuple(device.name for device in self.parsed.devices)

    @functools.cached_property
    def classes(self) -> tuple[DestClass, ...]:
        """The classes of destination prefixes, in order."""
        return tuple(DestClass.of(self, found) for found in self._listed)

    @functools.cached_property
    def _listed(self) -> list[Class]:
        return _classes_of(self)

    @property
    def is_bgp(self) -> bool:
        """Whether classes have routes of BGP: in OSPF the program lists each originator with its cost."""
        return any(cost is None for found in self._listed for _, cost in found.origins)

    @functools.cached_property
    def _by_prefix(self) -> dict[IPv4Network, DestClass]:
        return {IPv4Network(prefix): found for found in self.classes for prefix in found.prefixes}

    @property
    def ask(self) -> AllQuestions:
        """Questions about every stable solution of all classes, each with an answer for each class."""
        return AllQuestions(self)

    def without(self, *down: str) -> AllQuestions:
        """The same questions with routers `A` and links `A:B` down."""
        return AllQuestions(self, down)

    def failing(self, what: Literal["links", "routers"], down: Iterable[str] = ()) -> AllQuestions:
        """The same questions, each asked again without each one link or router more than those that are down."""
        return AllQuestions(self, names_of(down), what)

    def replies(self, questions: str) -> tuple[Reply, ...]:
        """What is said to the lines of a file of questions, as the page ASKING has them: each has a class, what is down, and
        a question or `count`. WordsRefused where a line is not of its form."""
        said = call(ASK, ["F", "questions", "S"], self.text, self.name, questions, IS_DONE)
        words = {one.line: one.words for one in questions_of(bytes_of(questions))}
        reports = [report for report in read(reports_of, said) if report.line is not None]
        if [report.line for report in reports] != list(words):
            raise ProgramFailed(said.status, "the program did not answer each question")
        return tuple(_reply(report.line, words[report.line], report.parts) for report in reports if report.line)

    def groups(self) -> Iterator[tuple[DestClass, tuple[Group, ...]]]:
        """The groups of each class, as `DestClass.groups` gives them. Processes share the classes."""
        for found, frame in self._each("groups"):
            if frame.refusal is not None:
                raise error_of(Said(frame.status, b"", frame.written), self.name, self.text)
            yield found, tuple(read(groups_of, Said(frame.status, frame.written, b"")))

    def compressed(self) -> Iterator[tuple[DestClass, Network | None]]:
        """The compressed network of each class, as `DestClass.compress` gives it, none where the program refuses that.
        Processes share the classes, and few networks are in memory at a time."""
        for found, frame in self._each("compress"):
            name = f"class {found.number} of {self.name}"
            yield found, Network(frame.text, name) if frame.refusal is None else None

    def _each(self, command: str) -> Iterator[tuple[DestClass, Frame]]:
        with errors_of(self.name, self.text):
            for (frame,) in frames_of(self.text, [command], [one.number for one in self.classes]):
                yield self.classes[frame.number - 1], frame

    def class_of(self, wanted: int | str | IPv4Address | IPv4Network) -> DestClass:
        """The class of a number, the one that has a prefix, or the one with the longest prefix around an address.
        ClassNotFound where there is none."""
        number = int(wanted) if isinstance(wanted, str) and NUMBER.fullmatch(wanted) else wanted
        found = self._numbered(number) if isinstance(number, int) else self._around(wanted)
        if found is None:
            raise ClassNotFound(wanted)
        return found

    def _numbered(self, number: int) -> DestClass | None:
        return self.classes[number - 1] if 1 <= number <= len(self.classes) else None

    def _around(self, wanted: object) -> DestClass | None:
        """The class that has a prefix, or the longest prefix around an address."""
        try:
            prefix = IPv4Network(str(wanted), strict=False)
        except ValueError:
            return None
        if isinstance(wanted, IPv4Network) or "/" in str(wanted):
            return self._by_prefix.get(prefix)
        around = (prefix.supernet(new_prefix=length) for length in range(LONGEST_PREFIX, -1, -1))
        return next((self._by_prefix[one] for one in around if one in self._by_prefix), None)

    def frame(self, what: Literal["classes", "groups"] = "classes") -> pandas.DataFrame:
        """A table of pandas: `classes`, with a row for each class, its prefixes and origins, and its sizes before and after
        compression; or `groups`, with a row for each class and router, and the group of the router. ModuleNotFoundError
        where pandas is not installed."""
        import pandas

        if what == "groups":
            members = [
                {"class": found.number, "router": name, "group": group.number, "is_origin": group.is_origin}
                for found, groups in self.groups()
                for group in groups
                for name in group.members
            ]
            return pandas.DataFrame(members, columns=["class", "router", "group", "is_origin"])
        if what != "classes":
            raise ValueError(f"no frame {what!r}: there are 'classes' and 'groups'")
        sizes = read(sizes_of, call(BONSAI, ["summary", "F"], self.text, self.name))
        if [size.number for size in sizes] != [found.number for found in self.classes]:
            raise ProgramFailed(Status.DONE, "the program did not give the sizes of each class")
        rows: list[dict[str, Any]] = [
            {
                "class": found.number,
                "prefixes": found.prefixes,
                "origins": found.origins,
                "routers": size.routers,
                "links": size.links,
                "groups": size.groups,
                "group_links": size.links_after,
            }
            for found, size in zip(self.classes, sizes)
        ]
        return pandas.DataFrame(rows, columns=COLUMNS).set_index("class")


def judge(networks: Iterable[Network]) -> None:
    """Judges networks, all at the same time. TextRefused for the first whose text the program does not accept."""
    left = [network for network in networks if "_listed" not in vars(network)]
    for network, listed in zip(left, side_by_side(_classes_of, left)):
        # (a cached property is found out of one network at a time)
        vars(network)["_listed"] = listed


def _classes_of(network: Network) -> list[Class]:
    said = call(BONSAI, ["classes", "F"], network.text, network.name)
    made = read(classes_of, said)
    if [found.number for found in made] != list(range(1, len(made) + 1)):
        raise ProgramFailed(said.status, "the program did not count the classes from 1")
    return made


def _reply(line: int, words: tuple[str, ...], parts: tuple[Part, ...]) -> Reply:
    answers = tuple(Answer.of(words, part) for part in parts if isinstance(part, ClassAnswer))
    return Reply(line, words, answers, tuple(part.solutions for part in parts if isinstance(part, Count)))
