"""What `bench/tools` measures: networks, the commands that are run over each, and how long each is meant to take."""
from __future__ import annotations

import dataclasses
from collections.abc import Callable
from pathlib import Path

from bonsainet.bench.imports import FOLDERS, QUICK
from bonsainet.nets.fat_tree import fat_tree_text

TEXT, FOLDER, MADE = "F", "FOLDER", "DIR"
"""In a command: the text, the folder that is imported, and a folder that is not there before the run."""

GROUPS = "bonsai groups F 1"


@dataclasses.dataclass(frozen=True)
class Command:
    """A command as a person types it, and the seconds of the clock that it is meant to take at most. They count from those
    of the command `above`, which is run over the same network."""

    words: str
    goal: float | None = None
    above: str = ""

    @property
    def tool(self) -> str:
        """The tool, or the program, that it runs."""
        return self.words.split()[0]


@dataclasses.dataclass(frozen=True)
class Plan:
    """Commands over one network. `write` puts the network into a folder, as a text or as running configurations; `unit` is
    what its size counts."""

    network: str
    unit: str
    write: Callable[[Path], object]
    commands: tuple[Command, ...]

    def size(self, room: Path) -> int:
        """The size of what was written."""
        if self.unit == "files":
            return sum(1 for _ in room.iterdir())
        return (room / TEXT).read_text("ascii").count("hostname ")


def fat_tree(size: int) -> Callable[[Path], object]:
    """The function that writes the text of a fat tree."""
    return lambda room: (room / TEXT).write_text(fat_tree_text(size), "ascii")


OF_LARGE = (
    Command(GROUPS),
    Command("bonsai-draw F 1", 0.6, above=GROUPS),
    Command("bonsai-page F", 5.0),
    Command("bonsai-doubts F", 10.0),
)
OF_LARGEST = (Command("bonsai-every F DIR", 2.0), Command("bonsai-json F --class 1", 2.0), Command("bonsai-json F"))
OF_FOLDERS = ((Command("bonsai-import FOLDER", 6.0),), (Command("bonsai-import FOLDER", 30.0),))
TOOLS = tuple(dict.fromkeys(one.tool for one in (*OF_LARGE[1:], *OF_LARGEST, *OF_FOLDERS[0])))


def plans(is_quick: bool = False) -> tuple[Plan, ...]:
    """What is measured: fat trees of 500 and 2,000 routers, and the folders of `bench/imports`. To try it, small ones, for
    which there are no goals."""
    large, largest = (4, 8) if is_quick else (20, 40)
    made = (
        Plan("fat tree", "routers", fat_tree(large), OF_LARGE),
        Plan("fat tree", "routers", fat_tree(largest), OF_LARGEST),
        *(
            Plan(folder.name, "files", folder.write, commands)
            for folder, commands in zip(QUICK if is_quick else FOLDERS, OF_FOLDERS, strict=True)
        ),
    )
    return tuple(map(without_goals, made)) if is_quick else made


def without_goals(plan: Plan) -> Plan:
    """The plan without what its commands are meant to take."""
    return dataclasses.replace(plan, commands=tuple(dataclasses.replace(one, goal=None) for one in plan.commands))


def chosen(plan: Plan, tools: list[str] | None) -> Plan:
    """The plan with the commands of some tools, and those from which their goals count."""
    if not tools:
        return plan
    above = {one.above for one in plan.commands if one.tool in tools}
    wanted = tuple(one for one in plan.commands if one.tool in tools or one.words in above)
    return dataclasses.replace(plan, commands=wanted)
