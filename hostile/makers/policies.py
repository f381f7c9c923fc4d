"""Random lists and route maps of a router. The word OWN stands for the router's AS number."""
from __future__ import annotations

import dataclasses
import random
import re

POOL = ["65000:1", "65000:2", "7", "300:300", "65534:65535", "1", "0:2"]
PREFIXES = ["10.0.0.0", "10.0.1.0", "10.9.0.0", "192.168.3.0", "0.0.0.0"]
LONG = "x" * 63


def communities(chance: random.Random) -> list[str]:
    """The communities that a text names: few, so that sets that maps compare meet."""
    return chance.sample(POOL, chance.choice([1, 1, 2, 2, 3, 4]))


@dataclasses.dataclass(frozen=True)
class Policy:
    """Lines of lists and maps, and the names by which neighbours use them."""

    lines: tuple[str, ...]
    prefix_list: str
    maps: dict[str, list[str]]

    @classmethod
    def made(cls, chance: random.Random, named: list[str]) -> Policy:
        """A prefix list, some community lists, a deletion list, and two maps for each direction."""
        own = LONG if chance.random() < 0.05 else "P"
        maps = {"in": ["IN", "IN2"], "out": ["OUT", "OUT2"]}
        lines = [*_prefix_list(chance, own), *_community_lists(chance, named)]
        for direction, names in maps.items():
            for name in names:
                lines += _map(chance, name, direction, named, own)
        return cls(tuple(lines), own, maps)

    def twisted(self, chance: random.Random) -> Policy:
        """The policy with one line turned so that it says nearly the same, or the same."""
        lines = list(self.lines)
        for place in chance.sample(range(len(lines)), len(lines)):
            turned = _turned(chance, lines[place])
            if turned is not None:
                lines[place] = turned
                break
        return dataclasses.replace(self, lines=tuple(lines))


def _turned(chance: random.Random, line: str) -> str | None:
    if line.endswith(" exact-match"):
        return line.removesuffix(" exact-match")
    if line.startswith(" match community"):
        return f"{line} exact-match"
    if line.endswith(" additive"):
        return line.removesuffix(" additive")
    if re.match(r" set community \d", line):
        return f"{line} additive"
    act = re.search(r" (permit|deny) ", line)
    if act and re.match(r"(ip|route-map)", line) and chance.random() < 0.5:
        return line.replace(act[1], "deny" if act[1] == "permit" else "permit", 1)
    if line.startswith(" set as-path prepend"):
        return f"{line} OWN"
    return None


def _prefix_list(chance: random.Random, name: str) -> list[str]:
    lines = []
    for sequence in (10, 5):
        length = chance.choice([8, 16, 24, 24, 25])
        least, most = sorted((chance.randint(length, 32), chance.randint(length, 32)))
        options = chance.choice(
            ["", f" le {most}", f" ge {least}", f" ge {least} le {most}", " le 24" if length <= 24 else "", " le 32"]
        )
        lines.append(
            f"ip prefix-list {name} seq {sequence} {chance.choice(['permit', 'permit', 'deny'])} {chance.choice(PREFIXES)}/{length}{options}"
        )
    return lines + ([f"ip prefix-list {name} seq 90 permit 0.0.0.0/0 le 32"] if chance.random() < 0.7 else [])


def _community_lists(chance: random.Random, named: list[str]) -> list[str]:
    lines = []
    for name in ("standard A", "7", "standard B"):
        for _ in range(chance.randint(1, 3)):
            lines.append(
                f"ip community-list {name} {chance.choice(['permit', 'permit', 'deny'])} {some(chance, named)}"
            )
    return [
        *lines,
        *(
            f"ip community-list standard D {chance.choice(['permit', 'permit', 'deny'])} {one}"
            for one in chance.sample(named, min(2, len(named)))
        ),
    ]


def some(chance: random.Random, named: list[str]) -> str:
    """One or more communities."""
    return " ".join(chance.sample(named, min(len(named), chance.choice([1, 1, 2, 3]))))


def _map(chance: random.Random, name: str, direction: str, named: list[str], prefix_list: str) -> list[str]:
    lines = []
    for sequence in chance.sample(range(0, 60, 10), chance.randint(1, 3)):
        lines.append(f"route-map {name} {chance.choice(['permit', 'permit', 'deny'])} {sequence}")
        lines += [f" match ip address prefix-list {prefix_list}"] if chance.random() < 0.15 else []
        if chance.random() < 0.7:
            lines.append(
                f" match community {chance.choice(['A', 'B', '7', 'A B', 'B 7'])}{chance.choice(['', ' exact-match'])}"
            )
        lines += _sets(chance, direction, named)
    return lines + ([f"route-map {name} permit 90", *_sets(chance, direction, named)] if chance.random() < 0.8 else [])


def _sets(chance: random.Random, direction: str, named: list[str]) -> list[str]:
    lines = []
    if chance.random() < (0.6 if direction == "out" else 0.4):
        lines.append(
            f" set community {chance.choice([some(chance, named), some(chance, named) + ' additive', 'none'])}"
        )
    lines += [" set comm-list D delete"] if chance.random() < 0.3 else []
    if chance.random() < 0.3:
        lines.append(
            f" set as-path prepend{' OWN' * chance.choice([1, 1, 2, 3, 10])}"
            if direction == "out"
            else f" set local-preference {chance.choice([100, 200, 200])}"
        )
    if direction == "out" and chance.random() < 0.05:
        lines.append(" set local-preference 300")
    return lines
