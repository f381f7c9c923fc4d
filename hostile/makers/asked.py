"""Words for `bonsai-ask` over a network: right ones, and some that are wrong in a single place."""

from __future__ import annotations

import random

from hostile.judge.problem import Network
from hostile.judge.words import dotted

COMMUNITIES = ["1:1", "2:2", "9:9", "65538", "7:0"]
WELL_KNOWN = "no-export no-advertise 0 0:0 65535:0 65535:65281 4294967295 65534:65535 65536:1".split()
OF_CLASSES = "0 01 0-1 1-0 2-1 1- 1000000000 1-1000000000 10.0.0 10.0.0.0/33 10.0.0.1/24".split()
OF_HOPS = "01 1000000000 999999999 -1 1:1".split()
TASKS = ["count", "solutions", "forwards"]
UNKNOWN = 0.03
"""How many of the lists of routers have a name that no router has, where words may be wrong."""


class Maker:
    """Makes the words behind F, over the names and classes of a network."""

    def __init__(self, chance: random.Random, net: Network) -> None:
        self.chance, self.net = chance, net
        self.names = [router.name for router in net.routers]
        self.unknown = 0.0

    def words(self, may_be_wrong: bool = True) -> list[str]:
        """The words of one call."""
        self.unknown = UNKNOWN if may_be_wrong else 0.0
        made = [self._classes()]
        if self.chance.random() < 0.35:
            made += ["without", self._down()]
        how = self.chance.random()
        if how < 0.3:
            made.append(self.chance.choice(TASKS))
        else:
            made += ["failing", self.chance.choice(["links", "routers"])] if how < 0.45 else []
            made += self.question()
        return self._spoilt(made) if may_be_wrong and self.chance.random() < 0.08 else made

    def _classes(self) -> str:
        count = len(self.net.classes)
        how = self.chance.random()
        if how < 0.1 or not count:
            return self.chance.choice(["*", "1", "0", "99"]) if self.chance.random() < 0.3 else "*"
        one = self.chance.randint(1, count)
        if how < 0.6:
            return str(one)
        if how < 0.7:
            return f"{self.chance.randint(1, one)}-{one if self.chance.random() < 0.9 else count + 1}"
        base, length = self.chance.choice(self.net.classes[one - 1].prefixes)
        if how < 0.73 and self.unknown:
            return f"{dotted(base)}/{min(length + 1, 32)}"
        if how < 0.85:
            return f"{dotted(base + (self.chance.randrange(1 << (32 - length)) if length < 32 else 0))}/{length}"
        return dotted(base)

    def _some(self) -> str:
        if not self.names or self.chance.random() < 0.35:
            return "*"
        names = self.chance.sample(self.names, min(self.chance.choice([1, 1, 1, 2, 3]), len(self.names)))
        return ",".join([*names, "r99"] if self.chance.random() < self.unknown else names)

    def _down(self) -> str:
        items = []
        for _ in range(self.chance.choice([1, 1, 2])):
            if self.net.links and self.chance.random() < 0.7:
                low, high, _, _ = self.chance.choice(self.net.links)
                pair = [self.names[low], self.names[high]]
                self.chance.shuffle(pair)
                items.append(":".join(pair))
            else:
                items.append(self.chance.choice(self.names or ["a"]))
        if self.chance.random() < 0.05 and len(self.names) > 1:
            items.append(":".join(self.chance.sample(self.names, 2)))
        return ",".join(items)

    def question(self) -> list[str]:
        """The words of a question."""
        word = self.chance.choice(["route", "isolated", "hops", "through", "avoids", "carries", "lacks"])
        if word == "hops":
            return [word, str(self.chance.randint(0, 5)), self._some()]
        if word in ("through", "avoids"):
            return [word, self._some(), self._some()]
        if word in ("carries", "lacks"):
            return [word, self.chance.choice(COMMUNITIES), self._some()]
        return [word, self._some()]

    def file(self) -> bytes:
        """A file of questions: the words of some calls, with comments and empty lines between them, and blanks anywhere. One in
        three may have wrong words, since a file with some is refused whole."""
        lines: list[str] = []
        may_be_wrong = self.chance.random() < 0.33
        for _ in range(self.chance.randint(1, 7)):
            lines += self.chance.choice([[], [], [], [""], ["! a comment"], ["  \t"], ["!"]])
            blank = self.chance.choice([" ", " ", "  ", "\t"])
            start = self.chance.choice(["", "", "", " ", "\t"])
            lines.append(start + blank.join(self.words(may_be_wrong)) + self.chance.choice(["", "", " ", "\r"]))
        end = self.chance.choice(["\n", "\n", ""])
        return ("\n".join(lines) + end).encode()

    def _spoilt(self, made: list[str]) -> list[str]:
        at = self.chance.randrange(len(made))
        how = self.chance.random()
        if self.chance.random() < 0.4:
            return made[:at] + [self._misread(made[at - 1] if at else "", made[at])] + made[at + 1 :]
        if how < 0.2:
            return made[:at] + made[at + 1 :]
        if how < 0.3:
            turned = ":".join(reversed(made[at].split(":")))
            return made[:at] + [f"{made[at]},{turned}"] + made[at + 1 :]
        if how < 0.5:
            return made[:at] + [made[at] + self.chance.choice([",", "x", ":r9", "-", "0", ",r99"])] + made[at + 1 :]
        if how < 0.7:
            return [*made, self.chance.choice(["r1", "*", "count"])]
        return made[:at] + [self.chance.choice(["r99", "", "*", "1-0", "no-export", "links"])] + made[at + 1 :]

    def _misread(self, before: str, word: str) -> str:
        """A word for the place behind another one, which is of no form there, or is only just of one."""
        name = self.chance.choice(self.names or ["a"])
        down = ["{0}:{0}", "{0},{0}", "{0}:", ":{0}", "{0}:r99", "r99", "{1},r99:{0}"]
        elsewhere = ["{1},{0}", "{1},", ",{1}", "{0},r99", "{0}:{0}", "r99"]
        words = {"": OF_CLASSES, "without": down, "hops": OF_HOPS, "carries": WELL_KNOWN, "lacks": WELL_KNOWN}
        return self.chance.choice(words.get(before, elsewhere)).format(name, word)
