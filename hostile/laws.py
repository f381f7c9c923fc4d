"""Laws between commands, tried on texts without any judge: the rounds of docs/use/WORKFLOW.md."""
from __future__ import annotations

import random
import re

from hostile import permutations
from hostile.asking import Asked, has_canon
from hostile.compare import Difference
from bonsainet.ask.program import Answer, classes_of, groups_of

ROUNDS = b"*\n" * 12


class Rounds:
    """The laws over one text and one class."""

    def __init__(self, asked: Asked, text: bytes, seed: int) -> None:
        self.ask, self.text, self.program = asked.ask, text, asked.program
        self.chance = random.Random(seed)
        self.found: list[Difference] = []

    def law(self, name: str, holds: bool, *seen: Answer) -> None:
        """Notes a law that does not hold."""
        if not holds:
            self.found.append(
                Difference(
                    f"law-{name}", "the law", "\n".join(f"status {one.status} {one.reason}\n{one.text}" for one in seen)
                )
            )

    def run(self) -> list[Difference]:
        """All laws over one class."""
        listed = self.ask(self.text, "classes")
        if listed.status or not listed.out:
            return self.found
        chosen = self.chance.choice(classes_of(listed.text))
        small = self.ask(self.text, "compress", str(chosen.number))
        self.the_same_network(listed)
        self.carried_up_and_down(self.text, str(chosen.number))
        if not small.status:
            self.compressed(small, chosen.number, set(chosen.prefixes), "compress")
        if has_canon(self.program):
            self.canonical(small, chosen.number, set(chosen.prefixes))
        return self.found

    def compressed(self, small: Answer, number: int, prefixes: set[str], command: str) -> str | None:
        """What is compressed is read, has these groups, gains nothing by compressing, and judges as `lift` does. Gives
        its number of the class."""
        kind = {"compress": "compressed", "canon": "canonical"}[command]
        again = self.ask(small.out, "classes")
        below = [one for one in classes_of(again.text) if prefixes <= set(one.prefixes)] if not again.status else []
        self.law(f"{kind}-is-read", len(below) == 1, small, again)
        if not below:
            return None
        place, word = str(below[0].number), str(number)
        parts = self.ask(small.out, "groups", place)
        self.law(f"{kind}-again", all(len(group.members) == 1 for group in groups_of(parts.text)), small, parts)
        if b"router bgp" in small.out:
            twice = self.ask(small.out, command, place)
            self.law(f"{kind}-twice", _without_notes(twice.out) == _without_notes(small.out), small, twice)
        ran = self.ask(small.out, "run", place, "S", S=ROUNDS)
        labels = ran.out.partition(b"\n")[2]
        judged, lifted = self.ask(small.out, "check", place, "S", S=labels), self.ask(
            self.text, "lift", word, "S", S=labels
        )
        self.law(
            f"check-{kind}-is-lift", (judged.status, judged.reason) == (lifted.status, lifted.reason), judged, lifted
        )
        if not lifted.status:
            self.law(
                f"lifted-from-{kind}-is-stable",
                self.ask(self.text, "check", word, "S", S=lifted.out).out == b"stable\n",
                lifted,
            )
        above = self.ask(self.text, "run", word, "S", S=ROUNDS).out.partition(b"\n")[2]
        folded = self.ask(self.text, "fold", word, "S", S=above)
        if not folded.status:
            self.law(
                f"folded-is-stable-in-{kind}",
                self.ask(small.out, "check", place, "S", S=folded.out).out == b"stable\n",
                folded,
            )
        return place

    def canonical(self, small: Answer, number: int, prefixes: set[str]) -> None:
        """`canon` writes the groups of `compress`, the same where policies are written otherwise, and in OSPF its
        bytes; of what is compressed it writes the same."""
        made = self.ask(self.text, "canon", str(number))
        other = self.ask(permutations.rewritten(self.chance, self.text), "canon", str(number))
        self.law("canon-of-rewritten", _without_line(made) == _without_line(other), made, other)
        if "NoCanon" in made.reason:
            return
        if made.status or small.status or b"router bgp" not in made.out:
            self.law(
                "canon-is-compress",
                (made.status, made.reason, made.out) == (small.status, small.reason, small.out),
                made,
                small,
            )
            return
        self.law("canon-has-the-groups", _members(made.out) == _members(small.out), made, small)
        self.compressed(made, number, prefixes, "canon")
        below = [one for one in classes_of(self.ask(small.out, "classes").text) if prefixes <= set(one.prefixes)]
        again = self.ask(small.out, "canon", str(below[0].number)) if below else small
        self.law("canon-of-compressed", _without_notes(again.out) == _without_notes(made.out), made, again)

    def carried_up_and_down(self, text: bytes, word: str) -> None:
        """`fold` is done where `check` says stable; what is folded is lifted; what is reached rests; certified,
        verified."""
        above = self.ask(text, "run", word, "S", S=ROUNDS)
        labels = above.out.partition(b"\n")[2]
        judged, folded = self.ask(text, "check", word, "S", S=labels), self.ask(text, "fold", word, "S", S=labels)
        self.law("rest-is-stable", above.text.startswith("rest\n") == (judged.out == b"stable\n"), above, judged)
        self.law("check-is-fold", (judged.status, judged.reason) == (folded.status, folded.reason), judged, folded)
        if not folded.status:
            lifted = self.ask(text, "lift", word, "S", S=folded.out)
            self.law("folded-is-lifted", not lifted.status, folded, lifted)
            order = self.ask(text, "reach", word, "S", S=labels)
            self.law("reached-rests", self.ask(text, "run", word, "S", S=order.out).text.startswith("rest\n"), order)
        made = self.ask(text, "certify", word)
        self.law("certified-is-verified", self.ask(text, "verify", word, "S", S=made.out).out == b"yes\n", made)

    def the_same_network(self, listed: Answer) -> None:
        """Routers in another order, under other names or numbers, or with lines moved: the same classes and groups up
        to that."""
        how = self.chance.choice(["permuted", "renamed", "renumbered", "moved-lines", "rewritten"])
        change: dict[str, str] = {}
        if how == "permuted":
            other = permutations.reordered(self.chance, self.text)
        elif how == "renamed":
            other, change = permutations.renamed(self.chance, self.text)
        elif how == "renumbered":
            other = permutations.renumbered(self.chance, self.text)
        elif how == "rewritten":
            other = permutations.rewritten(self.chance, self.text)
        else:
            other = permutations.moved(self.chance, self.text)
        again = self.ask(other, "classes")
        plain = [
            (one.number, one.prefixes, frozenset((change.get(name, name), cost) for name, cost in one.origins))
            for one in classes_of(listed.text)
        ]
        same = not again.status and plain == [
            (one.number, one.prefixes, frozenset(one.origins)) for one in classes_of(again.text)
        ]
        self.law(f"{how}-classes", same, listed, again)
        word = str(self.chance.randint(1, len(plain)))
        first, second = self.ask(self.text, "groups", word), self.ask(other, "groups", word)
        parts = {frozenset(change.get(name, name) for name in group.members) for group in groups_of(first.text)}
        self.law(
            f"{how}-groups", parts == {frozenset(group.members) for group in groups_of(second.text)}, first, second
        )


def _without_notes(text: bytes) -> list[bytes]:
    return [line for line in text.split(b"\n") if not line.startswith(b"! member")]


def _without_line(answer: Answer) -> tuple[int, str, bytes]:
    """An answer without the line that a refusal names: a text that is written otherwise has other lines."""
    return answer.status, re.sub(r"\bline [0-9]+: ", "", answer.reason), answer.out


def _members(text: bytes) -> list[bytes]:
    return [line for line in text.split(b"\n") if line.startswith((b"hostname", b"! member"))]


def broken(asked: Asked, text: bytes, seed: int) -> list[Difference]:
    """The laws that do not hold over a text, one class of it."""
    return Rounds(asked, text, seed).run()
