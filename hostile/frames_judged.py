"""What `bonsai-all` writes, judged by the second reader: each frame as what the command must write of its class."""

from __future__ import annotations

import random
import re

from bonsainet.ask.program import Answer, Status
from hostile.asking import Asked, Asker, Counts
from hostile.compare import Comparison, Difference
from hostile.judge import answers
from hostile.judge.problem import Network

HEAD = re.compile(rb"class (\d{1,9}) (\d) (\d{1,9})\n")
LOST = -1
"""The status of a frame that is not there, or stands otherwise than it must."""


def frames_of(answer: Answer) -> dict[int, Answer]:
    """The frames of an output by their classes, as answers of one command. What does not follow a frame's head is left out."""
    found, at = {}, 0
    while head := HEAD.match(answer.out, at):
        number, status, size = map(int, head.groups())
        text = answer.out[head.end() : head.end() + size]
        found[number] = Answer(status, b"", text) if status else Answer(status, text, b"")
        at = head.end() + size
    return found if at == len(answer.out) else {}


class Framed(Asked):
    """Commands over the classes of one text, each answered by its frame. `bonsai-all` is called once for each command."""

    def __init__(self, every: Asker, count: int) -> None:
        super().__init__(every, Counts())
        self.count, self.calls = count, 0
        self.frames: dict[str, dict[int, Answer]] = {}

    def has_canon(self) -> bool:
        """As in each `bonsai-all`."""
        return True

    def ask(self, text: bytes, *words: str, S: bytes = b"") -> Answer:
        """The frame of a command's class."""
        command, number = words
        if command not in self.frames:
            answer = self.program.ask("F", command, texts={"F": text})
            self.calls += 1
            frames = frames_of(answer)
            wanted = Status.NOT_ALL if any(one.status for one in frames.values()) else Status.DONE
            is_whole = list(frames) == list(range(1, self.count + 1)) and answer.status == wanted and not answer.err
            self.frames[command] = frames if is_whole else {}
        answer = self.frames[command].get(int(number), Answer(LOST, b"", b"no frame"))
        self.counts.note(command, answer)
        return answer


def over_text(
    every: Asker, text: bytes, start: int, commands: tuple[str, ...]
) -> tuple[int, dict[str, int], list[Difference]]:
    """Asks all commands over one text: the calls, the frames by command, and what differs from what the reader finds. Of a text
    with many communities nothing is asked."""
    net = answers.read(text)
    if not isinstance(net, Network):
        return _refused(every, text, start, commands, net)
    if answers.has_many_communities(net):
        return 0, {}, []
    framed = Framed(every, len(net.classes))
    one = Comparison(framed, text, start)
    for number in range(1, len(net.classes) + 1):
        one.frames(net, number)
    return framed.calls, dict(framed.counts.commands), one.found


def _refused(
    every: Asker, text: bytes, start: int, commands: tuple[str, ...], wanted: answers.Expected
) -> tuple[int, dict[str, int], list[Difference]]:
    """Of a text that is refused each command has the refusal alone. One of them is asked."""
    command = random.Random(start).choice(commands)
    answer = every.ask("F", command, texts={"F": text})
    is_right = (answer.status, answer.reason, answer.out) == (wanted.status, wanted.reason, b"")
    told = f"status {answer.status} {answer.reason}\n{answer.text}"
    return 1, {"refused": 1}, [] if is_right else [Difference(command, wanted.reason, told)]
