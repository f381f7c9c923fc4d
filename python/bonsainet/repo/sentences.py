"""`dev/sentences`: the prose of the pages has one sentence a line, and no line of it is longer than WIDTH.

So a change of one sentence is a change of its lines alone. A sentence that is longer than a line goes on in the next one, behind a
clause where there is one. Tables, code and headings are left as they are, and what tools write between marks is theirs to write so.
"""
from __future__ import annotations

import re
from collections.abc import Iterator
from pathlib import Path

from bonsainet.ask.program import TOP
from bonsainet.cli.command_line import Refused, parser
from bonsainet.repo.pages import pages

WIDTH = 160
SHORTEST = 60
MARKED = re.compile(
    r"<!-- (?!.*: end -->)[^\n]*(?:this table is written by|writes this|: begin -->|measured: |rounds: )"
)
END = re.compile(r"<!-- [^\n]*end -->")
ITEM = re.compile(r"( *(?:[-*]|\d+\.) +)(.*)")
# What is not broken, and has no end of a sentence in it: code, links, and what is bold.
WHOLE = re.compile(r"`[^`]+`|\]\([^)]*\)|<[^>]+>")
SENTENCE = re.compile(r"(?<=[.!?])[*)\"]*( +)(?=[A-Z`*\[(\"0-9_<])")
# (a number that opens a paragraph, short words, points that leave something out)
NO_END = re.compile(r"^\**\d+\.$|(?:^|[ *(])(?:e\.g|i\.e|cf|vs|No|\.)\.$")
LEAD = re.compile(r"^\*\*[^*]{1,40}\*\*$")


def masked(text: str) -> str:
    """The text with letters alone where it must not be broken."""
    return WHOLE.sub(lambda found: "X" * len(found[0]), text)


def sentences(text: str) -> list[str]:
    """The sentences of a paragraph. A few bold words that open it stay with the sentence behind them."""
    found, start = [], 0
    shape = masked(text)
    for gap in SENTENCE.finditer(shape):
        part = text[start : gap.start(1)]
        if not NO_END.search(shape[start : gap.start(1)]) and not LEAD.match(part):
            found.append(part)
            start = gap.end(1)
    return [*found, text[start:]]


def wrapped(sentence: str, width: int) -> Iterator[str]:
    """The lines of a sentence: behind a clause, or else between words."""
    while len(sentence) > width:
        shape = masked(sentence)[: width + 1]
        cuts = [shape.rfind("; ") + 1, shape.rfind(": ") + 1, shape.rfind(", ") + 1, shape.rfind(" (")]
        at = next((cut for cut in cuts if cut >= SHORTEST), shape.rfind(" "))
        if at <= 0:
            break
        yield sentence[:at].rstrip()
        sentence = sentence[at:].lstrip()
    yield sentence


def formed(page: str) -> str:
    """The page with one sentence a line."""
    made: list[str] = []
    paragraph: list[str] = []
    head = ""

    def close() -> None:
        nonlocal head
        if paragraph:
            rest = " " * len(head)
            told = [line for it in sentences(" ".join(paragraph)) for line in wrapped(it, WIDTH - len(head))]
            made.extend((head if not number else rest) + line for number, line in enumerate(told))
        paragraph.clear()
        head = ""

    is_code = is_marked = False
    for line in page.splitlines():
        if is_code or is_marked or line.startswith("```") or MARKED.match(line):
            close()
            made.append(line)
            is_code ^= line.startswith("```") and not is_marked
            is_marked = not END.match(line) and (is_marked or bool(MARKED.match(line)) and not is_code)
        elif not line.strip() or line.startswith(("|", "#", "!", "<")):
            close()
            made.append(line)
        elif item := ITEM.fullmatch(line):
            close()
            head = item[1]
            paragraph.append(item[2].strip())
        else:
            paragraph.append(line.strip())
    close()
    return "\n".join(made) + "\n"


def faults(name: str, page: str) -> list[str]:
    """Lines of a page that are too long, or have more than one sentence."""
    found, is_code = [], False
    for number, line in enumerate(page.splitlines(), 1):
        is_code ^= line.startswith("```")
        if is_code or line.startswith(("|", "#", "!", "<", "```")):
            continue
        if len(line) > WIDTH:
            found.append(f"{name}:{number}: {len(line)} columns, and {WIDTH} is the most")
        elif len(sentences(re.sub(r"^ *(?:[-*]|\d+\.) +", "", line))) > 1:
            found.append(f"{name}:{number}: more than one sentence in a line")
    return found


def every() -> list[str]:
    """The pages that are held to it."""
    return [*pages(), "CHANGELOG.md", "hostile/README.md"]


def main(words: list[str] | None = None) -> None:
    """The command line of dev/sentences."""
    made = parser("sentences", (__doc__ or "").partition("\n\n")[0].replace("\n", " "))
    made.add_argument("--write", action="store_true", help="write the pages so")
    made.add_argument("pages", nargs="*", metavar="PAGE", help="pages, by their places (default: all)")
    given = made.parse_args(words)
    told: list[str] = []
    for name in given.pages or every():
        path = Path(TOP, name)
        page = path.read_text("utf-8")
        if given.write:
            path.write_text(formed(page), "utf-8")
        else:
            told += faults(name, page)
    if told:
        raise Refused("dev/sentences --write writes one sentence a line", told)
