"""What terminals, banners and certificates put among the lines of a configuration, and how it is taken out."""
from __future__ import annotations

import re
from collections.abc import Iterator

from bonsainet.cli.command_line import Refused
from bonsainet.importing.rule import Log, rule
from bonsainet.configs.text import Line

PAGING = rule(
    "paging", "a terminal printed this between two pages", "Cisco IOS Configuration Fundamentals, `terminal length`"
)
PROMPT = rule(
    "prompt",
    "a prompt, or a command typed after it, is no line of the configuration",
    "Cisco IOS Configuration Fundamentals",
)
BANNER = rule(
    "banner", "a banner is text for people, up to its delimiter", "Cisco IOS Configuration Fundamentals, `banner`"
)
CERTIFICATE = rule(
    "certificate", "the bytes of a certificate are no lines", "Cisco IOS Security, `crypto pki certificate chain`"
)
CHARACTERS = rule(
    "characters",
    "a text for people may have any bytes; those outside ASCII become `?`",
    "the profile takes ASCII alone",
)
LONG_LINE = rule(
    "long-line", "a text for people may be cut at 1,000 bytes", "the profile takes lines of at most 1,024 bytes"
)

PAGED = re.compile(r"-[\s-]*\(?[Mm]ore|\x08")
PAGED_SIGNS = ("more", "More", "\x08")
MORE = re.compile(r"^\s*<?-[\s-]*\(?[Mm]ore\b[^-]*-+>?\s*(?:\r|\x08|\x1b\[[0-9;]*[A-Za-z])*")
PROMPTED = re.compile(
    r"^[A-Za-z0-9][\w.-]*(?:/\w+)?(?:\([\w.-]+\))?[#>](?:\s*(?:sh|show|term|terminal|wr|write|more|exit|quit|logout|en|enable|copy)\b.*)?\s*$"
)
TYPED = re.compile(r"^(?:show|sh) (?:running-config|run)\b")
BANNER_HEAD = re.compile(
    r"^banner\s+(?:(?:motd|login|exec|incoming|prompt-timeout|slip-ppp|config-save)\s+)?(\^C|\x03|\S)(.*)$"
)
FREE_TEXT = (
    "description",
    "remark",
    "name",
    "snmp-server",
    "username",
    "location",
    "contact",
    "alias",
    "event",
    "action",
    "banner",
)
LONGEST = 1000
PLAIN = bytes([*b"\t\n", *range(0x20, 0x7F)])


def cleaned(lines: list[Line], text: str, log: Log, is_frr: bool) -> list[Line]:
    """The lines of a file, whose text this is by `text_behind`, without what is no line of a configuration. Each kind is
    looked for in the whole text first, as most files have few of them."""
    if any(sign in text for sign in PAGED_SIGNS) and PAGED.search(text):
        lines = list(_without_paging(lines, log))
        text = text_behind(lines)
    if not is_frr and "\nbanner" in text:
        lines = list(_without_banners(lines, log))
    if "#" in text or ">" in text or "\nsh" in text:
        lines = list(_without_prompts(lines, log))
    if "certificate" in text:
        lines = list(_without_certificates(lines, log))
    is_plain = _is_plain(text) and max([len(line.text) for line in lines], default=0) <= LONGEST
    return lines if is_plain else [_ascii(line, log) for line in lines]


def text_behind(lines: list[Line]) -> str:
    """The text of lines, with the end of a line before each."""
    return "\n".join(["", *[line.text for line in lines]])


def _is_plain(text: str) -> bool:
    """Whether a text has nothing but tabs, ends of lines, and the letters of ASCII that can be seen."""
    return text.isascii() and not text.encode("ascii").translate(None, PLAIN)


def _without_paging(lines: list[Line], log: Log) -> Iterator[Line]:
    for line in lines:
        text = line.text
        if "-" in text and "ore" in text:
            text = MORE.sub("", text)
        if "\b" in text:
            text = _typed_over(text)
        if text != line.text:
            log.by(line, PAGING)
            if text.strip():
                yield line.with_text(text)
        else:
            yield line


def _typed_over(text: str) -> str:
    """The text as a terminal shows it, where a backspace takes the letter before it."""
    shown: list[str] = []
    for letter in text:
        if letter != "\b":
            shown.append(letter)
        elif shown:
            shown.pop()
    return "".join(shown)


def _without_prompts(lines: list[Line], log: Log) -> Iterator[Line]:
    for line in lines:
        is_typed = ("#" in line.text or ">" in line.text) and PROMPTED.match(line.text)
        if is_typed or TYPED.match(line.text):
            log.by(line, PROMPT)
        else:
            yield line


def _without_banners(lines: list[Line], log: Log) -> Iterator[Line]:
    rest = iter(lines)
    for line in rest:
        head = BANNER_HEAD.match(line.text) if line.text.startswith("banner") else None
        if not head:
            yield line
            continue
        log.by(line, BANNER)
        end, told = head[1], head[2]
        if end in told or (end == "^C" and "\x03" in told):
            continue
        for inside in rest:
            log.by(inside, BANNER)
            if end in inside.text or (end == "^C" and "\x03" in inside.text):
                break
        else:
            raise Refused(f"{line.place}: no later line has the delimiter {end!r} of this banner")


def _without_certificates(lines: list[Line], log: Log) -> Iterator[Line]:
    is_inside = False
    for line in lines:
        words = line.words
        if is_inside and (line.is_indented or re.fullmatch(r"[0-9A-Fa-f ]+|quit", line.text.strip())):
            log.by(line, CERTIFICATE)
            is_inside = words != ["quit"]
            continue
        is_inside = words[:1] == ["certificate"] and line.is_indented
        yield line


def _ascii(line: Line, log: Log) -> Line:
    """The line with `?` for what is outside ASCII, and cut, where it has no bearing; others are refused."""
    text = line.text
    is_plain = _is_plain(text)
    if is_plain and len(text) <= LONGEST:
        return line
    if not is_free_text(line):
        log.refuse(
            line, "characters", "a line that can have a bearing on routes has bytes outside ASCII, or more than 1,000"
        )
        return line
    if not is_plain:
        log.by(line, CHARACTERS)
        text = "".join(letter if 0x20 <= ord(letter) < 0x7F or letter == "\t" else "?" for letter in text)
    if len(text) > LONGEST:
        log.by(line, LONG_LINE)
        text = text[:LONGEST]
    return line.with_text(text)


def is_free_text(line: Line) -> bool:
    """Whether the line is a text for people: a comment, a description, a remark or a name."""
    words = line.words
    return (
        line.is_blank
        or words[0] in FREE_TEXT
        or (words[0] == "neighbor" and words[2:3] == ["description"])
        or words[1:2] == ["remark"]
        or words[3:4] == ["remark"]
        or words[3:4] == ["description"]
    )
