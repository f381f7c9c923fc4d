"""bonsai-draw: the network before and after compression as one picture."""
from __future__ import annotations

import argparse
import os
import struct
import zlib
from collections.abc import Callable
from typing import Any

import graphviz

from bonsainet.ask.accepted import a_class, add_text
from bonsainet.cli.command_line import Refused, name_of, one_line, parser, printable, read_input, write_output
from bonsainet.configs.compressed import Asked, Compressed, asked, class_said
from bonsainet.drawing.graph import Graph, large, large_by_groups, small
from bonsainet.drawing.layout import laid_out, picture
from bonsainet.ask.program import BONSAI, named
from bonsainet.ask.shares import side_by_side

ROUTERS_DRAWN = 150
LINKS_DRAWN = 600
FORMATS = ("dot", "svg", "png")


def words() -> argparse.ArgumentParser:
    """The words of the command line."""
    made = parser("bonsai-draw", "Draws a network before and after compression, the large one beside the small one.")
    add_text(made)
    made.add_argument(
        "number",
        metavar="N",
        type=a_class,
        help="the class: its number, as `bonsai classes F` counts it, a prefix of it, or an address",
    )
    made.add_argument(
        "-f", "--format", choices=FORMATS, help="what is written (default: by the name of the output, else svg)"
    )
    made.add_argument(
        "-o", "--output", metavar="FILE", default="-", help="where it is written (default: - for standard output)"
    )
    made.add_argument(
        "--part", choices=("both", "before", "after"), default="both", help="which network is drawn (default: both)"
    )
    by_groups = (
        f"draw the large network by groups and counts, as is done beyond {ROUTERS_DRAWN} routers or {LINKS_DRAWN} links"
    )
    made.add_argument("--by-groups", action="store_true", help=by_groups)
    return made


def main(argv: list[str] | None = None) -> None:
    """Runs the tool."""
    work(words().parse_args(argv))


def work(arguments: argparse.Namespace) -> None:
    """Draws what the words ask for."""
    form = arguments.format or format_of(arguments.output)
    program = named(BONSAI)
    raw, number = read_input(arguments.file), arguments.number
    works: list[Callable[[], Any]] = [
        lambda: asked(program, raw, name_of(arguments.file)),
        lambda: program.identity,
        # (a class that is named by its number is asked while the text is read)
        lambda: class_said(program, raw, number) if isinstance(number, int) else None,
    ]
    text, identity, said = side_by_side(lambda work: work(), works, len(works))
    found = text.compress(program, number, said)
    if found.refusal and arguments.part != "before":
        raise Refused(f"bonsai compress: {found.refusal}: the network before can be drawn with --part before")
    drawn = picture(graphs(text, found, arguments.part, arguments.by_groups), title(text, found), found.groups)
    write(drawn, form, arguments.output, arguments.file, f"bonsai-draw, by {identity.told}")


def graphs(text: Asked, found: Compressed, part: str = "both", by_groups: bool = False) -> list[Graph]:
    """The sides of a picture."""
    is_large = len(text.network.devices) > ROUTERS_DRAWN or len(text.network.links) > LINKS_DRAWN
    before = large_by_groups if by_groups or is_large else large
    sides = [before(text.network, found)] if part != "after" else []
    return sides + ([small(found)] if part != "before" else [])


def title(text: Asked, found: Compressed) -> str:
    """The name of the text, the class, and its first prefixes."""
    prefixes = found.found.prefixes
    shown = " ".join(prefixes[:4]) + (f" and {len(prefixes) - 4} more" if len(prefixes) > 4 else "")
    return f"{printable(text.name).rpartition('/')[2]}, class {found.number}: {shown}"


def format_of(output: str) -> str:
    """The format by the end of a name; svg where it has none. Another end is a wrong word."""
    end = os.path.splitext(output)[1][1:].lower()
    if end and end != "gv" and end not in FORMATS:
        words().error(
            one_line(
                f"{output}: no format has the end .{end}: .dot, .gv, .svg and .png have one, and --format gives it for any name"
            )
        )
    return "dot" if end == "gv" else end or "svg"


def write(drawn: graphviz.Graph, form: str, output: str, source: str = "-", told: str = "") -> None:
    """Writes a picture, with a comment that says where it comes from."""
    made = drawn.source.encode() if form == "dot" else laid_out(drawn, form)
    write_output(output, with_comment(made, form, told), source)


def with_comment(made: bytes, form: str, told: str) -> bytes:
    """A picture with a comment: of dot the last line, of SVG one before its text, of PNG a chunk of text before the last one."""
    comment = told.encode("ascii", "replace")
    if not comment:
        return made
    if form == "dot":
        return b"%b// %b\n" % (made, comment)
    if form == "svg":
        return made.replace(b"<svg", b"<!-- %b -->\n<svg" % comment.replace(b"--", b"-"), 1)
    chunk = b"tEXtComment\0" + comment
    whole = struct.pack(">I", len(chunk) - 4) + chunk + struct.pack(">I", zlib.crc32(chunk))
    at = made.rindex(b"IEND") - 4
    return made[:at] + whole + made[at:]
