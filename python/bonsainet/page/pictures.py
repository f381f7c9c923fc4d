"""The pictures of the page: those of classes, and that of the large network."""
from __future__ import annotations

import dataclasses
import html
import re
from collections import Counter
from collections.abc import Hashable, Iterator, Sequence

from bonsainet.ask.program import Group
from bonsainet.ask.shares import side_by_side
from bonsainet.configs.compressed import Asked, Compressed
from bonsainet.drawing.graph import Edge, Graph, Node, large, small
from bonsainet.drawing.layout import NotLaidOut, label_of, laid_out, picture
from bonsainet.drawing.tool import LINKS_DRAWN, ROUTERS_DRAWN, graphs

GROUPS_DRAWN = 60
EDGES_DRAWN = 240
DIGITS = str.maketrans("0123456789", "0000000000")
TEXT = re.compile(r"(<text [^>]*>)([^<]*)(?=</text>)")

Drawn = tuple[str, str]
"""A picture, or in words why there is none."""


class Pictures:
    """Who draws the classes of a text. Classes that look alike except for the digits of routers' names are laid out once."""

    def __init__(self, text: Asked) -> None:
        self.text = text
        self.of_look: dict[Hashable, tuple[list[str], Drawn]] = {}

    def each(self, found: Sequence[Compressed]) -> list[Drawn]:
        """The pictures of some classes."""
        left_out = [why_left_out(each) for each in found]
        sides = [[] if why else self._sides(each) for each, why in zip(found, left_out)]
        looks = [tuple(map(_look, graphs_of)) for graphs_of in sides]
        new = {look: at for at, look in reversed([*enumerate(looks)]) if look and look not in self.of_look}
        # (one run of Graphviz for many pictures would take a tenth of the time; version 2.43 crashes on some)
        made = side_by_side(lambda at: _drawn(sides[at], found[at]), new.values())
        for (look, at), drawn in zip(new.items(), made):
            self.of_look[look] = [*_lines(sides[at])], drawn
        return [
            ("", why) if why else self._renamed(look, [*_lines(graphs_of)], graphs_of, each)
            for why, look, graphs_of, each in zip(left_out, looks, sides, found)
        ]

    def _sides(self, found: Compressed) -> list[Graph]:
        return graphs(self.text, found) if is_too_large(self.text) else [small(found)]

    def _renamed(self, look: Hashable, lines: list[str], sides: list[Graph], found: Compressed) -> Drawn:
        """The picture of a look with other names."""
        first, (drawn, left_out) = self.of_look[look]
        names = dict(zip(first, lines, strict=True))
        if any(names[one] != other for one, other in zip(first, lines)):
            # (a line that stands for two others would not say which)
            return _drawn(sides, found)
        return TEXT.sub(lambda text: text[1] + _with_names(text[2], names), drawn), left_out


def why_left_out(found: Compressed) -> str:
    """Why a class has no picture, or nothing."""
    if found.refusal:
        return f"compress refuses this class: {found.refusal}"
    if len(found.groups) > GROUPS_DRAWN or found.size.links_after > EDGES_DRAWN:
        return f"more than {GROUPS_DRAWN} groups or {EDGES_DRAWN} links: `bonsai-draw F {found.number}` draws them"
    return ""


def _drawn(sides: list[Graph], found: Compressed) -> Drawn:
    try:
        return inline(laid_out(picture(sides, "", found.groups, has_key=False), "svg").decode()), ""
    except NotLaidOut as fault:
        return "", str(fault)


def _look(graph: Graph) -> Hashable:
    """All of a graph except for the digits of routers' names."""
    place = {node.name: at for at, node in enumerate(graph.nodes)}
    nodes = tuple(
        (node.group.is_origin, node.group.is_lone, len(node.members), label_of(node).translate(DIGITS))
        for node in graph.nodes
    )
    edges = tuple(
        (
            dataclasses.replace(edge, low="", high="", policies=()),
            place[edge.low],
            place[edge.high],
            tuple((place[name], told) for name, told in _policies(edge)),
        )
        for edge in graph.edges
    )
    return graph.side, graph.title, nodes, edges


def _policies(edge: Edge) -> Iterator[tuple[str, str]]:
    """The routers that take routes over a link, and what is done to these."""
    for policy in edge.policies:
        name, _, told = policy.partition(": ")
        yield name, told


def _lines(sides: Sequence[Graph]) -> Iterator[str]:
    """The lines of the picture in which routers are named."""
    for graph in sides:
        for node in graph.nodes:
            yield from label_of(node).split("\\n")
        for edge in graph.edges:
            yield from edge.policies
            yield from (f"{edge.low}: {edge.at_low}", f"{edge.high}: {edge.at_high}")


def _with_names(written: str, names: dict[str, str]) -> str:
    """A line of a picture with the names of another class."""
    line = html.unescape(written)
    named = names.get(line.strip())
    return written if named is None else html.escape(line.replace(line.strip(), named))


def large_picture(text: Asked, first: Compressed | None) -> str:
    """The large network, laid out once for all classes and coloured by the page. Empty where it is too large for that.

    The routers with fewest links are below, the others by their distance from these; a network without such layers is
    laid out by springs.
    """
    if not first or is_too_large(text):
        return ""
    graph = large(
        text.network, dataclasses.replace(first, groups=[Group(1, False, False, tuple(text.network.by_name))])
    )
    degree = Counter(name for edge in graph.edges for name in (edge.low, edge.high))
    fewest = min((degree[node.name] for node in graph.nodes), default=0)
    graph.nodes = [
        Node(node.name, Group(at, degree[node.name] == fewest, False, (node.name,)), node.members)
        for at, node in enumerate(graph.nodes, 1)
    ]
    graph.title = ""
    drawn = picture([graph], "", [node.group for node in graph.nodes], has_key=False)
    drawn.body = [line.replace("peripheries=2", "peripheries=1").replace('"#bbbbbb"', "white") for line in drawn.body]
    drawn.attr(rankdir="BT")
    if not _has_layers(graph):
        drawn.engine = "neato"
        drawn.attr(overlap="false", splines="true", start="1", len="1.6")
    try:
        return inline(laid_out(drawn, "svg").decode())
    except NotLaidOut:
        return ""


def _has_layers(graph: Graph) -> bool:
    """Whether few links join routers of one layer."""
    layers = graph.layers()
    return sum(layers[edge.low] == layers[edge.high] for edge in graph.edges) * 4 <= len(graph.edges)


def is_too_large(text: Asked) -> bool:
    return len(text.network.devices) > ROUTERS_DRAWN or len(text.network.links) > LINKS_DRAWN


def inline(drawn: str) -> str:
    """A picture without what the page says elsewhere: prologue, comments, tooltips, and what its style sheet gives."""
    drawn = drawn[drawn.index("<svg") :]
    drawn = re.sub(r"<!--.*?-->\n?|<title>[^<]*</title>\n?|<a [^>]*>\n?|</a>\n?", "", drawn, flags=re.S)
    drawn = re.sub(r' text-anchor="middle"| font-family="[^"]*"| id="[^"]*"| xmlns:xlink="[^"]*"', "", drawn)
    drawn = re.sub(r"<g>\n?(.*?)</g>\n</g>", r"\1</g>", drawn, flags=re.S)
    drawn = re.sub(r"<[^>]*>", lambda tag: re.sub(r"(\d+)\.\d+", r"\1", tag[0]), drawn).replace("&#45;", "-")
    return re.sub(r'<path (fill="[^"]*" stroke="[^"]*"(?: stroke-dasharray="[^"]*")?) d="([^"]*)"/>', _rectangle, drawn)


def _rectangle(path: re.Match[str]) -> str:
    """A box with round corners, which Graphviz writes as a path of curves, as a rectangle; links stay paths."""
    points = [tuple(map(int, point.split(","))) for point in re.findall(r"-?\d+,-?\d+", path[2])]
    if points[0] != points[-1]:
        return path[0]
    across, down = zip(*points)
    width, height = max(across) - min(across), max(down) - min(down)
    return f'<rect {path[1]} x="{min(across)}" y="{min(down)}" width="{width}" height="{height}" rx="6"/>'
