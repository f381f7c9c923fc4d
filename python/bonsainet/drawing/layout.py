"""Graphs in the language of Graphviz: colours for groups, marks for originators and lone routers, layers by
distance."""
from __future__ import annotations

import shlex
import subprocess

import graphviz

from bonsainet.cli.command_line import Refused
from bonsainet.drawing.graph import Edge, Graph, Node
from bonsainet.ask.program import Group

FONT = "Helvetica"
COLORS = (
    "#8dd3c7",
    "#fdb462",
    "#bebada",
    "#fb8072",
    "#80b1d3",
    "#b3de69",
    "#fccde5",
    "#ffed6f",
    "#ccebc5",
    "#bc80bd",
    "#e5c494",
    "#a6cee3",
)
ALONE = "#ffffff"
CLOSED = "After: policies for this class alone, closed where none of its routes comes, and towards its originators."
NAMES_SHOWN = 6
COSTS_UP_TO = 60
# (Graphviz takes 16,384 bytes between quotes)
LONGEST_TIP = 2000
POLICIES_UP_TO = 12


class NotLaidOut(Refused):
    """Graphviz is there, and does not take a picture."""


def escaped(text: str) -> str:
    """A text that Graphviz draws letter by letter: neither its own escapes nor entities of SGML mean anything there."""
    return graphviz.escape(text.replace("&", "&amp;"))


def color_of(groups: list[Group]) -> dict[int, str]:
    """A colour for each group of several routers, and white for the others."""
    found, used = {}, 0
    for group in groups:
        found[group.number] = ALONE
        if len(group.members) > 1:
            found[group.number] = _color(used)
            used += 1
    return found


def _color(place: int) -> str:
    """The colours of the list first, and then pale ones of ever new hues."""
    if place < len(COLORS):
        return COLORS[place]
    import colorsys

    red, green, blue = colorsys.hsv_to_rgb(place * 0.618034 % 1, 0.4, 0.95)
    return f"#{round(red * 255):02x}{round(green * 255):02x}{round(blue * 255):02x}"


def picture(graphs: list[Graph], title: str, groups: list[Group], has_key: bool = True) -> graphviz.Graph:
    """One picture with the graphs side by side, originators on top, each layer one link further away."""
    made = graphviz.Graph(engine="dot")
    made.attr(labelloc="b", fontname=FONT, fontsize="11", rankdir="TB", ranksep="0.6", nodesep="0.3", bgcolor="white")
    made.attr(
        "node",
        shape="box",
        style="filled,rounded",
        fontname=FONT,
        fontsize="10",
        height="0.3",
        margin="0.09,0.05",
        color="#444444",
    )
    made.attr("edge", color="#777777", fontname=FONT, fontsize="9", fontcolor="#333333", arrowsize="0.6")
    # (costs lie on their links, and links under all that is written)
    made.attr(outputorder="edgesfirst")
    colors = color_of(groups)
    shown = [_labels(graph) for graph in graphs]
    is_spread = any(
        labels and graph.edges and graph.edges[0].at_low is not None for labels, graph in zip(shown, graphs)
    )
    places = _places(graphs[0], colors, shown[0]) if len(graphs) > 1 else {}
    for number, graph in enumerate(graphs):
        with made.subgraph(name=f"cluster_{number}") as part:
            part.attr(
                label=graph.title,
                labelloc="t",
                color="#bbbbbb",
                style="rounded",
                fontname=FONT,
                fontsize="13",
                margin="14",
            )
            _put(part, graph, f"{number}:", colors, shown[number], is_spread, places)
    notes = [note for graph in graphs for note in graph.notes]
    made.attr(label="\\n".join([f" {escaped(title)}", *notes, *(key(graphs) if has_key else [])]))
    return made


def laid_out(drawn: graphviz.Graph, form: str) -> bytes:
    """A picture as Graphviz lays it out, in SVG or PNG. Refused where Graphviz is not there, or fails."""
    try:
        return drawn.pipe(format=form, quiet=True)
    except graphviz.ExecutableNotFound:
        raise Refused("the program dot is not there: install the package graphviz") from None
    except subprocess.CalledProcessError as fault:
        told = (fault.stderr or b"").decode("utf-8", "replace").strip() or fault
        raise NotLaidOut(f"the program dot failed: {told}") from None


def key(graphs: list[Graph]) -> list[str]:
    """What the marks mean that the picture has."""
    nodes = [node for graph in graphs for node in graph.nodes]
    edges = [edge for graph in graphs for edge in graph.edges]
    told = [
        (True, "One colour: one group, white where it has one router. Double border: originates the class."),
        (any(node.group.is_lone for node in nodes), "Dashed border: lone router."),
        (
            any(edge.at_low is not None for edge in edges),
            "Number on a link: its OSPF cost. Of two, each is that of the router on its side, or beside whose name it is.",
        ),
        (
            any(edge.policies for edge in edges),
            "Words at a link: what is done to routes that the router named takes there.",
        ),
        (any(edge.to_low != edge.to_high for edge in edges), "Arrow: only this way do policies let routes pass."),
        (any(edge.to_low != edge.to_high for graph in graphs if graph.side == "after" for edge in graph.edges), CLOSED),
        (any(not edge.to_low and not edge.to_high for edge in edges), "Dotted: policies let no route pass."),
    ]
    return [words for holds, words in told if holds]


def _places(graph: Graph, colors: dict[int, str], shows_labels: bool) -> dict[str, float]:
    """How far to the right each router is where a graph is laid out alone. Empty where it cannot be."""
    made = graphviz.Graph(engine="dot")
    _put(made, graph, "0:", colors, shows_labels, False, {})
    try:
        # (a long line goes on behind a backslash)
        lines = laid_out(made, "plain").decode().replace("\\\n", "").splitlines()
    except Refused:
        return {}
    at = {words[1]: float(words[2]) for words in map(shlex.split, lines) if words[:1] == ["node"]}
    return {name: at[_id("0:", node.name)] for node in graph.nodes for name in node.members}


def _put(
    part: graphviz.Graph,
    graph: Graph,
    prefix: str,
    colors: dict[int, str],
    shows_labels: bool,
    is_spread: bool,
    places: dict[str, float],
) -> None:
    """Puts a graph into a picture; spread, with as much height between layers as costs take. Where `places` has routers,
    nodes of one layer are in the order of their members there."""
    layers = graph.layers()
    rank = {node.name: sum(places.get(name, 0) for name in node.members) / len(node.members) for node in graph.nodes}
    beside: dict[int, list[str]] = {}
    for node in graph.nodes:
        part.node(_id(prefix, node.name), **_node(node, colors))
        beside.setdefault(layers[node.name], []).append(_id(prefix, node.name))
    for number, edge in enumerate(graph.edges):
        is_flat = layers[edge.low] == layers[edge.high]
        is_upright = rank[edge.low] <= rank[edge.high] if is_flat else layers[edge.low] < layers[edge.high]
        upper, lower = (edge.low, edge.high) if is_upright else (edge.high, edge.low)
        looks = _edge(edge, is_upright, shows_labels)
        cost = _cost(edge, is_upright, is_flat) if shows_labels else ""
        if is_flat and not cost:
            looks["constraint"] = "false"
        elif is_spread and not cost:
            looks["minlen"] = "2"
        if not cost:
            part.edge(_id(prefix, upper), _id(prefix, lower), **looks)
            continue
        middle = _id(prefix, f"cost {number}")
        part.node(middle, label=cost, shape="plain", style="filled", fillcolor="white", fontsize="9", tooltip=" ")
        part.edge(_id(prefix, upper), middle, **looks, len="0.8")
        part.edge(middle, _id(prefix, lower), **looks, len="0.8")
        if is_flat:
            beside[layers[upper]].append(middle)
    _keep_layers(part, beside)
    if places:
        _keep_order(part, graph, prefix, layers, rank)


def _cost(edge: Edge, is_upright: bool, is_flat: bool) -> str:
    """The costs of a link as a table on white ground: one where both ends have it, else that of each end on its side,
    or with its name where both are at one height."""
    if edge.at_low is None:
        return ""
    # (it loads all entities of HTML)
    import html

    ends = [(edge.low, edge.at_low), (edge.high, edge.at_high)]
    upper, lower = ends if is_upright else ends[::-1]
    rows = [str(upper[1])] if upper[1] == lower[1] else [str(cost) for _, cost in (upper, lower)]
    if is_flat and len(rows) > 1:
        rows = [f"{name}: {cost}" for name, cost in (upper, lower)]
    rows += [f"{edge.count} links"] if edge.count > 1 else []
    cells = "".join(f"<tr><td>{html.escape(row)}</td></tr>" for row in rows)
    return f'<<table border="0" cellborder="0" cellspacing="0" cellpadding="1" bgcolor="white">{cells}</table>>'


def _keep_order(
    part: graphviz.Graph, graph: Graph, prefix: str, layers: dict[str, int], rank: dict[str, float]
) -> None:
    """Nodes of one layer from left to right by their places: links that are not drawn lead from each to the next."""
    for layer in sorted(set(layers.values())):
        row = sorted((node.name for node in graph.nodes if layers[node.name] == layer), key=lambda name: rank[name])
        for left, right in zip(row, row[1:]):
            part.edge(_id(prefix, left), _id(prefix, right), style="invis")


def _id(prefix: str, name: str) -> str:
    """A colon would begin a port."""
    return f"{prefix.replace(':', '_')}{name}"


def _keep_layers(part: graphviz.Graph, beside: dict[int, list[str]]) -> None:
    """What is in one layer at one height."""
    for _, names in sorted(beside.items()):
        with part.subgraph() as row:
            row.attr(rank="same")
            for name in names:
                row.node(name)


def _node(node: Node, colors: dict[int, str]) -> dict[str, str]:
    marks = [mark for mark, holds in (("originates", node.group.is_origin), ("lone", node.group.is_lone)) if holds]
    tip = f"group {node.group.number}{''.join(f', {mark}' for mark in marks)}: {_told(node.members)}"
    return {
        "label": label_of(node),
        "fillcolor": colors[node.group.number],
        "peripheries": "2" if node.group.is_origin else "1",
        "style": "filled,rounded,dashed" if node.group.is_lone else "filled,rounded",
        "tooltip": tip,
        "class": f"group-{node.group.number}",
    }


def label_of(node: Node) -> str:
    """The text of a node, lines with Graphviz's mark between them."""
    return node.name if len(node.members) == 1 else _names(node.members)


def _told(members: tuple[str, ...]) -> str:
    """The names, as far as they fit into a tip."""
    told: list[str] = []
    length = 0
    for member in members:
        length += len(member) + 1
        if length > LONGEST_TIP:
            return f"{' '.join(told)} and {len(members) - len(told)} more"
        told.append(member)
    return " ".join(told)


def _names(members: tuple[str, ...]) -> str:
    """The count and then the names, two on a line, as far as they are shown."""
    shown = members if len(members) <= NAMES_SHOWN + 1 else members[:NAMES_SHOWN]
    rows = [" ".join(shown[at : at + 2]) for at in range(0, len(shown), 2)]
    more = [f"and {len(members) - len(shown)} more"] if len(shown) < len(members) else []
    return "\\n".join([f"{len(members)} routers", *rows, *more])


def _labels(graph: Graph) -> bool:
    """Whether links carry labels: not where all say the same, nor where they are too many. What is left out is said
    below the picture."""
    costs = {cost for edge in graph.edges for cost in (edge.at_low, edge.at_high) if cost is not None}
    if len(costs) == 1 and len(graph.edges) > 1:
        graph.notes.append(f"{graph.side}: each link has cost {costs.pop()} both ways")
        return False
    has_words = any(edge.policies for edge in graph.edges)
    for holds, most, told in (
        (bool(costs), COSTS_UP_TO, "costs are"),
        (has_words, POLICIES_UP_TO, "what is done to routes is"),
    ):
        if holds and len(graph.edges) > most:
            graph.notes.append(f"{graph.side}: more than {most} links, so {told} left out of the picture")
            return False
    return True


def _edge(edge: Edge, is_upright: bool, shows_labels: bool) -> dict[str, str]:
    is_cost = edge.at_low is not None and shows_labels
    label = [f"{edge.count} links"] if edge.count > 1 and not is_cost else []
    looks: dict[str, str] = {}
    to_upper, to_lower = (edge.to_low, edge.to_high) if is_upright else (edge.to_high, edge.to_low)
    if shows_labels:
        label += edge.policies
    if to_upper != to_lower:
        looks.update(dir="forward" if to_lower else "back", arrowhead="normal", arrowtail="normal")
    elif not to_upper:
        looks.update(style="dotted")
    return looks | {"label": "\\n".join(f" {escaped(line)}   " for line in label)}
