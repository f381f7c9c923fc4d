"""Pictures of a change: both networks, in which each router stands in the same place, and what changes is coloured."""
from __future__ import annotations

import dataclasses
import re
import shlex
from collections import Counter
from collections.abc import Collection, Iterator, Mapping

import graphviz

from bonsainet.ask.program import Group
from bonsainet.configs.network import Network as Parsed
from bonsainet.drawing.graph import Edge, Graph, Node
from bonsainet.drawing.layout import FONT, NotLaidOut, escaped, laid_out, picture
from bonsainet.drawing.tool import LINKS_DRAWN, ROUTERS_DRAWN
from bonsainet.library.changes import Kind, PrefixChange
from bonsainet.library.pairs import Pair
from bonsainet.library.routes import Routes

COLORS = {Kind.GAINED: "#b7e1bc", Kind.LOST: "#f3b3ad", Kind.CHANGED: "#ffd695"}
PLAIN, LINE, GONE, NEW = "#ffffff", "#999999", "#c0392b", "#2e8b57"
POINTS = 72

Ends = tuple[str, str]
Places = Mapping[str, tuple[float, float]]


@dataclasses.dataclass(frozen=True)
class Pictures:
    """Both sides as SVG, or in words why there are none."""

    before: str = ""
    after: str = ""
    left_out: str = ""
    left: int = 0


def _pairs(network: Parsed) -> Counter[Ends]:
    """The pairs of routers that links join, and how many join each."""
    return Counter(_pair(link.low.device.name, link.high.device.name) for link in network.links)


def _pair(one: str, other: str) -> Ends:
    return (one, other) if one < other else (other, one)


class Drawer:
    """Draws changes of two networks. The place of a router is the same in both pictures of a change, and in those of all
    changes unless the networks are too large to be drawn whole."""

    def __init__(self, both: Pair) -> None:
        self.networks = both.old, both.new
        old, new = both.parsed
        self.pairs = _pairs(old), _pairs(new)
        self.routers = frozenset(old.by_name), frozenset(new.by_name)
        self.every = list({**old.by_name, **new.by_name})
        self.is_whole = self._fits(self.every)
        self.places: Places | None = None

    def _fits(self, routers: Collection[str]) -> bool:
        return len(routers) <= ROUTERS_DRAWN and len(self._joined(routers)) <= LINKS_DRAWN

    def _joined(self, routers: Collection[str]) -> list[Ends]:
        """The pairs among some routers that links join on either side."""
        kept = set(routers)
        return [pair for pair in {**self.pairs[0], **self.pairs[1]} if kept.issuperset(pair)]

    def draw(self, change: PrefixChange) -> Pictures:
        """Both sides of a change."""
        routers = self.every if self.is_whole else self._near(change)
        if not self._fits(routers):
            return Pictures(left_out=f"more than {ROUTERS_DRAWN} routers or {LINKS_DRAWN} links have a part in it")
        try:
            if self.is_whole and self.places is None:
                self.places = self._places(routers)
            places = self.places if self.is_whole and self.places is not None else self._places(routers)
            made = [self._side(side, change, routers, places) for side in (0, 1)]
        except NotLaidOut as fault:
            return Pictures(left_out=str(fault))
        return Pictures(made[0], made[1], left=len(self.every) - len(routers))

    def _near(self, change: PrefixChange) -> list[str]:
        """The routers that change, those that originate the prefixes, and those beside them."""
        first = (
            {router for each in change.changes for router in each.routers}
            | self._origins(0, change)
            | self._origins(1, change)
        )
        beside = {router for pair in self._joined(self.every) if first.intersection(pair) for router in pair}
        return [router for router in self.every if router in first | beside]

    def _origins(self, side: int, change: PrefixChange) -> set[str]:
        prefix = change.prefixes[0]
        return {name for one in self.networks[side].classes if prefix in one.prefixes for name in one.origins}

    def _places(self, routers: list[str]) -> Places:
        """Where each router stands, by both networks together: those with fewest links below, the others by their distance."""
        joined = self._joined(routers)
        degree = Counter(name for pair in joined for name in pair)
        fewest = min((degree[name] for name in routers), default=0)
        groups = [Group(at, degree[name] == fewest, False, (name,)) for at, name in enumerate(routers, 1)]
        nodes = [Node(group.members[0], group, group.members) for group in groups]
        graph = Graph("before", "", nodes, [Edge(*pair) for pair in joined])
        drawn = picture([graph], "", groups, has_key=False)
        drawn.attr(rankdir="BT")
        layers = graph.layers()
        if sum(layers[one] == layers[other] for one, other in joined) * 4 > len(joined):
            drawn.engine = "neato"
            drawn.attr(overlap="false", start="1", len="1.6")
        lines = laid_out(drawn, "plain").decode().replace("\\\n", "").splitlines()
        found = {words[1]: words for words in map(shlex.split, lines) if words[:1] == ["node"]}
        return {
            name: (float(found[f"0_{name}"][2]) * POINTS, float(found[f"0_{name}"][3]) * POINTS) for name in routers
        }

    def _side(self, side: int, change: PrefixChange, routers: Collection[str], places: Places) -> str:
        made = graphviz.Graph(engine="neato")
        made.attr(bgcolor="white", outputorder="edgesfirst", splines="line")
        looks = {"shape": "box", "style": "filled,rounded", "fontname": FONT, "fontsize": "10", "height": "0.3"}
        made.attr("node", margin="0.09,0.05", color="#444444", **looks)
        made.attr("edge", color=LINE, arrowsize="0.7")
        kinds = {router: each.kind for each in change.changes for router in each.routers}
        origins = self._origins(side, change)
        for name in routers:
            at = {"pos": f"{places[name][0]:.1f},{places[name][1]:.1f}!", "label": escaped(name)}
            if name not in self.routers[side]:
                # (it keeps its place, so that both pictures have one size)
                made.node(f"r_{name}", style="invis", **at)
                continue
            fill = COLORS[kinds[name]] if name in kinds else PLAIN
            made.node(f"r_{name}", fillcolor=fill, peripheries="2" if name in origins else "1", tooltip=" ", **at)
        for number, corner in enumerate(_corners(places)):
            # (what stands outermost on a side alone would move all others)
            made.node(f"c_{number}", "", shape="point", width="0", height="0", style="invis", pos=corner)
        ways = dict(self._ways(side, change))
        for pair in self._joined(routers):
            if self.pairs[side][pair]:
                made.edge(*(f"r_{name}" for name in pair), **self._edge(side, pair, ways), tooltip=" ")
        return _bare(_pinned(made))

    def _edge(self, side: int, pair: Ends, ways: Mapping[Ends, bool]) -> dict[str, str]:
        """How a link looks: coloured where it is on this side alone, with an arrow where a router that changes forwards."""
        looks = {}
        if not self.pairs[1 - side][pair]:
            looks = {"color": NEW if side else GONE, "penwidth": "2.5", "style": "solid" if side else "dashed"}
        there, back = pair in ways, pair[::-1] in ways
        if there or back:
            looks = {"color": NEW if side else GONE, "penwidth": "1.8"} | looks
            looks["dir"] = "both" if there and back else "forward" if there else "back"
        return looks

    def _ways(self, side: int, change: PrefixChange) -> Iterator[tuple[Ends, bool]]:
        """To whom the routers forward whose next hops are others on both sides."""
        for each in change.changes:
            for route in _held(each.after if side else each.before):
                for further, _ in route:
                    yield from (((router, further), True) for router in each.routers)


def _corners(places: Places) -> Iterator[str]:
    """Two corners of a picture in which each router has room for its name."""
    room = 4 * max(map(len, places)) + 24
    across, down = zip(*places.values())
    yield f"{min(across) - room:.1f},{min(down) - 24:.1f}!"
    yield f"{max(across) + room:.1f},{max(down) + 24:.1f}!"


def _held(routes: Routes) -> Iterator[tuple[tuple[str, tuple[str, ...]], ...]]:
    yield from (route.nexts for route in routes if route and route.nexts)


def _pinned(made: graphviz.Graph) -> str:
    """A picture whose nodes stand where they are said to stand."""
    try:
        return made.pipe(format="svg", neato_no_op=2, quiet=True).decode()
    except graphviz.ExecutableNotFound:
        return laid_out(made, "svg").decode()
    except graphviz.CalledProcessError as fault:
        raise NotLaidOut(f"the program neato failed: {fault}") from None


def _bare(drawn: str) -> str:
    """A picture as a part of a page."""
    drawn = re.sub(r"<!--.*?-->\n?", "", drawn[drawn.index("<svg") :], flags=re.S)
    return re.sub(r' id="[^"]*"| xmlns:xlink="[^"]*"|<a [^>]*>\n?|</a>\n?|<title>[^<]*</title>\n?', "", drawn)
