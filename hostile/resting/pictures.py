"""Pictures of networks and of their solutions: a link is a line, and an arrow goes to whom a router forwards."""

from __future__ import annotations

import re
import shutil
import subprocess
from pathlib import Path

from bonsainet.ask.program import TOP
from hostile.asking import Asker
from hostile.judge import answers
from hostile.resting.networks import PREFIX, Made

FOLDER = TOP / "docs" / "data"
STEP = 210
SPOTS: dict[str, tuple[tuple[int, int], ...]] = {
    "disagree": ((70, 110), (0, 0), (140, 0)),
    "wedgie": ((70, 0), (0, 60), (0, 130), (140, 60)),
    "bad gadget": ((70, 60), (70, 150), (0, 0), (140, 0)),
}
LIKES = {
    "disagree": ((1, 2), (2, 1)),
    "wedgie": ((2, 1), (3, 0)),
    "bad gadget": ((1, 2), (2, 3), (3, 1)),
}


def forwarding(told: str) -> list[list[tuple[str, str]]]:
    """Who forwards to whom under each solution, from what `forwards` writes."""
    blocks = re.split(r"^solution \d+\n", told, flags=re.M)[1:]
    return [
        [(line.split()[0], other) for line in block.splitlines() if " to " in line for other in line.split()[2:]]
        for block in blocks
    ]


def dot(made: Made, solutions: list[list[tuple[str, str]]]) -> str:
    """The picture in the words of Graphviz: first the network with dashed arrows to whom routers prefer, then each
    solution beside it."""
    net = answers.read(made.text.encode())
    assert not isinstance(net, answers.Expected)
    names = [router.name for router in net.routers]
    links = [(names[low], names[high]) for low, high, _, _ in net.links]
    likes = [(names[low], names[high]) for low, high in LIKES[made.name]]
    lines = ["digraph G {", 'node [shape=circle fontname="sans-serif" fontsize=11 width=0.4 fixedsize=true];']
    lines += ['edge [fontname="sans-serif"];']
    for number, arrows in enumerate([likes, *solutions]):
        for name, (across, up) in zip(names, SPOTS[made.name]):
            fill = ' style=filled fillcolor="#d9ead3"' if name == names[0] else ""
            lines.append(f'n{number}{name} [label="{name}" pos="{across + number * STEP},{up}!"{fill}];')
        lines += [f'n{number}{low} -> n{number}{high} [dir=none color="#bbbbbb"];' for low, high in links]
        how = 'style=dashed color="#b2182b"' if number == 0 else 'color="#2166ac" penwidth=2'
        lines += [f"n{number}{low} -> n{number}{high} [{how}];" for low, high in arrows]
        label = "prefers" if number == 0 else f"solution {number}"
        lines.append(f't{number} [shape=plaintext fixedsize=false label="{label}" pos="{70 + number * STEP},-40!"];')
    return "\n".join([*lines, "}"]) + "\n"


def draw(program: Asker, networks: list[Made], folder: Path = FOLDER) -> list[Path]:
    """Draws the networks of the page. Those that have no place in it are left out."""
    if not shutil.which("neato"):
        raise FileNotFoundError("no program neato: install the package graphviz")
    drawn = []
    for made in networks:
        if made.name in SPOTS:
            told = program.ask("F", PREFIX, "forwards", texts={"F": made.text}).text
            place = folder / f"{made.name.replace(' ', '-')}.svg"
            words = ["neato", "-n", "-Tsvg", "-o", str(place)]
            subprocess.run(words, input=dot(made, forwarding(told)), text=True, check=True)
            drawn.append(place)
    return drawn
