"""Groups of many routers with long names, and names that Graphviz or a browser would take for more than letters."""
from __future__ import annotations

import shutil
import xml.etree.ElementTree
from pathlib import Path
from typing import Any

import pytest

pytest.importorskip("graphviz", reason="the package python3-graphviz is not there: pictures are not tried")
pytest.importorskip("jinja2", reason="the package python3-jinja2 is not there: pages are not tried")
import graphviz

from bonsainet.ask.program import Answer, Program
from bonsainet.configs.compressed import asked
from bonsainet.drawing import layout
from bonsainet.drawing.graph import small
from bonsainet.drawing.layout import LONGEST_TIP, NotLaidOut, laid_out, picture
from bonsainet.page import build, pictures
from bonsainet.tests.asking import bytes_of, example, tool

pytestmark = pytest.mark.skipif(
    not shutil.which("dot"), reason="the package graphviz is not there: no picture is laid out"
)
LEAVES = 320


def star(leaves: int) -> str:
    """A router in the middle of many, which have long names and form a group."""
    hub, lines = ["hostname hub"], []
    for number in range(leaves):
        low, high = f"10.{number // 64}.{number % 64 * 4}.1", f"10.{number // 64}.{number % 64 * 4}.2"
        hub += [f"interface Serial0/{number}", f" ip address {low} 255.255.255.252", " ip ospf cost 10"]
        lines += [f"hostname leaf-{number:04}-{'x' * 48}", "interface Serial0/0", f" ip address {high} 255.255.255.252"]
        lines += [" ip ospf cost 10", "router ospf 1", " network 10.0.0.0 0.255.255.255 area 0", "end"]
    hub += ["interface Loopback0", " ip address 192.168.0.1 255.255.255.255", "router ospf 1"]
    hub += [" network 10.0.0.0 0.255.255.255 area 0", " network 192.168.0.1 0.0.0.0 area 0", "end"]
    return "".join(f"{line}\n" for line in hub + lines)


@pytest.fixture(name="star_file", scope="module")
def star_file_fixture(tmp_path_factory: pytest.TempPathFactory) -> Path:
    """The text in a file."""
    made = tmp_path_factory.mktemp("star") / "star.cfg"
    made.write_text(star(LEAVES))
    return made


def test_a_large_group_is_drawn(star_file: Path, program: Program) -> None:
    number = next(
        found.number for found in program.classes(star_file.read_bytes()) if found.prefixes == ("192.168.0.1/32",)
    )
    ran = tool("bonsai-draw", star_file, number)
    assert (ran.returncode, ran.stderr) == (0, b"")
    drawn = ran.stdout.decode()
    assert f"{LEAVES} routers" in drawn and "more" in drawn
    xml.etree.ElementTree.fromstring(drawn)


def test_only_the_class_that_is_drawn_is_asked(program: Program) -> None:
    class Counting(Program):
        """A program that keeps what it is asked."""

        commands: list[str] = []

        def ask(self, *words: str, **more: Any) -> Answer:
            self.commands.append(" ".join(words))
            return super().ask(*words, **more)

    counting = Counting(program.path)
    found = asked(counting, bytes_of("campus.cfg"), "campus.cfg").compress(counting, 3)
    assert sorted(counting.commands) == ["classes F", "compress F 3", "report F 3"]
    (other,) = example("campus.cfg").compress_each([3])
    assert found.without_network() == other.without_network() and found.shape_sum == other.shape_sum


def test_a_picture_that_graphviz_refuses_is_left_out_of_the_page(monkeypatch: pytest.MonkeyPatch) -> None:
    def refuse(_drawn: graphviz.Graph, _form: str) -> bytes:
        raise NotLaidOut("the program dot failed: no")

    monkeypatch.setattr(pictures, "laid_out", refuse)
    text = example("campus.cfg")
    shown = build.everything(text, build.rows(text, list(text.compress_each([1, 2]))), None, {})
    assert shown["large"] == "" and {row.left_out for row in shown["rows"]} == {"the program dot failed: no"}


def test_a_tip_has_few_names() -> None:
    members = tuple(f"router-{number}" for number in range(5000))
    told = layout._told(members)
    assert (
        len(told) < LONGEST_TIP + 30 and told.endswith(" more") and layout._told(members[:9]) == " ".join(members[:9])
    )


@pytest.mark.parametrize("name", ["&lt;", "&#60;", "&amp;lt;", "a&b"])
def test_entities_are_drawn_as_they_are(name: str) -> None:
    text = bytes_of("edge-and-provider.cfg").replace(b"FROM-PROVIDER", name.encode())
    drawn = tool("bonsai-draw", "-", 1, raw=text)
    texts = [
        found.text for found in xml.etree.ElementTree.fromstring(drawn.stdout).iter() if found.tag.endswith("text")
    ]
    assert f"border: {name}" in [(found or "").strip() for found in texts]


def test_control_bytes_in_the_name_of_a_file(tmp_path: Path) -> None:
    place = tmp_path / "a\x01b\x1b[31m.cfg"
    place.write_bytes(bytes_of("two-routers.cfg"))
    drawn, page = tool("bonsai-draw", place, 1), tool("bonsai-page", place)
    assert (drawn.returncode, page.returncode) == (0, 0)
    xml.etree.ElementTree.fromstring(drawn.stdout)
    assert b"\x1b" not in drawn.stdout + page.stdout and b"\x01" not in drawn.stdout + page.stdout


def test_the_title_of_a_picture_is_the_same_for_plain_names() -> None:
    found = example("campus.cfg").compress(Program(), 1)
    assert b"campus" in laid_out(picture([small(found)], "campus", found.groups), "svg")
