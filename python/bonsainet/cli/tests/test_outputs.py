"""What a tool writes is there whole or not at all, and never in the place of what it reads."""
from __future__ import annotations

import os
from pathlib import Path

import pytest

from bonsainet.ask.program import TOP
from bonsainet.cli.command_line import kept, write_output
from bonsainet.tests.asking import TWO_ALIKE, needs, place_of, tool


def test_a_file_is_written_beside_and_then_moved(tmp_path: Path) -> None:
    place = tmp_path / "made"
    place.write_bytes(b"before")
    was = os.stat(place).st_ino
    with kept(str(place), b"after"):
        assert place.read_bytes() == b"before" and len(list(tmp_path.iterdir())) == 2
    assert place.read_bytes() == b"after" and os.stat(place).st_ino != was and list(tmp_path.iterdir()) == [place]


def test_a_file_stays_where_the_work_fails(tmp_path: Path) -> None:
    place = tmp_path / "made"
    place.write_bytes(b"before")
    with pytest.raises(ZeroDivisionError), kept(str(place), b"after"):
        raise ZeroDivisionError
    assert place.read_bytes() == b"before" and list(tmp_path.iterdir()) == [place]


LONGEST = 255


@pytest.mark.parametrize(
    "words",
    [
        ["bonsai-page", "TEXT", "-o"],
        ["bonsai-draw", "TEXT", "1", "-f", "dot", "-o"],
        ["bonsai-import", "FOLDER", "--report"],
        ["bonsai-import", "FOLDER", "--suggest"],
        ["bonsai-export", "TEXT", "--to", "frr"],
        ["bonsai-every", "TEXT"],
    ],
    ids=" ".join,
)
def test_the_longest_name_that_there_can_be(words: list[str], tmp_path: Path) -> None:
    """A name of 255 bytes is made, and one of 256 refused by its name."""
    needs(words[0])
    named = {"TEXT": place_of("two-routers.cfg"), "FOLDER": TOP / "examples/folders/campus/configs"}
    name, *command = (str(named.get(word, word)) for word in words)
    longest, longer = tmp_path / ("n" * LONGEST), tmp_path / ("n" * (LONGEST + 1))
    # (the import refuses lines of its folder, and writes its report)
    assert tool(name, *command, longest).returncode == (name == "bonsai-import") and [
        path.name for path in tmp_path.iterdir()
    ] == [longest.name]
    ran = tool(name, *command, longer)
    assert ran.returncode == 4 and ran.stderr.decode().splitlines()[-1].endswith(f"{longer}: File name too long")
    assert [path.name for path in tmp_path.iterdir()] == [longest.name]


def test_a_link_stays_a_link(tmp_path: Path) -> None:
    (tmp_path / "link").symlink_to("made")
    write_output(str(tmp_path / "link"), b"after")
    assert (tmp_path / "link").is_symlink() and (tmp_path / "made").read_bytes() == b"after"


@pytest.mark.parametrize("name", ["bonsai-page", "bonsai-draw"])
@pytest.mark.parametrize("way", ["itself", "link", "hard"])
def test_the_file_that_is_read_is_not_written_over(name: str, way: str, tmp_path: Path) -> None:
    needs(name)
    place, other = tmp_path / "net.svg", tmp_path / "other.svg"
    place.write_bytes(place_of("two-routers.cfg").read_bytes())
    if way == "link":
        other.symlink_to(place)
    elif way == "hard":
        os.link(place, other)
    words = [place, *([1] if name == "bonsai-draw" else []), "-o", place if way == "itself" else other]
    ran = tool(name, *words)
    assert ran.returncode == 1 and b"is the file that is read" in ran.stderr
    assert place.read_bytes() == place_of("two-routers.cfg").read_bytes()


IS_READ = "is the file that is read"


@pytest.mark.parametrize(
    "words, told",
    [
        (["bonsai-page", "net.cfg", "--import-report", "report", "-o", "report"], IS_READ),
        (["bonsai-export", "--to", "frr", "net.cfg", "made", "--report", "net.cfg"], IS_READ),
        (["bonsai-diff", "net.cfg", "folder", "--html", "net.cfg"], IS_READ),
        (["bonsai-diff", "net.cfg", "folder", "--html", "folder/configs/a.cfg"], "is in the folder that is read"),
        (["bonsai-diff", "net.cfg", "folder", "--decisions", "report", "--html", "report"], IS_READ),
    ],
    ids=["page", "export", "diff", "diff-folder", "diff-decisions"],
)
def test_nothing_that_is_read_is_written_over(words: list[str], told: str, tmp_path: Path) -> None:
    """Not a report, decisions, or a file of a folder either."""
    needs(words[0])
    (tmp_path / "folder/configs").mkdir(parents=True)
    for place in ("net.cfg", "folder/configs/a.cfg"):
        (tmp_path / place).write_text(TWO_ALIKE if place == "net.cfg" else TWO_ALIKE.partition("hostname b")[0])
    (tmp_path / "report").write_text("" if words[0] == "bonsai-diff" else '{"lines": []}')
    before = content(tmp_path)
    ran = tool(words[0], *words[1:], cwd=tmp_path)
    assert ran.returncode == 1 and f"{words[-1]}: {told}" in ran.stderr.decode() and content(tmp_path) == before


def content(folder: Path) -> dict[Path, bytes]:
    """The bytes of each file below a folder."""
    return {path: path.read_bytes() for path in folder.rglob("*") if path.is_file()}


@pytest.mark.parametrize("mode", [0o600, 0o640, 0o666])
def test_a_file_keeps_its_mode(mode: int, tmp_path: Path) -> None:
    place = tmp_path / "made"
    place.write_bytes(b"before")
    place.chmod(mode)
    write_output(str(place), b"after")
    assert place.read_bytes() == b"after" and place.stat().st_mode & 0o777 == mode


def test_a_report_is_not_written_over_what_was_read(tmp_path: Path) -> None:
    for place in sorted((TOP / "examples/folders/campus/configs").iterdir()):
        (tmp_path / place.name).write_bytes(place.read_bytes())
    for name in ("core1.cfg", "./acc1.cfg"):
        before = (tmp_path / name).read_bytes()
        ran = tool("bonsai-import", tmp_path, "--report", tmp_path / name)
        assert ran.returncode == 1 and b"is a file that is read" in ran.stderr
        assert (tmp_path / name).read_bytes() == before
