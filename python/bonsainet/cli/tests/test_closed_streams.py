"""Each tool where a standard stream is closed: it answers as with a stream that has nothing, or fails, and does not wait."""
from __future__ import annotations

import subprocess
from pathlib import Path

import pytest

from bonsainet.ask.program import TOP
from bonsainet.ask.where import without_notices
from bonsainet.tests.asking import LATEST, needs, place_of

REFUSED = "hostname R1\nbogus line here\ninterface Vlan1\n ip address 10.0.0.1 255.255.255.0\nrouter ospf 1\n network 0.0.0.0 255.255.255.255 area 0\nend\n"
# The words of each tool: an accepted text is TEXT, a refused one BAD, a folder of it BAD-FOLDER, and what is made MADE.
TOOLS = {
    "bonsai-import": "BAD-FOLDER",
    "bonsai-refusals": "BAD",
    "bonsai-json": "TEXT --compact",
    "bonsai-doubts": "TEXT",
    "bonsai-draw": "TEXT 1 -f dot",
    "bonsai-page": "TEXT",
    "bonsai-export": "--to frr TEXT MADE",
    "bonsai-every": "TEXT MADE --jobs 1",
    "bonsai-diff": "TEXT TEXT",
    "bonsai-why": "TEXT 1 leaf1 leaf2",
}
SILENT = ("bonsai-every", "bonsai-import")


@pytest.fixture(autouse=True)
def started(name: str) -> None:
    """The tool is there."""
    needs(name)


def ran(name: str, room: Path, closing: str) -> tuple[int, bytes, bytes]:
    """What a tool comes to. Standard output and error are files, as a pipe would be one more stream that may be taken."""
    (room / "bad").mkdir(exist_ok=True)
    (room / "bad/r.cfg").write_text(REFUSED)
    made = room / f"made-{len(list(room.iterdir()))}"
    named = {
        "TEXT": str(place_of("fabric.cfg")),
        "BAD-FOLDER": str(room / "bad"),
        "BAD": str(room / "bad/r.cfg"),
        "MADE": str(made),
    }
    words = " ".join(f"'{named.get(word, word)}'" for word in TOOLS[name].split())
    with open(room / "out", "wb") as out, open(room / "err", "wb") as err:
        command = ["/bin/sh", "-c", f'"$0" {words} {closing}', str(TOP / "tools" / name)]
        done = subprocess.run(command, stdin=subprocess.DEVNULL, stdout=out, stderr=err, timeout=LATEST, check=False)
    told = (room / "out").read_bytes().replace(str(made).encode(), b"MADE")
    return done.returncode, told, without_notices((room / "err").read_bytes()).replace(str(made).encode(), b"MADE")


@pytest.mark.parametrize("name", TOOLS)
def test_closed_standard_input(name: str, tmp_path: Path) -> None:
    assert ran(name, tmp_path, "<&-") == ran(name, tmp_path, "")


@pytest.mark.parametrize("name", TOOLS)
def test_closed_standard_error(name: str, tmp_path: Path) -> None:
    status, out, err = ran(name, tmp_path, "2>&-")
    assert ((status, out), err) == (ran(name, tmp_path, "")[:2], b"")


@pytest.mark.parametrize("name", TOOLS)
def test_closed_standard_output(name: str, tmp_path: Path) -> None:
    status, out, err = ran(name, tmp_path, ">&-")
    whole = ran(name, tmp_path, "")
    assert out == b""
    assert (status, err) == (whole[0], whole[2]) if name in SILENT else status == 4 and b"write fault" in err


@pytest.mark.parametrize("name", TOOLS)
def test_all_closed(name: str, tmp_path: Path) -> None:
    assert ran(name, tmp_path, "<&- >&- 2>&-") == (ran(name, tmp_path, "")[0] if name in SILENT else 4, b"", b"")


@pytest.mark.parametrize("name", TOOLS)
def test_dash_where_standard_input_is_closed(name: str, tmp_path: Path) -> None:
    # (of two texts one is standard input)
    words = TOOLS[name].replace("TEXT", "-", 1).replace("TEXT", str(place_of("fabric.cfg")))
    words = words.replace("BAD-FOLDER", "-").replace("BAD", "-").replace("MADE", str(tmp_path / "made"))
    command = ["/bin/sh", "-c", f'"$0" {words} <&-', str(TOP / "tools" / name)]
    done = subprocess.run(command, capture_output=True, timeout=LATEST, check=False)
    told = without_notices(done.stderr).decode()
    assert (done.returncode, done.stdout, told) == (3, b"", f"{name}: standard input: Bad file descriptor\n")
