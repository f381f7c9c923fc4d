"""Bad inputs and outputs of the tools that show: one line on standard error, and the documented status."""
import os
import signal
import subprocess
from pathlib import Path

import pytest

from bonsainet.nets.fat_tree import fat_tree_text
from bonsainet.ask.program import ALL, TOP, named
from bonsainet.ask.where import without_notices
from bonsainet.tests.asking import LATEST, needs, place_of, slow_program, tool, wait_for

TOOLS: dict[str, list[str]] = {"bonsai-draw": ["1"], "bonsai-json": [], "bonsai-page": [], "bonsai-every": ["all"]}
WRITERS: dict[str, list[str]] = {"bonsai-draw": ["1", "-f", "dot"], "bonsai-json": [], "bonsai-page": []}


def refused(name: str, place: object, cwd: Path, status: int, told: str) -> None:
    ran = tool(name, place, *TOOLS[name], cwd=cwd)
    assert (ran.returncode, ran.stdout) == (status, b"")
    assert ran.stderr.startswith(f"{name}: ".encode()) and told in ran.stderr.decode() and ran.stderr.count(b"\n") == 1


@pytest.fixture(autouse=True)
def started(name: str) -> None:
    needs(name)


@pytest.mark.parametrize(
    "name, module", [("bonsai-page", "jinja2"), ("bonsai-draw", "graphviz"), ("round-figures", "matplotlib")]
)
def test_a_package_that_is_not_there(name: str, module: str, tmp_path: Path) -> None:
    (tmp_path / f"{module}.py").write_text(f"raise ModuleNotFoundError('none', name='{module}')\n")
    words = (
        [place_of("fabric.cfg"), 1]
        if name == "bonsai-draw"
        else [place_of("fabric.cfg")]
        if name == "bonsai-page"
        else []
    )
    ran = tool(name, *words, env=os.environ | {"PYTHONPATH": str(tmp_path)})
    assert (ran.returncode, ran.stdout) == (1, b"")
    assert (
        ran.stderr
        == f"{name}: the Python module {module} is not there: install the package python3-{module}\n".encode()
    )


@pytest.mark.parametrize("name", TOOLS)
def test_a_file_that_is_not_there(name: str, tmp_path: Path) -> None:
    refused(name, "nowhere.cfg", tmp_path, 3, "nowhere.cfg: No such file or directory")


@pytest.mark.parametrize("name", TOOLS)
def test_a_folder_in_place_of_a_file(name: str, tmp_path: Path) -> None:
    refused(name, ".", tmp_path, 3, f"{name}: .: Is a directory: bonsai-import makes one text of a folder\n")


@pytest.mark.parametrize("name", TOOLS)
@pytest.mark.skipif(os.geteuid() == 0, reason="root may read every file: permission is not tried")
def test_a_file_without_permission(name: str, tmp_path: Path) -> None:
    (tmp_path / "secret.cfg").touch(mode=0)
    refused(name, "secret.cfg", tmp_path, 3, "Permission denied")


@pytest.mark.parametrize("name", TOOLS)
def test_an_empty_text(name: str, tmp_path: Path) -> None:
    (tmp_path / "net.cfg").write_text("\n")
    refused(
        name,
        "net.cfg",
        tmp_path,
        1,
        f"{name}: net.cfg: no router in it; bonsai-import writes nothing where it refuses a line\n",
    )


@pytest.mark.parametrize("name", TOOLS)
@pytest.mark.parametrize(
    "raw, told",
    [
        (b"\xff\xfe\x00", "refused: line 1: NotAscii"),
        (b"hostname a\n", "refused: line 1: NoEnd"),
        (b"hello\nend\n", "refused: line 1: UnknownLine"),
    ],
)
def test_a_broken_text(name: str, raw: bytes, told: str, tmp_path: Path) -> None:
    (tmp_path / "broken.cfg").write_bytes(raw)
    refused(name, "broken.cfg", tmp_path, 1, f"{name}: broken.cfg: {told}; tools/bonsai-refusals lists all refusals\n")


@pytest.mark.parametrize("name", WRITERS)
def test_an_output_that_is_full(name: str) -> None:
    with open("/dev/full", "wb") as full:
        ran = subprocess.run(
            [TOP / "tools" / name, place_of("fabric.cfg"), *WRITERS[name]],
            stdout=full,
            stderr=subprocess.PIPE,
            check=False,
        )
    assert (ran.returncode, without_notices(ran.stderr)) == (
        4,
        f"{name}: write fault: No space left on device\n".encode(),
    )


@pytest.mark.parametrize(
    "name, words", [("bonsai-draw", ["1", "-o", "none/a.svg"]), ("bonsai-page", ["-o", "none/a.html"])]
)
def test_an_output_that_cannot_be_made(name: str, words: list[str], tmp_path: Path) -> None:
    ran = tool(name, place_of("fabric.cfg"), *words, cwd=tmp_path)
    assert (ran.returncode, ran.stderr) == (
        4,
        f"{name}: write fault: {words[-1]}: No such file or directory\n".encode(),
    )


@pytest.mark.parametrize("name", ["bonsai-every"])
def test_a_folder_that_cannot_be_made(name: str, tmp_path: Path) -> None:
    (tmp_path / "file").touch()
    ran = tool(name, place_of("fabric.cfg"), "file/all", cwd=tmp_path)
    assert (ran.returncode, ran.stderr) == (4, f"{name}: write fault: file/all: Not a directory\n".encode())


@pytest.mark.parametrize("name", WRITERS)
def test_an_output_that_is_closed(name: str) -> None:
    reader, writer = os.pipe()
    os.close(reader)
    ran = subprocess.run(
        [TOP / "tools" / name, place_of("fabric.cfg"), *WRITERS[name]],
        stdout=writer,
        stderr=subprocess.PIPE,
        check=False,
    )
    os.close(writer)
    assert (ran.returncode, without_notices(ran.stderr)) == (4, f"{name}: write fault\n".encode())


@pytest.mark.parametrize("name", ["bonsai-json", "bonsai-page"])
def test_an_interrupt_ends_before_all_is_asked(name: str, tmp_path: Path) -> None:
    """Ranges of 32 classes are asked, each for half a second; then the tool is interrupted."""
    (tmp_path / "net.cfg").write_text(fat_tree_text(8))
    asked = slow_program(named(ALL), tmp_path, "0.5")
    env = os.environ | {"BONSAI_ALL_PROGRAM": str(tmp_path / "slow")}
    command = [TOP / "tools" / name, tmp_path / "net.cfg"]
    started = subprocess.Popen(command, stdout=subprocess.DEVNULL, stderr=subprocess.PIPE, env=env)
    wait_for(lambda: asked.exists() and b" report " in asked.read_bytes())
    started.send_signal(signal.SIGINT)
    _, told = started.communicate(timeout=LATEST)
    assert (started.returncode, without_notices(told)) == (130, f"{name}: interrupted\n".encode())
    assert asked.read_bytes().count(b"compress") < 32


ENDLESS = {
    "bonsai-json": b"refused: FileTooLong",
    "bonsai-refusals": b"1 refusal",
    "bonsai-import": b"has more than 67108864 bytes",
}


@pytest.mark.parametrize("name", ENDLESS)
def test_a_text_without_an_end(name: str) -> None:
    told = ENDLESS[name]
    for words in (["/dev/zero"], ["-"]):
        with open("/dev/zero", "rb") as endless:
            command = [str(TOP / "tools" / name), *words]
            ran = subprocess.run(command, stdin=endless, capture_output=True, timeout=LATEST, check=False)
        assert ran.returncode == 1 and told in ran.stderr
