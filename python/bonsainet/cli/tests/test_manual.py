"""Every tool has its page of the manual, as its command line says it, which man formats without a warning, and its
completions."""
import shutil
import subprocess
import sys

import pytest

from bonsainet.cli.start import start
from bonsainet.ask.program import TOP
from bonsainet.tests.asking import needs, place_of, tool

TOOLS = sorted(path.name for path in (TOP / "tools").glob("bonsai-*"))
PAGES = sorted((TOP / "docs" / "man").glob("*.1"))
COMPLETIONS = TOP / "tools" / "completions"


@pytest.mark.parametrize("name", TOOLS)
def test_the_page_is_current(name: str) -> None:
    needs(name)
    assert (TOP / "docs" / "man" / f"{name}.1").read_bytes() == tool(
        name, "--manual"
    ).stdout, "dev/manual writes the pages"


@pytest.mark.parametrize("page", PAGES, ids=lambda page: page.name)
def test_man_has_no_warning(page) -> None:
    if not shutil.which("man"):
        pytest.skip("the package man-db is not there: no page of the manual is formatted")
    ran = subprocess.run(
        ["man", "--warnings", "-E", "UTF-8", "-l", "-Tutf8", "-Z", page], capture_output=True, check=False
    )
    assert (ran.returncode, ran.stderr) == (0, b"")


@pytest.mark.parametrize("name", TOOLS)
def test_help_and_version(name: str) -> None:
    needs(name)
    told, version = tool(name, "--help"), tool(name, "--version")
    assert told.returncode == version.returncode == 0
    assert told.stdout.startswith(f"usage: {name} ".encode()) and version.stdout.startswith(f"{name} ".encode())


@pytest.mark.parametrize("name", TOOLS)
def test_each_tool_is_completed(name: str) -> None:
    assert f" {name}" in (COMPLETIONS / "bonsai-tools.bash").read_text().splitlines()[-1]
    assert f" {name}" in (COMPLETIONS / "_bonsai-tools").read_text().splitlines()[0]


def completed(*words: object) -> list[str]:
    script = f'. {COMPLETIONS}/bonsai-tools.bash; COMP_WORDS=("$@"); COMP_CWORD=$(($# - 1)); _bonsai_tool; printf \'%s\\n\' "${{COMPREPLY[@]}}"'
    return subprocess.run(
        ["bash", "-c", script, "bash", *map(str, words)], capture_output=True, text=True, check=True
    ).stdout.split()


def test_completion_in_bash() -> None:
    needs("bonsai-draw")
    draw = TOP / "tools" / "bonsai-draw"
    assert completed(draw, place_of("campus.cfg"), "1") == ["1", *map(str, range(10, 17))]
    assert completed(draw, "--f") == ["--format"]
    assert str(place_of("campus.cfg")) in completed(draw, str(place_of("campus.cfg"))[:-3])


def test_completion_in_zsh() -> None:
    if not shutil.which("zsh"):
        pytest.skip("the package zsh is not there: its completions are not read")
    for file in COMPLETIONS.glob("_*"):
        assert subprocess.run(["zsh", "-n", file], capture_output=True, check=False).stderr == b""


def test_a_python_module_that_is_not_there(monkeypatch, capsys) -> None:
    monkeypatch.setitem(sys.modules, "graphviz", None)
    for loaded in [name for name in sys.modules if name.startswith("bonsainet.drawing")]:
        monkeypatch.delitem(sys.modules, loaded)
    assert start("bonsai-draw", "bonsainet.drawing.tool:main") == 1
    assert (
        capsys.readouterr().err
        == "bonsai-draw: the Python module graphviz is not there: install the package python3-graphviz\n"
    )
