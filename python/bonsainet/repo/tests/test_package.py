"""The five steps of README.md from the installed package, in a system without clone, kit and unproved builds.

The package is installed over what the machine has, in a namespace of its own: an overlay whose changes go with it.
"""
from __future__ import annotations

import os
import re
import shutil
import subprocess
from pathlib import Path

import pytest

from bonsainet.ask.program import ALL, ASK, BONSAI, TOP, named
from bonsainet.repo import packing
from bonsainet.repo.pages import Shown, fits, shown_in
from bonsainet.repo.skips import has_package

COPY = "cp -r /usr/share/doc/bonsai/examples/"
STEPS = "## Your folder in five steps"
# The folder of the overlay, what to hide in it, the package, and the script that runs in it and leaves its results in /results.
ENTER = """set -e
room=$1 package=$2 steps=$3 out=$4
shift 4
mount -t tmpfs none "$room"
mkdir "$room/upper" "$room/work" "$room/all"
mount -t overlay overlay -o "lowerdir=/,upperdir=$room/upper,workdir=$room/work" "$room/all"
mount -t proc proc "$room/all/proc"
mount --rbind /dev "$room/all/dev"
for hidden do
    [ ! -d "$room/all$hidden" ] || mount -t tmpfs none "$room/all$hidden"
done
mkdir "$room/all/results"
[ -z "$package" ] || cp "$package" "$room/all/results/bonsai.deb"
cp "$steps" "$room/all/results/steps"
env -i HOME=/root LC_ALL=C.UTF-8 PATH=/usr/sbin:/usr/bin:/sbin:/bin chroot "$room/all" bash /results/steps
cp -r "$room/all/results" "$out"
"""


def hidden() -> list[str]:
    """The folders that the installed package must not need: the clone, the kit and the unproved builds."""
    rt = shutil.which("rt")
    kit = [str(Path(rt).resolve().parent.parent)] if rt else []
    return [str(TOP), *kit, os.path.expanduser("~/.cache")]


def entered(room: Path, package: str, script: str) -> subprocess.CompletedProcess[str]:
    """Runs a script in the namespace. Its results are in the folder `results` of the room."""
    (room / "overlay").mkdir()
    (room / "steps").write_text(script, "utf-8")
    words = [str(room / "overlay"), package, str(room / "steps"), str(room / "results"), *hidden()]
    command = ["unshare", "--mount", "bash", "-c", ENTER, "enter", *words]
    return subprocess.run(command, capture_output=True, text=True, check=False, timeout=500)


def needed() -> list[str]:
    """The packages that the package depends on."""
    line = re.search(r"^Depends: (.*)$", packing.CONTROL, re.M)
    assert line
    return [it.split()[0] for it in line[1].split(", ")]


@pytest.fixture(scope="module")
def package(tmp_path_factory: pytest.TempPathFactory) -> Path:
    """The Debian package, with the program that answers here."""
    room = tmp_path_factory.mktemp("package")
    if not shutil.which("dpkg-deb"):
        pytest.skip("no dpkg-deb here")
    if os.geteuid() != 0:
        pytest.skip("only root can install a package")
    for name in needed():
        if not has_package(name):
            pytest.skip(f"the package {name} is not there: the package depends on it")
    (room / "probe").mkdir()
    if entered(room / "probe", "", "true").returncode:
        pytest.skip("no namespace with an overlay of the system here")
    (room / "programs").mkdir()
    programs = [room / "programs" / name.replace("-", "_") for name in (BONSAI, ASK, ALL)]
    for name, place in zip((BONSAI, ASK, ALL), programs):
        program = named(name).executable()
        assert program
        shutil.copy(program, place)
    parts = packing.Parts(TOP, programs, packing.version_of(TOP), "the kit of this test")
    return packing.make_deb(parts, room)


def steps_of_readme() -> list[Shown]:
    """The commands of README.md for somebody who has the package: the folder of the example, and the five steps."""
    text = (TOP / "README.md").read_text("utf-8")
    start = text[: text.index(STEPS)].count("\n")
    end = start + text[text.index(STEPS) + 1 :].partition("\n## ")[0].count("\n")
    shown = shown_in("README.md", text)
    return [it for it in shown if it.command.startswith(COPY) or start < it.line <= end + 1]


def test_the_five_steps_from_the_package(package: Path, tmp_path: Path) -> None:
    steps = steps_of_readme()
    assert steps[0].command.startswith(COPY) and len(steps) > 12
    lines = ["dpkg --install /results/bonsai.deb >/results/installed 2>&1", "echo $? >/results/status", "cd"]
    for number, shown in enumerate(steps):
        lines.append(f"{{ {shown.command}\n}} >/results/{number} 2>&1 </dev/null")
    ran = entered(tmp_path, str(package), "\n".join(lines) + "\n")
    assert ran.returncode == 0, ran.stderr
    results = tmp_path / "results"
    assert (results / "status").read_text() == "0\n", (results / "installed").read_text()
    for number, shown in enumerate(steps):
        found = [line.rstrip() for line in (results / str(number)).read_text("utf-8").splitlines()]
        assert fits(shown.output, found), (shown.command, found[:20])


def test_each_tool_of_the_package_is_there_with_its_page_and_completion(package: Path, tmp_path: Path) -> None:
    lines = [
        "dpkg --install /results/bonsai.deb >/dev/null 2>&1",
        "bonsai --where >/results/where",
        "for tool in /usr/bin/bonsai*; do",
        "    name=${tool##*/}",
        '    "$tool" --version >/dev/null && "$tool" --help >/dev/null && [ -f "/usr/share/man/man1/$name.1.gz" ] &&',
        '        [ -f "/usr/share/bash-completion/completions/$name" ] && echo "$name" >>/results/well',
        "done",
        "dpkg --remove bonsai >/dev/null 2>&1",
        "find /usr/share/bonsai /usr/lib/bonsai >/results/left 2>/dev/null",
        "true",
    ]
    assert entered(tmp_path, str(package), "\n".join(lines) + "\n").returncode == 0
    results = tmp_path / "results"
    assert (results / "where").read_text() == "/usr/lib/bonsai/bonsai\n"
    wanted = {"bonsai", *(path.name for path in (TOP / "tools").glob("bonsai-*"))}
    found = set((results / "well").read_text().split())
    assert wanted <= found <= wanted | {"bonsai-all", "bonsai-ask"}
    assert (results / "left").read_text() == ""


def test_the_package_names_authors_and_no_licence(package: Path, tmp_path: Path) -> None:
    subprocess.run(["dpkg-deb", "--extract", package, tmp_path], check=True)
    told = (tmp_path / "usr/share/doc/bonsai/copyright").read_text("utf-8")
    assert "The Bonsai developers" in told and "No licence has been chosen yet" in told
    assert "No licence has been chosen yet" in (TOP / "README.md").read_text("utf-8")
