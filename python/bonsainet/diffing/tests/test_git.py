"""Both sides out of a Git repository, whose work tree stays as it is."""
from __future__ import annotations

import os
import shutil
import signal
import subprocess
from pathlib import Path

import pytest

from bonsainet.ask.program import TOP, Program
from bonsainet.cli.command_line import Refused
from bonsainet.diffing.sides import RANGE, Place, beside, network_at, places
from bonsainet.tests.asking import LATEST, slow_program, wait_for

FOLDER = TOP / "examples" / "folders" / "campus"


def git(place: Path, *words: str) -> str:
    """Runs Git as nobody in particular."""
    who = ("-c", "user.name=a", "-c", "user.email=a@example.org", "-c", "commit.gpgsign=false")
    ran = subprocess.run(["git", "-C", place, *who, *words], capture_output=True, text=True, check=True)
    return ran.stdout.strip()


@pytest.fixture(name="repository")
def fixture_repository(tmp_path: Path, monkeypatch: pytest.MonkeyPatch) -> Path:
    """A repository of configurations with the branches `main` and `change`, in which one stands."""
    place = tmp_path / "repository"
    shutil.copytree(FOLDER / "configs", place / "configs")
    shutil.copy(FOLDER / "decisions", place / "decisions")
    git(tmp_path, "init", "-q", "-b", "main", str(place))
    git(place, "add", "-A")
    git(place, "commit", "-qm", "first")
    git(place, "switch", "-qc", "change")
    file = place / "configs" / "acc1.cfg"
    file.write_text(file.read_text().replace("hostname acc1", "hostname acc9"))
    git(place, "commit", "-qam", "change")
    git(place, "switch", "-q", "main")
    (place / "configs" / "acc1.cfg").write_text("nonsense\n")
    monkeypatch.chdir(place)
    return place


def test_two_revisions(repository: Path) -> None:
    before = git(repository, "status", "--porcelain")
    sides = places("main..change", "configs")
    assert sides == (Place("./configs", "main", "main:configs"), Place("./configs", "change", "change:configs"))
    old, new = (network_at(side, beside("decisions", side), False) for side in sides)
    assert (old.name, new.name) == ("main:configs", "change:configs")
    assert "acc1" in old.routers and "acc9" in new.routers and "acc1" not in new.routers
    assert git(repository, "status", "--porcelain") == before == "M configs/acc1.cfg"
    assert (repository / "configs" / "acc1.cfg").read_text() == "nonsense\n"


@pytest.mark.parametrize("number", [signal.SIGTERM, signal.SIGHUP, signal.SIGINT])
def test_a_signal_leaves_no_folder(number: signal.Signals, repository: Path, tmp_path: Path, program: Program) -> None:
    """Not that of the process that imports the second side either."""
    slow_program(program, tmp_path, "0.5")
    room = tmp_path / "room"
    room.mkdir()
    env = {**os.environ, "BONSAI_PROGRAM": str(tmp_path / "slow"), "TMPDIR": str(room)}
    words = [str(TOP / "tools/bonsai-diff"), "main..change", "configs", "--decisions", "decisions"]
    with subprocess.Popen(words, env=env, stdout=subprocess.DEVNULL, stderr=subprocess.DEVNULL) as started:
        wait_for(lambda: len(list(room.glob("**/folder"))) == 2)
        started.send_signal(number)
        assert started.wait(LATEST) == 128 + number
    assert list(room.iterdir()) == []


def test_the_folder_in_which_one_stands(repository: Path, monkeypatch: pytest.MonkeyPatch) -> None:
    monkeypatch.chdir(repository / "configs")
    sides = places("main..change", None)
    assert sides and "acc9" in network_at(sides[1], beside("../decisions", sides[1]), False).routers


def test_a_folder_and_decisions_of_a_revision(repository: Path) -> None:
    found = network_at(Place("configs", "change"), Place("decisions", "main"), False)
    assert found.name == "change:configs" and "acc9" in found.routers


def test_where_branches_parted(repository: Path) -> None:
    first = git(repository, "rev-parse", "main")
    (repository / "more").write_text("more\n")
    git(repository, "add", "more")
    git(repository, "commit", "-qm", "more")
    sides = places("main...change", "configs")
    assert sides and sides[0].revision == first and sides[0].name == "main:configs"


@pytest.mark.parametrize(
    "words, reason",
    [
        (("none..change", "configs"), "none: no revision of a Git repository here"),
        (("main..change", "elsewhere"), "main: has no elsewhere"),
        (("--help..change", "configs"), "--help: no revision of a Git repository here"),
    ],
)
def test_what_is_not_there(repository: Path, words: tuple[str, str], reason: str) -> None:
    sides = places(*words)
    assert sides
    with pytest.raises(Refused) as refused:
        network_at(sides[0], None, False)
    assert str(refused.value).startswith(reason)


def test_decisions_that_are_not_there(repository: Path) -> None:
    sides = places("main..change", "configs")
    assert sides
    with pytest.raises(Refused, match="main: has no lacking"):
        network_at(sides[0], beside("lacking", sides[0]), False)


def test_links_are_not_followed(repository: Path) -> None:
    os.symlink("/etc/passwd", repository / "configs" / "zzz.cfg")
    git(repository, "add", "-A")
    git(repository, "commit", "-qm", "link")
    with pytest.raises(Refused, match="main:configs: zzz.cfg is a symbolic link"):
        network_at(Place("configs", "main"), None, False)


def test_what_is_refused_names_the_revision(repository: Path) -> None:
    (repository / "empty").mkdir()
    (repository / "empty" / "notes.md").write_text("no router\n")
    git(repository, "add", "-A")
    git(repository, "commit", "-qm", "notes")
    with pytest.raises(Refused, match="^main:empty: no file with a router's configuration"):
        network_at(Place("empty", "main"), None, False)


@pytest.mark.parametrize("word", ["../old", "a/../b", "old/..", "main:configs", "a..b..c", "configs"])
def test_words_that_are_no_range(word: str) -> None:
    assert RANGE.fullmatch(word) is None
