"""The launcher takes a prefix or an address where a number of a class stands."""
from __future__ import annotations

import subprocess
from pathlib import Path

import pytest

from bonsainet.ask.program import TOP, Program
from bonsainet.ask.where import without_notices

ROUTER = "hostname {0}\ninterface Vlan1\n ip address {1}.1 255.255.255.0\ninterface Vlan2\n ip address {2}.1 255.255.0.0\nrouter bgp {0}\n"
TEXT = (
    ROUTER.format("1", "10.1.1", "10.2.0")
    + " network 10.1.1.0 mask 255.255.255.0\n network 10.2.0.0 mask 255.255.0.0\nend\n"
)
TEXT += ROUTER.format("2", "10.2.9", "10.4.0") + " network 10.2.9.0 mask 255.255.255.0\nend\n"


def asked(tmp_path: Path, *words: str, given: str | None = None) -> tuple[int, bytes, bytes]:
    """What the launcher answers about the text, by the program that tests use."""
    (tmp_path / "F").write_text(TEXT)
    ran = subprocess.run(
        [str(TOP / "bonsai"), *words],
        cwd=tmp_path,
        env={"BONSAI_PROGRAM": Program().path, "PATH": "/usr/bin:/bin"},
        input=given.encode() if given else b"",
        capture_output=True,
        check=False,
    )
    return ran.returncode, ran.stdout, without_notices(ran.stderr)


@pytest.mark.parametrize(
    "word, prefix",
    [
        ("10.1.1.0/24", "10.1.1.0/24"),
        ("10.1.1.77/24", "10.1.1.0/24"),
        ("10.2.9.200", "10.2.9.0/24"),
        ("10.2.8.1", "10.2.0.0/16"),
        ("10.2.0.0/16", "10.2.0.0/16"),
    ],
)
def test_a_class_by_a_prefix_or_an_address(word: str, prefix: str, tmp_path: Path) -> None:
    classes = asked(tmp_path, "classes", "F")[1].decode().splitlines()
    number = next(line.split()[1] for line in classes if prefix in line.split())
    assert asked(tmp_path, "report", "F", word) == asked(tmp_path, "report", "F", number)
    assert asked(tmp_path, "report", "-", word, given=TEXT) == asked(tmp_path, "report", "F", number)


@pytest.mark.parametrize("word", ["10.9.0.0/24", "10.1.1.0/25", "10.2.0.0/15", "192.0.2.1"])
def test_a_prefix_that_no_class_has(word: str, tmp_path: Path) -> None:
    assert asked(tmp_path, "groups", "F", word) == (1, b"", f"refused: NoClass {word}\n".encode())


@pytest.mark.parametrize("word", ["10.1.1.0/33", "10.1.1", "010.1.1.0/24", "10.1.1.256", "a.b.c.d", "10.1.1.0/"])
def test_words_of_no_form_stay_as_they_are(word: str, tmp_path: Path) -> None:
    status, _, told = asked(tmp_path, "groups", "F", word)
    assert status == 2 and told.startswith(b"usage: ")


def test_what_is_found_before_the_class(tmp_path: Path) -> None:
    assert asked(tmp_path, "groups", "none", "10.1.1.0/24") == (3, b"", b"read fault: none\n")
    assert asked(tmp_path, "groups", "-", "10.1.1.0/24", given="bad\n") == (1, b"", b"refused: line 1: UnknownLine\n")


def test_a_folder_is_no_text(tmp_path: Path) -> None:
    (tmp_path / "folder").mkdir()
    told = b"bonsai: a folder is no text: bonsai-import makes one text of it\nread fault: folder\n"
    assert asked(tmp_path, "groups", "folder", "1") == (3, b"", told)
