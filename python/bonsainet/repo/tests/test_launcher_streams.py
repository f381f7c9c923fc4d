"""The launcher and its program where standard streams are closed, and `-`, which is standard input whatever that is."""
from __future__ import annotations

import os
import re
import socket
import subprocess
from pathlib import Path

import pytest

from bonsainet.ask.program import TOP
from bonsainet.repo.tests.launching import beside, launch, make_clone, script

# What stands for the program: it leaves a file for each standard stream that it has, tells that it was asked, and fails where it cannot.
ASKED = """#!/bin/sh
for number in 0 1 2; do [ ! -e /proc/$$/fd/$number ] || touch "$ROOM/has-$number"; done
echo "asked: $*" || { echo "write fault" >&2; exit 4; }
"""


@pytest.fixture(name="clone")
def clone_fixture(tmp_path: Path) -> Path:
    """A repository with the launcher, and beside it a kit."""
    return make_clone(tmp_path)


def run_closed(clone: Path, words: str, closing: str, **more: str) -> tuple[int, bytes, bytes]:
    """What the launcher came to where the shell closes a stream. Standard output and error go to files, as a pipe would be one more stream."""
    room = clone.parent
    command = f'"$0"/bonsai {words} {closing}'
    with open(room / "out", "wb") as out, open(room / "err", "wb") as err:
        ran = subprocess.run(
            ["/bin/sh", "-c", command, clone],
            stdin=subprocess.DEVNULL,
            stdout=out,
            stderr=err,
            env=beside(clone, **more),
            check=False,
        )
    return ran.returncode, (room / "out").read_bytes(), (room / "err").read_bytes()


@pytest.fixture(name="given")
def given_fixture(clone: Path) -> dict[str, str]:
    """An environment whose program is the one above."""
    return {"BONSAI_PROGRAM": str(script(clone.parent / "program", ASKED)), "ROOM": str(clone.parent)}


def test_no_notice_stands_before_an_answer(clone: Path) -> None:
    for _ in range(2):
        assert run_closed(clone, "classes F", "2>&-") == (0, b"words: classes F\n", b"")


@pytest.mark.parametrize("words", ["--help", "--version", "--where"])
def test_own_answers_on_a_closed_output(clone: Path, words: str) -> None:
    launch(clone, "classes", "F")
    status, out, err = run_closed(clone, words, ">&-")
    assert (status, out) == (4, b"") and err.endswith(b"write fault\n")


@pytest.mark.parametrize(
    ("closing", "status"), [("<&-", 0), (">&-", 4), ("2>&-", 0), ("<&- 2>&-", 0), ("<&- >&- 2>&-", 4)]
)
def test_the_program_has_the_streams_that_were_given(
    clone: Path, given: dict[str, str], closing: str, status: int
) -> None:
    ran = run_closed(clone, "classes F", closing, **given)
    assert ran[:2] == (status, b"asked: classes F\n" if status == 0 else b"")
    closed = {{"<": "has-0", ">": "has-1", "2": "has-2"}[word[0]] for word in closing.split()}
    assert {path.name for path in clone.parent.glob("has-*")} == {"has-0", "has-1", "has-2"} - closed


def test_dash_where_standard_input_is_closed(clone: Path, given: dict[str, str]) -> None:
    status, out, err = run_closed(clone, "classes -", "<&-", **given)
    assert (status, out, err.splitlines()[-1]) == (3, b"", b"read fault: standard input")


@pytest.mark.parametrize("closing", ["<&-", ">&-", "2>&-"])
def test_a_build_where_a_stream_is_closed(clone: Path, closing: str) -> None:
    status, out, _ = run_closed(clone, "classes F", closing)
    assert (status, out) == (0, b"words: classes F\n") or closing == ">&-" and out == b""


def test_dash_is_a_socket(clone: Path) -> None:
    ours, theirs = socket.socketpair()
    ours.sendall(b"hostname a\n")
    ours.shutdown(socket.SHUT_WR)
    assert launch(clone, "classes", "-", stdin=theirs).stdout.splitlines()[1:] == [b"hostname a"]


def test_dash_is_the_rest_of_a_file_that_was_read_in_part(clone: Path) -> None:
    (clone.parent / "two").write_bytes(b"first\nsecond\n")
    with open(clone.parent / "two", "rb", buffering=0) as file:
        file.read(6)
        assert launch(clone, "classes", "-", stdin=file).stdout.splitlines()[1:] == [b"second"]


def test_dash_does_not_take_a_standard_stream(clone: Path, given: dict[str, str]) -> None:
    command = 'echo text | "$0"/bonsai classes - 2>&-'
    ran = subprocess.run(
        ["/bin/sh", "-c", command, clone], stdout=subprocess.PIPE, env=beside(clone, **given), check=False
    )
    assert int(ran.stdout.decode().split("/")[-1]) > 2


@pytest.mark.parametrize(
    "name, words, taken",
    [
        ("bonsai", "classes -", "classes IN"),
        ("bonsai", "groups - 1", "groups IN 1"),
        ("bonsai", "check F 1 -", "check F 1 IN"),
        ("bonsai", "groups F -", "groups F -"),
        ("bonsai", "trial -", "trial -"),
        ("bonsai", "nonsense -", "nonsense -"),
        ("bonsai-ask", "- 1 count", "IN 1 count"),
        ("bonsai-ask", "F questions -", "F questions IN"),
        ("bonsai-ask", "F 1 route -", "F 1 route -"),
        ("bonsai-ask", "F - count", "F - count"),
        ("bonsai-all", "- groups", "IN groups"),
        ("bonsai-all", "F groups - 2", "F groups - 2"),
    ],
)
def test_dash_stands_for_a_file_alone(name: str, words: str, taken: str, clone: Path, given: dict[str, str]) -> None:
    named = {f"{name.upper().replace('-', '_')}_PROGRAM": given["BONSAI_PROGRAM"]}
    ran = launch(clone, *words.split(), name=name, stdin=None, input=b"text", env=beside(clone, **{**given, **named}))
    told = re.sub(r"/proc/self/fd/\d+", "IN", ran.stdout.decode())
    assert (ran.returncode, told) == (0, f"asked: {taken}\n")


@pytest.mark.parametrize("words", ["classes -", "groups - 1", "check F 10.0.0.0/8 -", "groups F 10.0.0.0/8"])
def test_words_of_no_form_read_nothing(words: str, clone: Path) -> None:
    usage = script(clone.parent / "usage", '#!/bin/sh\necho "usage: $*" >&2\nexit 2\n')
    reader, writer = os.pipe()
    ran = launch(clone, *words.split(), stdin=reader, env=beside(clone, BONSAI_PROGRAM=str(usage)), timeout=60)
    os.close(reader)
    os.close(writer)
    taken = words.replace("F", "/dev/null").replace("-", "/dev/null").replace("10.0.0.0/8", "1")
    assert (ran.returncode, ran.stderr.splitlines()[-1].decode()) == (2, f"usage: {taken}")


def test_a_class_by_its_prefix_in_a_text_that_is_read_once(tmp_path: Path) -> None:
    text = TOP / "examples" / "inputs" / "campus.cfg"
    asked: list[str | Path] = [TOP / "bonsai", "groups", "/dev/stdin", "10.10.0.0/24"]
    ran = subprocess.run(asked, input=text.read_bytes(), capture_output=True, check=False)
    wanted = subprocess.run([TOP / "bonsai", "groups", text, "10"], capture_output=True, check=True)
    assert (ran.returncode, ran.stdout) == (0, wanted.stdout)
