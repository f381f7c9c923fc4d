"""`examples/check`: what it reads from pages, and what it says, by programs made for the test."""
from __future__ import annotations

import subprocess
from pathlib import Path

import pytest

from bonsainet.repo import examples, pages
from bonsainet.repo.pages import Quoted, Room, Shown, fits, quoted_in, run_shown, shown_in
from bonsainet.ask.program import TOP

PAGE = """Text.

```
$ ./bonsai classes F
class 1
...
class 9

$ ./build
plain line
```

    $ no command: no code block with a fence

```
nothing
$ one | two \\
  three
```
"""


def test_command_lines_of_a_page() -> None:
    assert shown_in("P", PAGE) == [
        Shown("P", 4, "./bonsai classes F", ["class 1", "...", "class 9"]),
        Shown("P", 9, "./build", ["plain line"]),
        Shown("P", 17, "one | two \\\n  three", []),
    ]


@pytest.mark.parametrize(
    ("wanted", "found", "is_well"),
    [
        ([], [], True),
        ([], ["a"], False),
        (["a"], ["a"], True),
        (["a"], ["a", "b"], False),
        (["a", "..."], ["a", "b", "c"], True),
        (["a", "...", "c"], ["a", "c"], True),
        (["...", "c"], ["a", "b"], False),
    ],
)
def test_output_that_is_shown(wanted: list[str], found: list[str], is_well: bool) -> None:
    assert fits(wanted, found) == is_well


@pytest.mark.parametrize(
    ("command", "output", "kind"),
    [
        ("echo a", ["a"], "ok"),
        ("echo a", ["b"], "not as shown"),
        ("echo a >&2", ["a"], "ok"),
        ("./bonsai x", ["x"], "ok"),
        ("no-such-command a", [], "left out"),
        ("./no-such-file", [], "not as shown"),
        ("./build", [], "left out"),
    ],
)
def test_a_command_line(tmp_path: Path, command: str, output: list[str], kind: str) -> None:
    program = tmp_path / "program"
    program.write_text('#!/bin/sh\necho "$@"\n', "utf-8")
    program.chmod(0o755)
    assert run_shown(Shown("P", 1, command, output), Room.of(tmp_path), str(program))[0] == kind


def test_a_command_runs_where_the_one_before_it_ended(tmp_path: Path) -> None:
    room = Room.of(tmp_path)
    steps = [Shown("P", 1, "mkdir ~/mine && cd ~/mine", []), Shown("P", 2, "pwd", [str(tmp_path / "home" / "mine")])]
    assert [run_shown(step, room, "bonsai")[0] for step in steps] == ["ok", "ok"]


def test_code_of_a_page(tmp_path: Path) -> None:
    (tmp_path / "a.rt").write_text("use b;\n\nfn f() {\n}\n", "utf-8")
    text = "Text.\n\n```rust a.rt\nfn f() {\n}\n```\n\n```\nno quotation\n```\n\n```rust b.rt\nfn f() {\n```\n"
    first, second = quoted_in("P", text)
    assert (first, second) == (Quoted("P", 3, "a.rt", "fn f() {\n}\n"), Quoted("P", 12, "b.rt", "fn f() {\n"))
    assert first.fault(tmp_path) == ""
    assert second.fault(tmp_path) == "line 12: there is no file b.rt"
    for code in ("f() {\n", "fn f() {\n}\n}\n", "fn f()\n", ""):
        assert Quoted("P", 3, "a.rt", code).fault(tmp_path) == "line 3: a.rt has other lines"


def test_each_page_is_read() -> None:
    assert "README.md" in pages.pages() and "docs/inside/PROVED.md" in pages.pages()
    assert shown_in("README.md", (TOP / "README.md").read_text("utf-8"))


def test_keys_leave_out_the_numbers_of_a_path() -> None:
    assert examples.keys_of(b"b bgp 100 path 1 2*3 comms 5\na none\n") == [
        ["a", "none"],
        ["b", "bgp", "100", "4", "comms", "5"],
    ]


def check(*words: str) -> subprocess.CompletedProcess[str]:
    """Runs examples/check."""
    return subprocess.run([TOP / "examples/check", *words], capture_output=True, text=True, check=False)


def test_a_program_that_says_something_else() -> None:
    ran = check("--program", "/bin/echo", "two-routers-classes")
    assert ran.returncode == 1
    assert ran.stdout.startswith("not as kept: classes two-routers.cfg\n") and ran.stdout.endswith(
        "examples: 0 as kept, 1 not\n"
    )


@pytest.mark.parametrize(
    "words",
    [
        ["--program", "/no/such"],
        ["--program", "/bin/echo", "no-name"],
        ["--program", "/bin/echo", "--keep", "definitions"],
    ],
)
def test_refusals(words: list[str]) -> None:
    ran = check(*words)
    assert (ran.returncode, ran.stderr.count("\n")) == (1, 1)


def test_an_answer_is_kept(tmp_path: Path, monkeypatch: pytest.MonkeyPatch) -> None:
    monkeypatch.setattr(examples, "ANSWERS", tmp_path)
    given = examples.Answer(1, b"", b"refused: line 1: BadForm\n")
    examples.keep("one", given)
    assert examples.kept("one") == given
    assert sorted(path.name for path in tmp_path.iterdir()) == ["one.err", "one.status"]
    examples.keep("one", examples.Answer(0, b"a\n", b""))
    assert [path.name for path in tmp_path.iterdir()] == ["one.out"]


@pytest.mark.parametrize("script", ["commands", "twice", "round", "certified"])
def test_each_input_is_there(script: str) -> None:
    named = {word for words in examples.lines_of(script) for word in words if word.endswith((".cfg", ".txt"))}
    assert named - {"missing.cfg"} <= {path.name for path in examples.INPUTS.iterdir()}
