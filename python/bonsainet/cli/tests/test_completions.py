"""The completions of the shells know the commands that `bonsai --help` lists."""
from __future__ import annotations

import re
import subprocess
from pathlib import Path

from bonsainet.ask.program import TOP

FILE = TOP / "tools/completions/bonsai.bash"


def commands() -> list[str]:
    """The commands of the launcher."""
    told = subprocess.run([TOP / "bonsai", "--help"], capture_output=True, text=True, check=True).stdout
    return re.findall(r"^  ([a-z]+) [A-Z]", told, re.M)


def completed(*words: str, cwd: Path = TOP) -> set[str]:
    """What bash offers for the last of the words."""
    given = " ".join(f"'{word}'" for word in words)
    script = f"compopt() {{ :; }}; . '{FILE}'; COMP_WORDS=({given}); COMP_CWORD={len(words) - 1}; _bonsai; printf '%s\\n' \"${{COMPREPLY[@]}}\""
    return set(
        subprocess.run(["bash", "-c", script], capture_output=True, text=True, check=True, cwd=cwd).stdout.split()
    )


def test_bash_completes_commands() -> None:
    assert completed("bonsai", "") == {*commands(), "--help", "--version"}
    assert completed("bonsai", "com") == {"compress"}


def test_bash_completes_classes_and_files(tmp_path: Path) -> None:
    program = tmp_path / "bonsai"
    program.write_text("#!/bin/sh\necho 'class 1 prefixes p origins a'\necho 'class 2 prefixes q origins b'\n", "utf-8")
    program.chmod(0o755)
    (tmp_path / "f.cfg").write_text("", "utf-8")
    assert completed("./bonsai", "groups", "f", cwd=tmp_path) == {"f.cfg"}
    assert completed("./bonsai", "groups", "f.cfg", "", cwd=tmp_path) == {"1", "2"}
    assert completed("./bonsai", "check", "f.cfg", "1", "f", cwd=tmp_path) == {"f.cfg"}
    assert completed("./bonsai", "groups", "f.cfg", "1", "f", cwd=tmp_path) == set()


def test_zsh_knows_the_commands() -> None:
    text = (TOP / "tools/completions/_bonsai").read_text("utf-8")
    assert re.findall(r"^        '([a-z]+):", text, re.M) == commands()


def completed_ask(*words: str, cwd: Path = TOP) -> set[str]:
    """What bash offers for the last of the words of bonsai-ask."""
    given = " ".join(f"'{word}'" for word in words)
    file = TOP / "tools/completions/bonsai-ask.bash"
    script = f"compopt() {{ :; }}; . '{file}'; COMP_WORDS=({given}); COMP_CWORD={len(words) - 1}; _bonsai_ask; printf '%s\\n' \"${{COMPREPLY[@]}}\""
    return set(
        subprocess.run(["bash", "-c", script], capture_output=True, text=True, check=True, cwd=cwd).stdout.split()
    )


def test_bash_completes_questions(tmp_path: Path) -> None:
    program = tmp_path / "bonsai"
    program.write_text("#!/bin/sh\necho 'class 1 prefixes 10.0.0.0/8 10.1.0.0/16 origins a'\n", "utf-8")
    program.chmod(0o755)
    (tmp_path / "f.cfg").write_text("hostname core1\nhostname core2\nhostname edge\n", "utf-8")
    asked = "./bonsai-ask", "f.cfg"
    assert completed_ask("./bonsai-ask", "--j", cwd=tmp_path) == {"--json", "--junit", "--jobs"}
    assert completed_ask("./bonsai-ask", "f", cwd=tmp_path) == {"f.cfg"}
    assert completed_ask(*asked, "", cwd=tmp_path) == {"1", "10.0.0.0/8", "10.1.0.0/16", "questions"}
    assert completed_ask("./bonsai-ask", "--json", "f.cfg", "q", cwd=tmp_path) == {"questions"}
    assert completed_ask(*asked, "1", "c", cwd=tmp_path) == {"count", "carries"}
    assert completed_ask(*asked, "1", "failing", "", cwd=tmp_path) == {"links", "routers"}
    assert completed_ask(*asked, "1", "failing", "links", "r", cwd=tmp_path) == {"route"}
    assert completed_ask(*asked, "1", "without", "core1,c", cwd=tmp_path) == {"core1,core1", "core1,core2"}
    assert completed_ask(*asked, "1", "without", "core1", "r", cwd=tmp_path) == {"route"}
    assert completed_ask(*asked, "1", "through", "core1", "e", cwd=tmp_path) == {"edge"}
    assert completed_ask(*asked, "questions", "f", cwd=tmp_path) == {"f.cfg"}
