"""`dev/fast-build`: the checks of memory are left out, and a file says how the program was made."""
import subprocess

import pytest

from bonsainet.bench.states import kind
from bonsainet.repo import fast_build, packing
from bonsainet.repo.tests.launching import LINKER, beside, make_clone, script


@pytest.fixture
def clone(tmp_path, monkeypatch):
    made = make_clone(tmp_path)
    script(tmp_path / "kit/toolchain/bin/clang", '#!/bin/sh\n[ "$*" = -O3 ]\n')
    script(tmp_path / "kit/toolchain/bin/ld.lld", LINKER)
    for name, value in beside(made).items():
        monkeypatch.setenv(name, value)
    monkeypatch.setattr(fast_build, "TOP", made)
    return made


def test_a_program_is_built_and_says_how(clone, tmp_path) -> None:
    fast_build.main(["bonsai-ask", str(tmp_path / "ask")])
    assert subprocess.run([tmp_path / "ask", "a", "b"], capture_output=True, check=False).stdout == b"words: a b\n"
    assert (tmp_path / "ask.made").read_text() == f"{fast_build.HOW}\n{packing.sum_of(tmp_path / 'ask')}\n"
    assert kind(tmp_path / "ask") == fast_build.HOW


@pytest.mark.parametrize(
    "text, words, left",
    [
        (fast_build.CLANG, ["-O0", "-fsanitize=address", "-c", "x"], "-O3 -c x"),
        (fast_build.CLANG, ["-O0", "-c", "a b"], "-O3 -c a b"),
    ],
)
def test_clang_compiles_without_checks(tmp_path, text, words, left) -> None:
    script(tmp_path / "clang", '#!/bin/sh\necho "$@"\n')
    made = script(tmp_path / "stand-in", text % tmp_path)
    assert subprocess.run([made, *words], capture_output=True, text=True, check=True).stdout == f"{left}\n"


def test_the_library_of_checks_is_not_linked(tmp_path) -> None:
    script(tmp_path / "ld.lld", '#!/bin/sh\necho "$@"\n')
    made = script(tmp_path / "stand-in", fast_build.LINKER % (tmp_path, tmp_path / "to"))
    words = ["-o", "program", "a.o", "--whole-archive", "checks.a", "--no-whole-archive", "libc.so"]
    ran = subprocess.run([made, *words], cwd=tmp_path, capture_output=True, text=True, check=True)
    assert ran.stdout == "-o program a.o libc.so\n"
