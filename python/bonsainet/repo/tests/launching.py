"""What tests of the launchers share: a repository of two crates with the launcher, a kit beside it, and what stands for programs and `rt`."""
from __future__ import annotations

import hashlib
import os
import shutil
import subprocess
from pathlib import Path
from typing import Any

from bonsainet.ask.program import TOP

# What stands for the program: it tells its words, copies its first file, and ends with the status that STATUS has.
PROGRAM = '#!/bin/sh\necho "words: $*"\n[ ! -e "$2" ] || cat "$2"\nexit "${STATUS:-0}"\n'
# What stands for the kit's rt: it links by the toolchain of its own kit, runs what was linked, and counts its calls. The program that it
# makes tells what src/lib.rt of the crate low had when rt began.
RT = """#!/usr/bin/env python3
import os, pathlib, subprocess, sys, tempfile, time
kit = os.path.dirname(os.path.dirname(os.path.realpath(__file__)))
with open(os.environ["CALLS"], "a") as calls:
    calls.write(" ".join([os.getcwd(), str(os.getpid()), *sys.argv[1:]]) + "\\n")
os.environ["CODE"] = pathlib.Path("../low/src/lib.rt").read_text().strip()
time.sleep(float(os.environ.get("SECONDS", "0")))
with tempfile.TemporaryDirectory() as room:
    subprocess.run([kit + "/toolchain/bin/clang", "-O0"], cwd=room, check=True)
    subprocess.run([kit + "/toolchain/bin/ld.lld"], cwd=room, check=True)
print(os.environ.get("ENDS", "run=ended status=1 runners=1 proved=no"), file=sys.stderr)
sys.exit(1)
"""
LINKER = """#!/bin/sh
cat > program <<END
#!/bin/sh
echo "code: $CODE" >&3
END
cat >> program <<'END'
echo "words: $*"
[ ! -e "$2" ] || cat "$2"
exit "${STATUS:-0}"
END
sed -i 's/ >&3$//; /^echo "code/ s/^/[ -z "$TELLS" ] || /' program
chmod 755 program
"""


def script(path: Path, text: str) -> Path:
    """Writes a program."""
    path.parent.mkdir(parents=True, exist_ok=True)
    path.write_text(text, "utf-8")
    path.chmod(0o755)
    return path


def make_clone(room: Path) -> Path:
    """A repository with the launchers and crates of three programs, and beside it a kit."""
    for crate in ("low", "bonsai", "bonsai_ask", "bonsai_all"):
        (room / "clone/crates" / crate / "src").mkdir(parents=True)
        (room / "clone/crates" / crate / "src/main.rt").write_text(f"// {crate}\n", "utf-8")
    (room / "clone/crates.txt").write_text("bonsai: low\nbonsai_ask: low\nbonsai_all: low\nlow:\n", "utf-8")
    (room / "clone/HANDLES").write_text("Handles allowed: none.\n", "utf-8")
    (room / "clone/crates/low/src/lib.rt").write_text("// one\n", "utf-8")
    shutil.copy(TOP / "bonsai", room / "clone/bonsai")
    for name in ("bonsai-ask", "bonsai-all"):
        (room / "clone" / name).symlink_to("bonsai")
    make_kit(room / "kit")
    return room / "clone"


def make_kit(kit: Path) -> None:
    """A kit whose rt is the one above."""
    script(kit / "bin/rt", RT)
    (kit / "bin/rtlib.py").write_text("", "utf-8")
    (kit / "WHAT").write_text("kit 1\n", "utf-8")
    (kit / "KIT-ID").write_text("kit-1\n", "utf-8")
    (kit / "toolchain/lib").mkdir(parents=True)
    script(kit / "toolchain/bin/clang", '#!/bin/sh\n[ "$1" = -O1 ]\n')
    script(kit / "toolchain/bin/ld.lld", LINKER)


def beside(clone: Path, **more: str) -> dict[str, str]:
    """An environment with the clone's kit, and a cache of its own."""
    room = clone.parent
    named = {"BONSAI_PROGRAM": "", "XDG_CACHE_HOME": str(room / "cache"), "CALLS": str(room / "calls")}
    return {**os.environ, **named, "PATH": f"{room}/kit/bin:{os.environ['PATH']}", **more}


def launch(clone: Path, *words: str, name: str = "bonsai", **more: object) -> subprocess.CompletedProcess[bytes]:
    """Runs a launcher of a clone with the clone's kit."""
    how: dict[str, Any] = {"stdin": subprocess.DEVNULL, "env": beside(clone), **more}
    return subprocess.run([clone / name, *words], capture_output=True, check=False, **how)


def calls(clone: Path) -> list[list[str]]:
    """The calls of rt: of each its folder, its process and its words."""
    file = clone.parent / "calls"
    return [line.split() for line in file.read_text("utf-8").splitlines()] if file.exists() else []


def builds(clone: Path) -> list[Path]:
    """The unproved builds that are kept."""
    return sorted((clone.parent / "cache/bonsai").glob("unproved-*"))


def proved(clone: Path, crate: str = "bonsai") -> Path:
    """Puts a program where ./build puts it, with what it says about it."""
    program = script(clone / "crates" / crate / "out" / crate, f'#!/bin/sh\necho "proved {crate}: $*"\n')
    made = [clone / "crates.txt", clone / "HANDLES"]
    made += [
        path
        for part in ("low", crate)
        for path in (clone / "crates" / part).rglob("*")
        if path.is_file() and "out" not in path.parts
    ]
    digest = hashlib.sha256(program.read_bytes()).hexdigest()
    program.with_name(f"{crate}.made").write_text(f"sources\n{digest}\nkit-0\n{len(made)}\n", "utf-8")
    return program
