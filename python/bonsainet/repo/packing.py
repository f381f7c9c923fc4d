"""Where the parts of an installed Bonsai go, and the Debian package of them."""
from __future__ import annotations

import dataclasses
import email.utils
import gzip
import hashlib
import os
import shutil
import subprocess
import tempfile
from collections.abc import Iterator
from pathlib import Path

from bonsainet.cli.command_line import Refused

LAUNCHER = "bonsai"
AUTHORS = "The Bonsai developers"
MAINTAINER = f"{AUTHORS} <maintainers@users.noreply.feltersienna.example>"
# What is installed of each program NAME, if the repository has it: the source and the place below the prefix.
PARTS = (
    ("tools/completions/{name}.bash", "share/bash-completion/completions/{name}", 0o644),
    ("tools/completions/_{name}", "share/zsh/site-functions/_{name}", 0o644),
)
MANUAL = ("docs/man/{name}.1", "share/man/man1/{name}.1.gz")
# The tools beside the programs, which begin in the Python package. `SHARE` stands for the repository: it has what the tools read of it.
SHARE, MODULES = "share/bonsai", "python/bonsainet"
READ = ("VERSION", "docs/data/bonsai.schema.json", "docs/use/*.md")
OF_MAINTAINERS = ("repo", "bench", "corpus", "tests", "__pycache__", "conftest.py")
IN_REPOSITORY, INSTALLED = 'parent.parent / "python"', 'parent.parent / "share" / "bonsai" / "python"'
# Where Python looks for modules, by its name: Debian's packages under `python3`, what a person installs under `python3.11`.
IMPORTED, OF_DEBIAN = "lib/{python}/dist-packages/bonsainet", "python3"
COMPLETION = (("bonsai-tools.bash", "share/bash-completion/completions"), ("_bonsai-tools", "share/zsh/site-functions"))
EXAMPLE, EXAMPLES = "examples/folders/campus", "share/doc/bonsai/examples/campus"

COPYRIGHT = f"""Format: https://www.debian.org/doc/packaging-manuals/copyright-format/1.0/
Upstream-Name: bonsai
Upstream-Contact: {MAINTAINER}

Files: *
Copyright: 2026 {AUTHORS}
License: none-chosen
 No licence has been chosen yet, so no right to copy or to change this program
 is given. Whoever wants to pass the package on asks the developers.
"""
CHANGES = f"""bonsai ({{version}}) unstable; urgency=medium

  * CHANGELOG.md of the repository has the changes.

 -- {MAINTAINER}  {{date}}
"""
# (the program is installed as it was linked, byte for byte)
OVERRIDES = "".join(
    f"bonsai: unstripped-binary-or-object [usr/lib/bonsai/{name}]\n" for name in ("bonsai", "bonsai-ask", "bonsai-all")
)
CONTROL = f"""Package: bonsai
Version: {{version}}
Architecture: amd64
Maintainer: {MAINTAINER}
Depends: libc6 (>= 2.34), python3 (>= 3.11), graphviz, python3-graphviz, python3-jinja2
Recommends: python3-jsonschema, python3-rich
Suggests: frr, iproute2, openssh-client, parallel, python3-networkx, python3-pandas, rsync
Installed-Size: {{size}}
Section: net
Priority: optional
Description: makes a large network small for those who analyse it
 Reads the configurations of all routers of a network and a class of destination
 prefixes, and writes those of a smaller network that routes to them in the same
 way. The program is proved with {{kit}}.
"""
# (byte code that the system's Python keeps beside modules comes and goes with the package)
SCRIPTS = {
    "postinst": "py3compile -p bonsai /usr/share/bonsai/python",
    "prerm": "py3clean -p bonsai /usr/share/bonsai/python",
}


def sum_of(path: Path) -> str:
    """The checksum of a file."""
    return hashlib.sha256(path.read_bytes()).hexdigest()


@dataclasses.dataclass(frozen=True)
class Parts:
    """What is installed: the repository, its proved programs, its version, and the kit that proved them."""

    top: Path
    programs: list[Path]
    version: str
    kit: str


def version_of(top: Path) -> str:
    """The version of the file VERSION, and behind it the time and name of the commit by git, and `.dirty` where files differ from it."""
    number = (top / "VERSION").read_text("utf-8").strip()
    told = _git(top, "log", "-1", "--format=%cd.%h", "--date=format-local:%Y%m%d%H%M%S")
    if not told:
        return number
    return f"{number}+{told}" + (".dirty" if _git(top, "status", "--porcelain", "-uno") else "")


def _git(top: Path, *words: str) -> str:
    """What git says of a repository, or nothing."""
    try:
        told = subprocess.run(
            ["git", "-C", str(top), *words],
            capture_output=True,
            text=True,
            check=False,
            env={**os.environ, "TZ": "UTC"},
        )
    except OSError:
        return ""
    return told.stdout.strip() if told.returncode == 0 else ""


def write(path: Path, data: bytes, mode: int) -> Path:
    """Writes a file whole, in the place of one that is there. Folders that it makes are open to all users, whatever the mask is."""
    _make_folder(path.parent)
    new = path.with_name(path.name + ".new")
    new.write_bytes(data)
    new.chmod(mode)
    os.replace(new, path)
    return path


def _make_folder(path: Path) -> None:
    """Makes a folder with those above it."""
    for folder in [it for it in reversed([path, *path.parents][:-1]) if not it.exists()]:
        folder.mkdir(exist_ok=True)
        folder.chmod(0o755)


def install(parts: Parts, prefix: Path, python: str = OF_DEBIAN) -> list[Path]:
    """Installs launcher, programs and tools, their pages of the manual and completions, and an example below the prefix, and returns the files.
    Modules are found by the Python of this name."""
    made = [
        write(prefix / "lib/bonsai/version", f"{parts.version}\n".encode(), 0o644),
        write(prefix / "lib/bonsai/kit", f"{parts.kit}\n".encode(), 0o644),
    ]
    for program in parts.programs:
        name = program.name.replace("_", "-")
        made.append(write(prefix / "lib/bonsai" / name, program.read_bytes(), 0o755))
        made.append(write(prefix / "bin" / name, (parts.top / LAUNCHER).read_bytes(), 0o755))
        for source, place, mode in PARTS:
            if (parts.top / source.format(name=name)).is_file():
                made.append(
                    write(prefix / place.format(name=name), (parts.top / source.format(name=name)).read_bytes(), mode)
                )
        made += _manual(parts.top, name, prefix)
    modules = [*_modules(parts.top, prefix), _imported(prefix, python)]
    return [*made, *_tools(parts.top, prefix), *modules, *_example(parts.top, prefix)]


def _manual(top: Path, name: str, prefix: Path) -> Iterator[Path]:
    """The page of the manual, where there is one."""
    page = top / MANUAL[0].format(name=name)
    if page.is_file():
        yield write(prefix / MANUAL[1].format(name=name), gzip.compress(page.read_bytes(), mtime=0), 0o644)


def _tools(top: Path, prefix: Path) -> Iterator[Path]:
    """The scripts that start the tools, with their pages and completions. bash looks a completion up by the name of the command."""
    scripts = sorted((top / "tools").glob("bonsai-*"))
    (in_bash, bash), (in_zsh, zsh) = COMPLETION
    for script in scripts:
        text = script.read_text("utf-8")
        if IN_REPOSITORY not in text:
            raise Refused(f"{script}: does not say where the Python package is")
        yield write(prefix / "bin" / script.name, text.replace(IN_REPOSITORY, INSTALLED).encode(), 0o755)
        yield from _manual(top, script.name, prefix)
        yield write(prefix / bash / script.name, (top / "tools/completions" / in_bash).read_bytes(), 0o644)
    if scripts:
        yield write(prefix / zsh / in_zsh, (top / "tools/completions" / in_zsh).read_bytes(), 0o644)


def _modules(top: Path, prefix: Path) -> Iterator[Path]:
    """The Python package without what only maintainers use, and the files of the repository that it reads."""
    for folder, below, names in os.walk(top / MODULES):
        below[:] = sorted(name for name in below if name not in OF_MAINTAINERS)
        for name in sorted(name for name in names if name not in OF_MAINTAINERS):
            file = Path(folder, name)
            yield write(prefix / SHARE / file.relative_to(top), file.read_bytes(), 0o644)
    for pattern in READ:
        for file in sorted(top.glob(pattern)):
            yield write(prefix / SHARE / file.relative_to(top), file.read_bytes(), 0o644)


def _imported(prefix: Path, python: str) -> Path:
    """A link by which Python finds the package without more words."""
    link = prefix / IMPORTED.format(python=python)
    if link.exists() and not link.is_symlink():
        raise Refused(f"{link}: is there, and is no link to what is installed")
    _make_folder(link.parent)
    link.unlink(missing_ok=True)
    link.symlink_to(os.path.relpath(prefix / SHARE / MODULES, link.parent))
    return link


def _example(top: Path, prefix: Path) -> Iterator[Path]:
    """The folder of the README's steps: its configurations and its decisions."""
    for file in sorted([*(top / EXAMPLE).glob("decisions"), *(top / EXAMPLE).glob("configs/*")]):
        yield write(prefix / EXAMPLES / file.relative_to(top / EXAMPLE), file.read_bytes(), 0o644)


def make_deb(parts: Parts, folder: Path) -> Path:
    """Makes the Debian package, of the same bytes each time, and returns it."""
    if not shutil.which("dpkg-deb"):
        raise Refused("the command dpkg-deb is not on the path: a Debian package is made on Debian")
    folder.mkdir(parents=True, exist_ok=True)
    package = folder / f"bonsai_{parts.version}_amd64.deb"
    when = int(_git(parts.top, "log", "-1", "--format=%ct") or (parts.top / LAUNCHER).stat().st_mtime)
    with tempfile.TemporaryDirectory(prefix="bonsai-deb-") as room:
        tree = Path(room, "tree")
        files = [*install(parts, tree / "usr"), *_about(parts, tree / "usr/share", when)]
        size = sum(file.stat().st_size for file in files) // 1024 + 1
        control = CONTROL.format(version=parts.version, size=size, kit=parts.kit.partition(" ")[0])
        write(tree / "DEBIAN/control", control.encode(), 0o644)
        for name, command in SCRIPTS.items():
            write(tree / "DEBIAN" / name, f"#!/bin/sh\nset -e\n{command}\n".encode(), 0o755)
        for at, _, _ in os.walk(tree):
            os.chmod(at, 0o755)
        # (times of files are those of the commit, or earlier)
        env = {**os.environ, "SOURCE_DATE_EPOCH": str(when)}
        words = ["dpkg-deb", "--root-owner-group", "--build", str(tree), str(package)]
        made = subprocess.run(words, capture_output=True, text=True, check=False, env=env)
    if made.returncode:
        raise Refused(f"dpkg-deb: {made.stderr.strip()}")
    return package


def _about(parts: Parts, share: Path, when: int) -> list[Path]:
    """What a package says of itself: copyright, changes, and what lintian need not tell."""
    date = email.utils.formatdate(when)
    changes = gzip.compress(CHANGES.format(version=parts.version, date=date).encode(), mtime=0)
    return [
        write(share / "doc/bonsai/copyright", COPYRIGHT.encode(), 0o644),
        write(share / "doc/bonsai/changelog.gz", changes, 0o644),
        write(share / "lintian/overrides/bonsai", OVERRIDES.encode(), 0o644),
    ]
