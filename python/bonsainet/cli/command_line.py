"""What all tools share at their command line: `--version`, `-` for standard input, one line for each failure, and exit
statuses.

0 done, 1 the input was refused, 2 the words are wrong, 3 a file could not be read, 4 the output could not be written,
130 interrupted.
"""
from __future__ import annotations

import argparse
import codecs
import contextlib
import errno
import io
import os
import stat
import subprocess
import sys
from collections.abc import Callable, Iterable, Iterator
from typing import Any

from bonsainet.ask.program import TOP, NotAnswered
from bonsainet.ask.where import NoProgram
from bonsainet.cli import progress, streams
from bonsainet.cli.manual import Manual


# (the most that a text may have)
LONGEST_TEXT = 16_777_216


class Refused(Exception):
    """An input that a tool does not take, with one line that says which and why. `details` are lines to write below it
    as they stand."""

    def __init__(self, told: str, details: Iterable[str] = ()) -> None:
        super().__init__(told)
        self.details = list(details)


def version() -> str:
    """The version of the tools: that of the file VERSION, and in a repository the commit by git."""
    if not (TOP / "VERSION").is_file():
        # (by pip the package is installed without the file)
        import importlib.metadata

        return importlib.metadata.version("bonsainet")
    number = (TOP / "VERSION").read_text("utf-8").strip()
    if not (TOP / ".git").exists():
        return number
    try:
        told = subprocess.run(
            ["git", "-C", str(TOP), "describe", "--always", "--dirty"], capture_output=True, text=True, check=False
        )
    except OSError:
        return number
    return f"{number} ({told.stdout.strip()})" if told.stdout.strip() else number


class Version(argparse.Action):
    """Writes the version and ends. Git is asked for it where somebody wants to know."""

    def __init__(self, option_strings: list[str], dest: str, **_more: object) -> None:
        super().__init__(option_strings, dest, nargs=0, help="show program's version number and exit")

    def __call__(self, parser: argparse.ArgumentParser, *_rest: object) -> None:
        print(f"{parser.prog} {version()}")
        parser.exit()


def parser(name: str, purpose: str, statuses: tuple[tuple[str, str], ...] = (), **more: Any) -> argparse.ArgumentParser:
    """A parser with `--version`, whose help says the purpose, and with `--manual`, which writes the tool's page of the
    manual. `statuses` are those that the tool has besides the common ones."""
    made = argparse.ArgumentParser(
        prog=name, description=purpose, formatter_class=argparse.RawDescriptionHelpFormatter, **more
    )
    made.add_argument("--version", action=Version)
    made.add_argument("--manual", action=Manual)
    made.set_defaults(statuses=statuses)
    return made


def read_input(name: str, most: int = LONGEST_TEXT + 1) -> bytes:
    """The bytes of a file, or of standard input where the name is `-`: as many as the program needs to refuse the text
    as too long, if there are more."""
    return streams.standard_input(most) if name == "-" else read_file(name, most)


def read_file(name: str, most: int) -> bytes:
    """The first bytes of a file."""
    try:
        with open(name, "rb") as file:
            return file.read(most)
    except IsADirectoryError as fault:
        raise IsADirectoryError(
            fault.errno, f"{fault.strerror}: bonsai-import makes one text of a folder", name
        ) from None


def name_of(file: str) -> str:
    """What a file of the command line is called."""
    return "standard input" if file == "-" else shown(file)


def write_output(name: str, made: bytes, *sources: str) -> None:
    """Writes a file whole or not at all; `-` is standard output. Refused where the file is a source, or is in one, which was
    read."""
    if name == "-":
        sys.stdout.buffer.write(made)
        sys.stdout.buffer.flush()
        return
    refuse_source(name, *sources)
    with kept(name, made):
        pass


def refuse_source(name: str, *sources: str) -> None:
    """Refuses to write over a file that was read: one of these, or one in a folder of them. `-` is no file."""
    if not os.path.exists(name):
        return
    for source in sources:
        if source != "-" and os.path.exists(source):
            if os.path.samefile(source, name):
                raise Refused(f"{name}: is the file that is read")
            if os.path.isdir(source) and os.path.realpath(name).startswith(os.path.join(os.path.realpath(source), "")):
                raise Refused(f"{name}: is in the folder that is read")


@contextlib.contextmanager
def kept(name: str, made: bytes) -> Iterator[None]:
    """Writes a file that is in its place at the end of the context, and nowhere where the context fails. One that is there
    gives it its mode. What is no file is written at once."""
    whole = os.path.realpath(name)
    part = whole if os.path.exists(whole) and not os.path.isfile(whole) else beside(whole)
    try:
        with writing(name), open(part, "xb" if part != whole else "wb") as file:
            if part != whole and os.path.exists(whole):
                os.fchmod(file.fileno(), stat.S_IMODE(os.stat(whole).st_mode))
            file.write(made)
        yield
        if part != whole:
            with writing(name):
                os.replace(part, whole)
    finally:
        if part != whole and os.path.exists(part):
            os.unlink(part)


def beside(place: str | os.PathLike[str]) -> str:
    """A name beside a file or folder, for what is moved there when it is whole. It is short: the place may have the longest name that there can be."""
    return os.path.join(os.path.dirname(place), f".bonsai-{os.urandom(6).hex()}.part")


@contextlib.contextmanager
def writing(name: str | os.PathLike[str]) -> Iterator[None]:
    """What fails in the context is that a file is written, which ends a tool with status 4."""
    try:
        yield
    except OSError as fault:
        raise not_written(name, fault) from None


def not_written(name: str | os.PathLike[str], fault: OSError) -> OSError:
    """The fault of a file that was not written, which ends a tool with status 4."""
    return OSError(fault.errno or errno.EIO, f"{os.fspath(name)}: {fault.strerror or fault}")


def shown(text: str) -> str:
    """The text as a person can read it: a byte that is no letter, as names of files and lines of texts can have it, is
    `\\xff`."""
    if text.isascii():
        return text
    return "".join(f"\\x{ord(letter) - 0xDC00:02x}" if "\udc80" <= letter <= "\udcff" else letter for letter in text)


def _escaped(fault: UnicodeError) -> tuple[str | bytes, int]:
    """What is written for letters that a stream cannot take: a byte as `shown` has it, another one by its number."""
    if not isinstance(fault, UnicodeEncodeError):
        raise fault
    return shown(fault.object[fault.start : fault.end]).encode("ascii", "backslashreplace").decode("ascii"), fault.end


ESCAPED = "bonsainet.escaped"
codecs.register_error(ESCAPED, _escaped)


def printable(text: str) -> str:
    """The text, with the number of each character that a terminal would obey or that cannot be seen in its place."""
    told = shown(text)
    if told.isprintable():
        return told
    return "".join(it if it.isprintable() else it.encode("unicode_escape").decode() for it in told)


def one_line(text: str) -> str:
    """The text with `?` for what would end the line or move the cursor, as names of files can have it."""
    return "".join("?" if letter < " " or "\x7f" <= letter < "\xa0" else letter for letter in text)


def run(name: str, work: Callable[[], int | None]) -> int:
    """Runs a tool's work and turns each failure into one line on standard error and a status."""
    streams.hold()
    streams.end_by_signals()
    progress.begin()
    for stream in (sys.stdout, sys.stderr):
        if isinstance(stream, io.TextIOWrapper):
            stream.reconfigure(errors=ESCAPED)
    try:
        return _written(work)
    except Refused as refused:
        print(one_line(f"{name}: {refused}"), *refused.details, sep="\n", file=sys.stderr)
        return 1
    except (NotAnswered, NoProgram) as fault:
        print(one_line(f"{name}: {fault}"), file=sys.stderr)
        return 1
    except ModuleNotFoundError as fault:
        return lacking(name, fault)
    except KeyboardInterrupt:
        print(f"{name}: interrupted", file=sys.stderr)
        return 130
    except BrokenPipeError:
        os.dup2(os.open(os.devnull, os.O_WRONLY), sys.stdout.fileno())
        print(f"{name}: write fault", file=sys.stderr)
        return 4
    except OSError as fault:
        is_read = fault.filename is not None
        told = f"{fault.filename}: {fault.strerror}" if is_read else f"write fault: {fault.strerror}"
        print(one_line(f"{name}: {told}"), file=sys.stderr)
        if not is_read:
            os.dup2(os.open(os.devnull, os.O_WRONLY), sys.stdout.fileno())
        return 3 if is_read else 4


def _written(work: Callable[[], int | None]) -> int:
    """Runs a tool's work, with what it wrote to standard output written, also where it refused."""
    try:
        status = work() or 0
    except Refused:
        sys.stdout.flush()
        raise
    sys.stdout.flush()
    return status


def lacking(name: str, fault: ModuleNotFoundError) -> int:
    """Names the package of a Python module that is not there. A module of our own is no package's."""
    module = (fault.name or "").partition(".")[0]
    if module in ("", "bonsainet"):
        raise fault
    print(f"{name}: the Python module {module} is not there: install the package python3-{module}", file=sys.stderr)
    return 1
