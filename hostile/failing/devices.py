"""Devices that fail: what a command of each program must end with, by the table of statuses in docs/use/COMMANDS.md."""
from __future__ import annotations

import contextlib
import os
import signal
import subprocess
import threading
import time
from collections.abc import Callable
from pathlib import Path
from typing import IO, Any

from bonsainet.ask.native import program_file
from bonsainet.ask.program import TOP

FABRIC = str(TOP / "examples" / "inputs" / "fabric.cfg")
CAMPUS = str(TOP / "examples" / "inputs" / "campus.cfg")
SOLUTION = str(TOP / "examples" / "inputs" / "fabric-solution.txt")
End = tuple[int, bytes, bytes]
"""A status, what was written, and the line on standard error."""
# Of each program a command that writes more than 512 bytes.
WRITING = {
    "bonsai": ["compress", FABRIC, "1"],
    "bonsai-ask": [CAMPUS, "*", "solutions"],
    "bonsai-all": [FABRIC, "compress"],
}
PROGRAMS = list(WRITING)


def reading(program: str, file: object) -> list[str]:
    """Words that only read F."""
    return {"bonsai": ["classes", f"{file}"], "bonsai-ask": [f"{file}", "*", "count"]}.get(
        program, [f"{file}", "groups"]
    )


def reading_second(program: str, file: object) -> list[str]:
    """Words that read F and then S."""
    return [FABRIC, "questions", f"{file}"] if program == "bonsai-ask" else ["check", FABRIC, "1", f"{file}"]


def end(words: list[str], program: str = "bonsai", **more: Any) -> End:
    """Runs a command of a program to its end."""
    given: dict[str, Any] = {"stdout": subprocess.PIPE, **more}
    ran = subprocess.run([program_file(program), *words], stderr=subprocess.PIPE, check=False, timeout=60, **given)
    return ran.returncode, ran.stdout or b"", ran.stderr


def _rest(stream: IO[bytes] | None) -> bytes:
    return stream.read() if stream else b""


def plain(program: str = "bonsai") -> bytes:
    """What the command that writes does where nothing fails."""
    return end(WRITING[program], program)[1]


def full(program: str = "bonsai") -> End:
    """The output takes nothing."""
    with open("/dev/full", "wb") as device:
        return end(WRITING[program], program, stdout=device)


def closed_pipe(program: str = "bonsai") -> End:
    """Nobody reads the output."""
    reader, writer = os.pipe()
    os.close(reader)
    with os.fdopen(writer, "wb") as device:
        return end(WRITING[program], program, stdout=device)


def closed_output(program: str = "bonsai") -> End:
    """There is no standard output at all."""
    return end(WRITING[program], program, preexec_fn=lambda: os.close(1), stdout=None)


def full_error(program: str = "bonsai", words: list[str] | None = None) -> int:
    """Standard error takes nothing, where a line has to be said there: the status."""
    asked = [program_file(program), *(words or [])]
    with open("/dev/full", "wb") as device:
        return subprocess.run(asked, stderr=device, stdout=subprocess.PIPE, check=False).returncode


def closed_error(program: str, words: list[str]) -> int:
    """There is no standard error at all, where a line has to be said there: the status."""
    asked = [program_file(program), *words]
    return subprocess.run(asked, preexec_fn=lambda: os.close(2), stdout=subprocess.PIPE, check=False).returncode


def small_file(folder: Path, program: str = "bonsai") -> End:
    """The output is a file that may not grow beyond 512 bytes."""
    import resource

    def limit() -> None:
        signal.signal(signal.SIGXFSZ, signal.SIG_IGN)
        resource.setrlimit(resource.RLIMIT_FSIZE, (512, 512))

    file = folder / "small"
    with file.open("wb") as device:
        status, _, err = end(WRITING[program], program, stdout=device, preexec_fn=limit)
    return status, file.read_bytes(), err


def directory(folder: Path, program: str = "bonsai") -> End:
    """F is a directory."""
    return end(reading(program, folder), program)


def vanished(folder: Path, program: str = "bonsai") -> End:
    """F is no more."""
    return end(reading(program, folder / "nowhere.cfg"), program)


def second_vanished(folder: Path, program: str = "bonsai") -> End:
    """S is no more."""
    return end(reading_second(program, folder / "nowhere.txt"), program)


def dangling(folder: Path, program: str = "bonsai") -> End:
    """F is a link to nothing."""
    (folder / "link").symlink_to(folder / "nowhere.cfg")
    return end(reading(program, folder / "link"), program)


def second_directory(folder: Path, program: str = "bonsai") -> End:
    """S is a directory."""
    return end(reading_second(program, folder), program)


def growing(folder: Path) -> End:
    """F gets more comments for as long as it is read, at most 4 MiB of them, so that it stays within the limit of
    lines."""
    file, stop = folder / "growing.cfg", threading.Event()
    file.write_bytes(Path(FABRIC).read_bytes())

    def grow() -> None:
        with file.open("ab", buffering=0) as more:
            for _ in range(1 << 12):
                if stop.is_set():
                    break
                more.write(b"! more\n" * 146 + b"!\n")

    writer = threading.Thread(target=grow, daemon=True)
    writer.start()
    found = end(["classes", str(file)])
    stop.set()
    writer.join(10)
    return found


def removed(folder: Path) -> End:
    """F is removed when it is begun: the name is gone, and what it holds can still be read."""
    text = Path(FABRIC).read_bytes()

    def feed(place: int) -> None:
        os.write(place, text[:100])
        (folder / "fifo").unlink()
        os.write(place, text[100:])

    return _fed(folder, lambda name: ["classes", name], feed)


def own_memory(program: str = "bonsai") -> End:
    """F can be begun and not be read: the memory of a process, of which the first byte is not there."""
    return end(reading(program, "/proc/self/mem"), program)


def endless(program: str = "bonsai") -> End:
    """F never ends."""
    return end(reading(program, "/dev/zero"), program)


def empty(program: str = "bonsai") -> End:
    """F has nothing."""
    return end(reading(program, "/dev/null"), program)


def _fed(folder: Path, words: Callable[[str], list[str]], feed: Callable[[int], object]) -> End:
    fifo = folder / "fifo"
    os.mkfifo(fifo)

    def write() -> None:
        with contextlib.suppress(BrokenPipeError):
            place = os.open(fifo, os.O_WRONLY)
            feed(place)
            os.close(place)

    writer = threading.Thread(target=write, daemon=True)
    writer.start()
    found = end(words(str(fifo)))
    writer.join(10)
    return found


def early_fifo(folder: Path) -> End:
    """F is a FIFO that ends in the middle of a line."""
    text = Path(FABRIC).read_bytes()
    return _fed(
        folder, lambda name: ["classes", name], lambda place: os.write(place, text[: text.index(b"interface") + 4])
    )


def slow_fifo(folder: Path) -> End:
    """F is a FIFO that gives one byte at a time."""

    def feed(place: int) -> None:
        for byte in Path(FABRIC).read_bytes():
            os.write(place, bytes([byte]))

    return _fed(folder, lambda name: ["classes", name], feed)


def slow_reader() -> End:
    """Whoever reads the output takes one byte at a time of a pipe of one page."""
    import fcntl

    reader, writer = os.pipe()
    fcntl.fcntl(writer, fcntl.F_SETPIPE_SZ, 4096)
    with subprocess.Popen([program_file(), "compress", FABRIC, "1"], stdout=writer, stderr=subprocess.PIPE) as ran:
        os.close(writer)
        taken = bytearray()
        while byte := os.read(reader, 1):
            taken += byte
        os.close(reader)
        return ran.wait(60), bytes(taken), _rest(ran.stderr)


def reader_goes_away(folder: Path) -> End:
    """Whoever reads the output goes away in the middle of much of it: 20,000 classes of one router."""
    place = folder / "classes.cfg"
    place.write_text(many_classes(20_000))
    reader, writer = os.pipe()
    with subprocess.Popen([program_file(), "classes", str(place)], stdout=writer, stderr=subprocess.PIPE) as ran:
        os.close(writer)
        taken = os.read(reader, 100)
        os.close(reader)
        return ran.wait(60), taken, _rest(ran.stderr)


def many_classes(count: int) -> str:
    """One router that originates this many subnets; a cost for each, so that each is a class."""
    lines = ["hostname a"]
    for number in range(count):
        lines += [
            f"interface Vlan{number}",
            f" ip address 11.{number >> 16}.{number >> 8 & 255}.{number & 255} 255.255.255.255",
            f" ip ospf cost {1 + number % 60000}",
        ]
    return "\n".join([*lines, "router ospf 1", " network 0.0.0.0 255.255.255.255 area 0", "end", ""])


def ended_by(number: int, folder: Path) -> tuple[int, bytes]:
    """A signal comes while the program waits for F: how it ends, and what it wrote."""
    fifo = folder / f"fifo{number}"
    os.mkfifo(fifo)
    with subprocess.Popen(
        [program_file(), "classes", str(fifo)], stdout=subprocess.PIPE, stderr=subprocess.PIPE
    ) as ran:
        place = os.open(fifo, os.O_WRONLY)
        os.write(place, b"hostname a\n")
        time.sleep(0.1)
        ran.send_signal(number)
        status = ran.wait(10)
        os.close(place)
        return status, _rest(ran.stdout)
