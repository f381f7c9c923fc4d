"""Labs on FRR, which need root: run by hand with BONSAI_LAB=1 and BONSAI_PROGRAM set. Killed in the middle, a lab
leaves nothing."""
import contextlib
import os
import signal
import subprocess
import time
from pathlib import Path

import pytest

from bonsainet.ask.program import TOP

SECONDS = 120

pytestmark = pytest.mark.skipif(os.geteuid() != 0 or not os.environ.get("BONSAI_LAB"), reason="run by hand, as root")


def processes() -> dict[int, tuple[int, str]]:
    """All processes: of each its parent and the namespace of its processes."""
    found = {}
    for place in Path("/proc").glob("[0-9]*"):
        try:
            parent = int((place / "stat").read_text().rpartition(")")[2].split()[1])
            found[int(place.name)] = parent, os.readlink(place / "ns/pid")
        except OSError:
            continue
    return found


def enclosure_of(lab: int) -> str | None:
    """The namespace of processes of a lab's enclosure, once it is there."""
    told = processes()
    within = {lab}
    for _ in range(4):
        within |= {process for process, (parent, _) in told.items() if parent in within}
    own = os.readlink("/proc/self/ns/pid")
    return next((space for process, (_, space) in told.items() if process in within and space != own), None)


def networks(space: str) -> set[str]:
    """The network namespaces in which processes of an enclosure are."""
    found = set()
    for process in (process for process, (_, own) in processes().items() if own == space):
        with contextlib.suppress(OSError):
            found.add(os.readlink(f"/proc/{process}/ns/net"))
    return found


def networks_outside() -> set[str]:
    """The network namespaces of the processes that are in no enclosure. The system gives numbers again, so other labs
    do not count."""
    return networks(os.readlink("/proc/self/ns/pid"))


def files(folder: Path) -> set[str]:
    """What stands in the folders in which a lab could leave something."""
    return {
        str(path)
        for place in (str(folder), "/run/netns", "/run/frr", "/etc/frr", "/var/log/frr", "/var/tmp/frr")
        for path in Path(place).glob("**/*")
    }


@pytest.mark.parametrize("number", [signal.SIGKILL, signal.SIGTERM, signal.SIGINT])
@pytest.mark.parametrize("after", [0.2, 1.5, 4.0])
def test_a_lab_that_is_killed_leaves_nothing(number: signal.Signals, after: float, tmp_path: Path) -> None:
    before = files(tmp_path)
    words = [str(TOP / "tools" / "bonsai-lab"), str(TOP / "examples" / "inputs" / "fat-tree-4.cfg"), "1"]
    lab = subprocess.Popen(words, stderr=subprocess.DEVNULL, env={**os.environ, "TMPDIR": str(tmp_path)})
    until = time.monotonic() + SECONDS
    try:
        while not (space := enclosure_of(lab.pid)):
            assert time.monotonic() < until, "the lab had not begun"
            time.sleep(0.01)
        time.sleep(after)
        made = networks(space)
        assert made
        lab.send_signal(number)
        lab.wait(SECONDS)
    finally:
        lab.kill()
    while any(own == space for _, own in processes().values()) and time.monotonic() < until:
        time.sleep(0.05)
    assert not any(own == space for _, own in processes().values())
    assert not made & networks_outside()
    assert files(tmp_path) == before


@pytest.mark.parametrize(
    "name, number", [("fat-tree-4", 1), ("campus", 1), ("ring-with-maps", 1), ("two-lone-routers", 1), ("ospf-wire", 2)]
)
def test_rounds_agree(name: str, number: int) -> None:
    ran = subprocess.run(
        [str(TOP / "dev" / "round-trip"), str(TOP / "examples" / "inputs" / f"{name}.cfg"), str(number)],
        capture_output=True,
        text=True,
        check=False,
    )
    assert ran.returncode == 0, ran.stdout + ran.stderr
    assert ran.stdout.endswith("agreement\n")
