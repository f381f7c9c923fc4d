"""The folder `policies`, which FRR was tried with by hand (test_run_by_hand.py), is imported as it was then."""
from pathlib import Path

import pytest

from bonsainet.ask.program import Program
from bonsainet.configs.text import text_of
from bonsainet.corpus.run import _of_device
from bonsainet.importing.report import Report
from bonsainet.importing.tool import import_folder


@pytest.fixture(name="found", scope="module")
def _found() -> Report:
    return import_folder(str(Path(__file__).parent / "policies"), Program())


@pytest.mark.parametrize(
    "router, prefix, told",
    [
        ("r3", "10.1.0.0/24", "bgp 100 path 65001 comms 65000:1 65000:11"),
        ("r2", "10.1.0.0/24", "bgp 100 path 65003 65001 comms 65000:1 65000:11"),
        ("r2", "10.1.1.1/32", "bgp 100 path 65001 comms 65000:12"),
        ("r4", "10.1.9.0/24", "none"),
        ("r3", "10.5.0.0/24", "bgp 100 path 65004 65005 65005 65005 comms 65000:5 no-export"),
        ("r1", "10.5.0.0/24", "bgp 100 path 65002 65004 65005 65005 65005 comms 65000:5"),
        ("r5", "10.2.0.0/24", "none"),
        ("r5", "10.3.0.0/24", "bgp 100 path 65004 65003 comms"),
    ],
)
def test_labels(router: str, prefix: str, told: str, found: Report) -> None:
    assert not found.folder.log.refusals, found.text
    program, text = Program(), text_of(found.folder.routers)
    number = next(one.number for one in program.classes(text) if prefix in one.prefixes)
    answer = program.done("run", "F", str(number), "S", texts={"F": text, "S": "*\n" * 20})
    label = next(line.partition(" ")[2] for line in answer.splitlines() if line.startswith(f"{router} "))
    preferences = next(one.preferences for one in found.folder.routers if one.name == router)
    assert _of_device(label, preferences, found.folder.held) == told
