"""What an export says comes back: read by bonsai-import, it has the classes and groups of the text, as sets."""
import os
import subprocess
from pathlib import Path
from types import ModuleType

import pytest

from bonsainet.exporting import batfish, frr, ios
from bonsainet.exporting.tool import write_folder
from bonsainet.configs.network import read_network
from bonsainet.ask.program import TOP, Program

IMPORT = TOP / "tools" / "bonsai-import"
TARGETS: dict[str, ModuleType] = {"frr": frr, "ios": ios, "batfish": batfish}


def said(program: Program, text: str) -> tuple:
    """Classes and their groups, in no order: a folder is read by the names of its files."""
    classes = program.classes(text)
    groups = {
        found.prefixes: {
            (group.is_origin, group.is_lone, frozenset(group.members)) for group in program.groups(text, found.number)
        }
        for found in classes
    }
    return {(found.prefixes, frozenset(found.origins)) for found in classes}, groups


@pytest.mark.parametrize("target", TARGETS.values(), ids=TARGETS)
@pytest.mark.parametrize(
    "name, number", [("campus", 1), ("campus", 10), ("fabric", 1), ("ring-with-maps", 1), ("ospf-wire", 2)]
)
@pytest.mark.parametrize("is_small", [False, True], ids=["large", "small"])
def test_an_export_comes_back(
    name: str, number: int, is_small: bool, target: ModuleType, tmp_path: Path, program: Program
) -> None:
    text = (TOP / "examples" / "inputs" / f"{name}.cfg").read_text()
    text = program.compress(text, number) if is_small else text
    write_folder(tmp_path / "out", target.export(read_network(text)).files)
    asked = {**os.environ, "BONSAI_PROGRAM": program.path}
    back = subprocess.run([str(IMPORT), str(tmp_path / "out")], capture_output=True, text=True, check=False, env=asked)
    assert back.returncode == 0, back.stderr
    assert said(program, back.stdout) == said(program, text)


@pytest.mark.parametrize("target", TARGETS.values(), ids=TARGETS)
def test_a_loopback_comes_back_as_the_vlan_that_it_was(target: ModuleType, tmp_path: Path, program: Program) -> None:
    small = program.compress((TOP / "examples" / "inputs" / "campus.cfg").read_bytes(), 1)
    write_folder(tmp_path / "out", target.export(read_network(small)).files)
    asked = {**os.environ, "BONSAI_PROGRAM": program.path}
    back = subprocess.run(
        [str(IMPORT), str(tmp_path / "out")], capture_output=True, text=True, check=True, env=asked
    ).stdout
    assert "interface Vlan1\n" in small and "interface Loopback" not in back
    assert {
        device.name for device in read_network(back).devices if any(port.name == "Vlan1" for port in device.interfaces)
    } == {"core1"}
