"""The folders beside this file, with what the import writes otherwise, on FRR itself: run by hand as root with BONSAI_LAB=1
and BONSAI_PROGRAM set."""
import os
import subprocess
from pathlib import Path

import pytest

from bonsainet.ask.program import TOP

pytestmark = pytest.mark.skipif(os.geteuid() != 0 or not os.environ.get("BONSAI_LAB"), reason="run by hand, as root")


@pytest.mark.parametrize("folder, labels", [("policies", 35), ("edge", 20), ("fabric", 70)])
def test_frr_rests_in_the_labels_of_the_import(folder: str, labels: int) -> None:
    """No label differs. Of two routes of one key FRR may hold either."""
    words = [f"{TOP}/dev/corpus", str(Path(__file__).parent), "--run", folder, "--seconds", "40"]
    told = subprocess.run(words, capture_output=True, text=True, check=False)
    assert told.stdout.startswith(f"{folder}: {labels} labels, 0 differ, "), told.stdout + told.stderr
