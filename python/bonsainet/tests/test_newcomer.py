"""The way of a newcomer: each folder of the examples is imported, and then drawn, shown, told to programs and
compressed for all classes."""
import json
import re
import shutil
from pathlib import Path

import pytest

from bonsainet.ask.program import TOP, Program
from bonsainet.tests.asking import needs, tool

FOLDERS = sorted(path for path in (TOP / "examples" / "folders").iterdir() if path.is_dir())


@pytest.mark.parametrize("folder", FOLDERS, ids=lambda folder: folder.name)
def test_from_a_folder_to_all_that_is_shown(folder: Path, tmp_path: Path) -> None:
    for name in ("bonsai-draw", "bonsai-page", "bonsai-json"):
        needs(name)
    words = (folder / "words").read_text().split() if (folder / "words").exists() else []
    if (folder / "decisions").exists():
        words += ["--decisions", str(folder / "decisions")]
    report, text = tmp_path / "report.json", tmp_path / "net.cfg"
    imported = tool("bonsai-import", folder / "configs", *words, "--json", "--report", report)
    assert imported.returncode == 0, imported.stderr
    text.write_bytes(imported.stdout)
    sizes = Program().summary(imported.stdout)

    whole = json.loads(tool("bonsai-json", text, "--check").stdout)
    assert [found["routers"]["after"] for found in whole["classes"]] == [size.groups for size in sizes]

    drawn = tool("bonsai-draw", text, 1, "-f", "dot").stdout.decode()
    assert (
        f"before: {sizes[0].routers} routers, {sizes[0].links} links" in drawn
        and f"after: {sizes[0].groups} routers" in drawn
    )

    if shutil.which("dot"):
        page = tool("bonsai-page", text, "--import-report", report).stdout.decode()
        numbers = [
            number for told in re.findall(r"<td data-value=\"\d+\">([\d ]+)</td>", page) for number in told.split()
        ]
        assert sorted(map(int, numbers)) == list(range(1, len(sizes) + 1))
        assert (
            "What the import told" in page
            and f"{len(json.loads(report.read_text())['lines'])} lines did not reach" in page
        )
