"""Large folders for the import are made, and what was measured is kept."""
from __future__ import annotations

from pathlib import Path

from bonsainet.ask.program import Program
from bonsainet.bench import imports
from bonsainet.configs.text import text_of
from bonsainet.importing.tool import import_folder
from bonsainet.nets.fat_tree import fat_tree_text


def test_a_fat_tree_is_imported_as_its_text(tmp_path: Path) -> None:
    lines = imports.fat_tree(4)(tmp_path)
    assert len(list(tmp_path.iterdir())) == 20 and lines > 1000
    found = import_folder(str(tmp_path), program := Program())
    assert not found.folder.log.refusals
    text = text_of(found.folder.routers)
    assert [one.prefixes for one in program.classes(text)] == [
        one.prefixes for one in program.classes(fat_tree_text(4))
    ]


def test_a_campus_is_imported_with_all_its_prefixes(tmp_path: Path) -> None:
    imports.campus(1)(tmp_path)
    found = import_folder(str(tmp_path), program := Program())
    assert not found.folder.log.refusals and not any(change.rule == "vlan-shut" for change in found.changes)
    prefixes = {prefix for one in program.classes(text_of(found.folder.routers)) for prefix in one.prefixes}
    assert {f"10.0.{place}.0/24" for place in range(imports.ACCESS)} <= prefixes


def test_the_table_takes_its_place() -> None:
    row = imports.Row("ring", "now", 3, 1200, 1.25, 2.0, 30.0, 4.0)
    page = "a\n<!-- measured: imports; x -->\nold\n<!-- measured: end -->\nb\n"
    made = imports.with_table(page, [row], "today")
    assert "| ring | 3 | 1,200 | now | 1.2 | 2 | 30 | 4 |\n\nMade with: today.\n<!-- measured: end -->\nb\n" in made
    assert imports.csv_of([row], "today").startswith("# today\nnetwork,state,files,lines,seconds,wall,memory,load\n")


def test_the_page_has_a_place_for_the_table() -> None:
    page = imports.PAGE.read_text("utf-8")
    assert imports.with_table(page, [], "today") != page
