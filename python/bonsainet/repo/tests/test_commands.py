"""The commands are said once: the pages of the manual, the completions and the tables have those of the launcher, in its order."""
from __future__ import annotations

import re

import pytest

from bonsainet.ask.program import TOP
from bonsainet.repo import commands


@pytest.mark.parametrize(("name", "place", "path"), list(commands.files()), ids=lambda it: str(it).rpartition("/")[2])
def test_a_file_is_current(name: str, place: str, path: object) -> None:
    file = TOP / place.format(name=name)
    text = file.read_text("utf-8")
    assert commands.made(name, place, text) == text, "dev/manual writes it anew"


def test_what_is_between_marks_is_written() -> None:
    text = "a\n# commands: begin (x)\nold\n# commands: end\nb\n"
    assert commands.written(text, "commands", ["new"]) == "a\n# commands: begin (x)\nnew\n# commands: end\nb\n"
    assert commands.written("no marks\n", "commands", ["new"]) == "no marks\n"


def test_the_table_of_the_page_has_the_forms_of_the_launcher_in_order() -> None:
    page = (TOP / "docs/use/COMMANDS.md").read_text("utf-8")
    table = page.partition("## Commands of the program\n")[2].partition("\n## ")[0]
    assert re.findall(r"^\| `([a-z]+ [^`]+)` \|", table, re.M) == [form for form, _ in commands.launcher()["COMMANDS"]]


def test_the_statuses_of_the_page_are_those_of_the_launcher() -> None:
    page = (TOP / "docs/use/COMMANDS.md").read_text("utf-8")
    table = page.partition("## Statuses\n")[2].partition("\n## ")[0]
    known = commands.launcher()
    found = [int(number) for number in re.findall(r"^\| (\d+) ", table, re.M)]
    wanted = {status for status, _ in (*known["STATUSES"], *known["LAST_STATUSES"])} | {known["NOT_STABLE"][0]}
    assert wanted <= set(found) and found == sorted(found)


def test_the_readme_names_each_command() -> None:
    readme = (TOP / "README.md").read_text("utf-8").partition("## The commands")[2].partition("\n## ")[0]
    for form, _ in commands.launcher()["COMMANDS"]:
        assert form.startswith("trial") or f"{form}`" in readme, form
