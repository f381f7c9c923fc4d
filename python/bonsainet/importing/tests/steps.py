"""Rules by themselves: steps on routers that are given as texts, without a folder and without the program."""
from __future__ import annotations

from bonsainet.configs.text import Place, read_text
from bonsainet.importing.decisions import Decisions
from bonsainet.importing.folder import Dialect, Folder, Source
from bonsainet.importing.rules import Step
from bonsainet.importing.rules.options import Options


def folder_of(*texts: str, dialect: Dialect = Dialect.IOS) -> Folder:
    """A folder with a router for each text, `r0.cfg` and so on."""
    routers = []
    for number, text in enumerate(texts):
        (read,) = read_text(text, f"r{number}.cfg")
        routers.append(Source(read.name, read.stanzas, dialect, f"r{number}.cfg"))
    raw = {line.place: line.text for router in routers for line in router.lines}
    return Folder(routers, raw, decisions=Decisions())


def worked(folder: Folder, *steps: Step) -> Folder:
    """The folder behind these steps."""
    for step in steps:
        step(folder, Options())
    return folder


def lines_left(folder: Folder, *words: str) -> list[str]:
    """The lines that begin with these words, router by router, without their indentation."""
    lines = (line for router in folder.routers for line in router.lines)
    return [line.text.strip() for line in lines if line.words[: len(words)] == list(words)]


def refused_at(folder: Folder) -> list[Place]:
    """The places of the refused lines."""
    return [found.place for found in folder.log.refusals]
