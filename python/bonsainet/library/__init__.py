"""The library for those who write analysers: a network, its classes, and what the proved programs say of them.

`import bonsainet` gives all of its names.
"""
from __future__ import annotations

from typing import TYPE_CHECKING

from bonsainet.ask.labels import BgpLabel, OspfLabel
from bonsainet.library.answers import Answer, Labels, Loss, Reply, Tie
from bonsainet.library.changes import Change, Difference, Kind, PrefixChange, Side, diff
from bonsainet.library.classes import DestClass, Group, Size
from bonsainet.library.errors import (
    BonsaiError,
    ClassNotFound,
    FolderRefused,
    ImportRefused,
    NotStable,
    ProgramFailed,
    TextRefused,
    WordsRefused,
)
from bonsainet.library.networks import Network
from bonsainet.library.questions import AllQuestions, Questions
from bonsainet.library.routes import Aspect, Route

if TYPE_CHECKING:
    from bonsainet.importing.report import Report

__all__ = [
    "AllQuestions",
    "Answer",
    "Aspect",
    "BgpLabel",
    "BonsaiError",
    "Change",
    "ClassNotFound",
    "DestClass",
    "Difference",
    "FolderRefused",
    "Group",
    "ImportRefused",
    "Kind",
    "Labels",
    "Loss",
    "Network",
    "NotStable",
    "OspfLabel",
    "PrefixChange",
    "ProgramFailed",
    "Questions",
    "Reply",
    "Report",
    "Route",
    "Side",
    "Size",
    "TextRefused",
    "Tie",
    "WordsRefused",
    "diff",
]


def __getattr__(name: str) -> object:
    """The report of an import, which loads where it is used: the rules of the import load with it."""
    if name != "Report":
        raise AttributeError(f"module {__name__!r} has no attribute {name!r}")
    from bonsainet.importing.report import Report as found

    return found
