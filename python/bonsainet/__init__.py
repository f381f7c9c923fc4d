"""Bonsai's library, on which its tools stand. It asks the proved programs and decides nothing that these decide.

A Network is read from a text, a file or a folder of running configurations. Its classes are sets of destination prefixes that the
network routes alike. Of each class the programs give the groups of routers that behave alike, the compressed network, the stable
solutions, which are the states in which routing can come to rest, and the answers to questions about all of these.

    >>> import bonsainet
    >>> network = bonsainet.Network.from_file("examples/inputs/campus.cfg")
    >>> access = network.class_of("10.10.0.7")
    >>> bool(access.ask.route("*"))
    True
    >>> [group.members for group in access.groups()]
    [('core1', 'core2'), ('dist1',), ('dist2',), ('access1',), ('access2',)]
    >>> [loss.routers for loss in access.failing("routers").route(["dist1", "dist2"]).losses]
    [('access1',)]
    >>> [answer.number for answer in network.without("core1").route("dist1") if not answer]
    [13]

Errors are BonsaiError, and the classes below it say which. What takes a router takes `*` for all of them, one name, or several.
The page docs/use/PYTHON.md has more examples, ASKING.md what the questions mean.
"""
from __future__ import annotations

import importlib
from typing import TYPE_CHECKING

if TYPE_CHECKING:
    from bonsainet.library import *  # noqa: F401, F403


def __getattr__(name: str) -> object:
    """A name of the library, which loads when one is used, so that a tool does not wait for it."""
    if name.startswith("_") and name != "__all__":
        raise AttributeError(f"module 'bonsainet' has no attribute {name!r}")
    library = importlib.import_module("bonsainet.library")
    if name == "__all__":
        return library.__all__
    if name in library.__all__:
        return getattr(library, name)
    raise AttributeError(f"module 'bonsainet' has no attribute {name!r}")


def __dir__() -> list[str]:
    return sorted({*globals(), *importlib.import_module("bonsainet.library").__all__})
