"""Why two routers are not in one group, as the JSON document that docs/data/bonsai-why.schema.json describes."""
from __future__ import annotations

from collections.abc import Iterable, Mapping
from typing import Any

from bonsainet.ask.where import Identity
from bonsainet.configs.text import Line
from bonsainet.diffing.forms import Act
from bonsainet.why.certificate import Reading, Step
from bonsainet.why.explain import Edge, Why

FORM = 1


def document(reading: Reading, one: str, other: str, found: Why | None, program: Identity) -> dict[str, Any]:
    """The document, with the program that gave the groups and the certificate."""
    place = {device.name: number for number, device in enumerate(reading.parsed.devices)}
    return {
        "form": FORM,
        "program": program.plain,
        "routers": [one, other],
        "class": reading.of.number,
        "prefixes": list(reading.of.prefixes),
        "group": list(reading.group_of(one).members) if found is None else None,
        "why": None if found is None else _why(found, place),
    }


def _why(found: Why, place: Mapping[str, int]) -> dict[str, Any]:
    return {
        "cause": found.cause.value,
        "first": found.first,
        "second": found.second,
        "parts": [{"router": one.router, "words": one.words, "lines": _lines(one.lines)} for one in found.parts],
        "split": _split(found.step, place) if found.step else None,
        "edges": _edges(found.edges),
        "others": _edges(found.others),
        "elsewhere": _edges(found.elsewhere),
        "because": _why(found.because, place) if found.because else None,
    }


def _split(found: Step, place: Mapping[str, int]) -> dict[str, Any]:
    def in_order(routers: Iterable[str]) -> list[str]:
        return sorted(routers, key=place.__getitem__)

    return {
        "number": found.split.number,
        "line": found.split.text,
        "taken": in_order(found.taken),
        "left": in_order(found.left),
        "into": in_order(found.into),
        "act": list(found.act),
    }


def _edges(found: Iterable[Edge]) -> list[dict[str, Any]]:
    return [
        {
            "router": one.router,
            "interface": one.interface,
            "exporter": one.exporter,
            "acts": _acts(one.acts),
            "lines": _lines(one.lines),
        }
        for one in found
    ]


def _acts(found: Iterable[Act]) -> list[list[str]]:
    return [list(act) for act in found]


def _lines(found: Iterable[Line]) -> list[dict[str, Any]]:
    return [{"file": line.place.file, "line": line.place.line, "text": line.text} for line in found]
