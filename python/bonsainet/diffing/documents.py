"""A difference as the JSON document that docs/data/bonsai-diff.schema.json describes."""
from __future__ import annotations

from typing import Any

from bonsainet.ask.where import Identity
from bonsainet.configs.profile import community_text
from bonsainet.diffing.reason_words import reasons_document
from bonsainet.diffing.reasons import Reasons
from bonsainet.library.changes import Change, Difference, PrefixChange, Side, in_all
from bonsainet.library.routes import Aspect, Route, Routes

FORM = 2


def document(found: Difference, reasons: Reasons, program: Identity) -> dict[str, Any]:
    """The document, with the program that gave the solutions."""
    return {
        "form": FORM,
        "program": program.plain,
        "routers_gone": list(found.routers_gone),
        "routers_new": list(found.routers_new),
        "prefixes_gone": list(found.prefixes_gone),
        "prefixes_new": list(found.prefixes_new),
        "same": found.same,
        "partly": list(found.partly),
        "changed": [_prefix(one) for one in found.changed],
        "reasons": reasons_document(reasons),
    }


def _prefix(found: PrefixChange) -> dict[str, Any]:
    return {
        "prefixes": list(found.prefixes),
        "before": _side(found.before),
        "after": _side(found.after),
        "changes": [_change(change) for change in found.changes],
    }


def _side(side: Side) -> dict[str, Any]:
    tie = {"router": side.tie.router, "by": side.tie.by} if side.tie else None
    return {"solutions": side.solutions, "all": side.is_whole, "tied": tie}


def _change(change: Change) -> dict[str, Any]:
    return {
        "kind": change.kind.value,
        "routers": list(change.routers),
        "differs": [aspect.value for aspect in change.aspects],
        "before": _routes(change.before),
        "after": _routes(change.after),
        "in_all": {"before": _common(change.before), "after": _common(change.after)},
    }


def _routes(routes: Routes) -> list[dict[str, Any] | None]:
    return sorted((_route(route) for route in routes), key=str)


def _route(route: Route | None) -> dict[str, Any] | None:
    return None if route is None else _aspects(route.aspects)


def _common(routes: Routes) -> dict[str, Any] | None:
    found = in_all(routes)
    return None if found is None else _aspects(found)


def _aspects(aspects: dict[Aspect, object]) -> dict[str, Any]:
    return {aspect.value: _value(aspect, value) for aspect, value in aspects.items()}


def _value(aspect: Aspect, value: object) -> object:
    if not isinstance(value, tuple):
        return value
    if aspect is Aspect.COMMUNITIES:
        return [community_text(one) for one in value]
    return [{"router": name, "interfaces": list(over)} for name, over in value]
