"""Faults of the search for all solutions."""

from __future__ import annotations

from hostile.planting.fault import Fault, switched_fault

SEARCH: list[Fault] = [
    switched_fault(
        "upset-taken",
        "solution_search/src/settling.rt",
        "Rank::Better => Outcome::Upset,",
        "Rank::Better => if PLANTED {\n            Outcome::Fine\n        } else {\n            Outcome::Upset\n        },",
        "a router that was settled may be offered something better",
    ),
    switched_fault(
        "tie-forgotten",
        "solution_search/src/bests.rt",
        "            if is_told(best.tied, difference) {",
        "            if is_told(best.tied, difference) || PLANTED {",
        "an offer that ties with the best one so far, and comes behind it, is no tie",
    ),
    switched_fault(
        "no-first-tie",
        "solution_search/src/board.rt",
        "    if !is_told(difference_of(board.tie), by) {\n",
        "    if !is_told(difference_of(board.tie), by) && (board.tie.is_some() || !PLANTED) {\n",
        "a search notes no tie",
    ),
    switched_fault(
        "never-waits",
        "solution_search/src/searching.rt",
        "if !lookups.srp.lone()[router as usize] {",
        "if !lookups.srp.lone()[router as usize] || PLANTED {",
        "a lone router takes its first offer",
    ),
    switched_fault(
        "waits-for-ever",
        "solution_search/src/looking.rt",
        "Some(awaited) => awaited < preference,",
        "Some(awaited) => awaited < preference && !PLANTED,",
        "a router that waits is not open again when something better has come",
    ),
    switched_fault(
        "waiting-forgiven",
        "solution_search/src/looking.rt",
        "        if is_offered(board, routers, router) {\n            return true;",
        "        if is_offered(board, routers, router) && !PLANTED {\n            return true;",
        "a case in which a router waits to the end is a solution",
    ),
    switched_fault(
        "loop-taken",
        "shared_routes/src/stepping.rt",
        "if route.has_on_path(own) {",
        "if route.has_on_path(own) && !PLANTED {",
        "a route that has the router's own number is an offer",
    ),
    switched_fault(
        "wait-not-undone",
        "solution_search/src/undoing.rt",
        "            board.waits[router as usize] = before;\n",
        "            if before.is_some() || !PLANTED {\n                board.waits[router as usize] = before;\n            }\n",
        "who waited in one case waits in the next one too",
    ),
    switched_fault(
        "default-below",
        "solution_search/src/lookups.rt",
        "            highest = highest.max(entry.lp.unwrap_or(100));",
        "            let default = if PLANTED { 0 } else { 100 };\n            highest = highest.max(entry.lp.unwrap_or(default));",
        "an entry of a map that sets no preference gives 0 at most",
    ),
    switched_fault(
        "nothing-foreseen",
        "solution_search/src/ahead/images.rt",
        "                preference: imported.lp,\n",
        "                preference: if imported.lp > 100 && PLANTED { 0 } else { imported.lp },\n",
        "looking ahead takes each preference above 100 for 0",
    ),
    switched_fault(
        "first-alone",
        "solution_search/src/searching.rt",
        "            if !visitor.wants_more() {\n                return Ok(Some(Ending::Stopped));\n            }\n",
        "            if !visitor.wants_more() {\n                return Ok(Some(Ending::Stopped));\n            }\n            if PLANTED {\n                return Ok(Some(Ending::All { tie: board.tie }));\n            }\n",
        "the search ends at its first solution",
    ),
]
