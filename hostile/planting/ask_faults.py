"""Faults to plant into the sources of `bonsai-ask` and `bonsai-all`: ten and more in the search and in each other crate that only
these programs have, or as many as a small crate has places for.

All of a program are planted into one copy, and one of them at a time is switched on."""

from __future__ import annotations

from hostile.planting.class_faults import CALLS, CLASSES, ENDINGS, FILES, REPORTS
from hostile.planting.clause_faults import CLAUSES
from hostile.planting.frame_faults import FRAMES
from hostile.planting.question_faults import ANSWERS, QUESTIONS, SPARE, WITHOUT
from hostile.planting.search_faults import SEARCH
from hostile.planting.word_faults import NAMES, REQUESTS, WORDS

ASK = [
    *SEARCH,
    *WITHOUT,
    *QUESTIONS,
    *SPARE,
    *ANSWERS,
    *WORDS,
    *NAMES,
    *REQUESTS,
    *CLASSES,
    *REPORTS,
    *CALLS,
    *FILES,
    *ENDINGS,
    *CLAUSES,
]
BY_PROGRAM = {"bonsai-ask": ASK, "bonsai-all": FRAMES}
FAULTS = [*ASK, *FRAMES]
