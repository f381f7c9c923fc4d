"""Answers that stay in a file, so that no program is asked the same twice, over however many runs."""
from __future__ import annotations

import hashlib
import sqlite3
from collections.abc import Mapping
from pathlib import Path

from hostile.asking import SECONDS, Asker
from bonsainet.ask.program import Answer


class KeptAsker(Asker):
    """The program, whose answers are kept by the checksum of the program, the words and the texts."""

    def __init__(self, file: Path, path: str | None = None) -> None:
        super().__init__(path)
        self._sum = hashlib.sha256(Path(self.path).read_bytes()).digest()
        self._base = sqlite3.connect(file, timeout=60, isolation_level=None)
        self._base.executescript("pragma journal_mode=wal; pragma synchronous=off")
        self._base.execute(
            "create table if not exists answers (key blob primary key, status integer, out blob, err blob)"
        )

    def close(self) -> None:
        """Lets go of its files."""
        self._base.close()
        super().close()

    def ask(
        self, *words: str, texts: Mapping[str, str | bytes] | None = None, seconds: float | None = SECONDS
    ) -> Answer:
        """The kept answer, else that of the program."""
        given = {
            name: text.encode("utf-8", "surrogateescape") if isinstance(text, str) else text
            for name, text in (texts or {}).items()
        }
        key = hashlib.sha256(self._sum + repr((words, sorted(given.items()))).encode()).digest()
        known = self._base.execute("select status, out, err from answers where key = ?", (key,)).fetchone()
        if known:
            return Answer(*known)
        answer = super().ask(*words, texts=texts, seconds=seconds)
        self._base.execute(
            "insert or ignore into answers values (?, ?, ?, ?)", (key, answer.status, answer.out, answer.err)
        )
        return answer
