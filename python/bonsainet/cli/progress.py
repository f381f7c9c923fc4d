"""How much of a long work of a tool is done, shown on a terminal, and nowhere else. Who uses the library sees none."""
from __future__ import annotations

import contextlib
import sys
import threading
from collections.abc import Callable, Iterable, Iterator
from typing import TYPE_CHECKING, TypeVar

if TYPE_CHECKING:
    import rich.progress

Item = TypeVar("Item")
Advance = Callable[[int], None]
# (a work that ends before shows nothing)
SECONDS = 0.7


class _Bar:
    """A bar that comes when its work has lasted a moment."""

    is_wanted = False
    is_in_use = False

    def __init__(self, what: str, total: int | None) -> None:
        self.what, self.total, self.done = what, total, 0
        self.lock = threading.Lock()
        self.is_over = False
        self.shown: rich.progress.Progress | None = None
        self.timer = threading.Timer(SECONDS, self.show)
        self.timer.daemon = True

    def show(self) -> None:
        """Shows it, if the package for it is there."""
        try:
            from rich.console import Console
            from rich.progress import BarColumn, MofNCompleteColumn, Progress, TextColumn, TimeElapsedColumn
        except ModuleNotFoundError:
            return
        columns = [TextColumn("{task.description}"), BarColumn()]
        columns += [MofNCompleteColumn()] if self.total is not None else []
        with self.lock:
            if self.is_over:
                return
            self.shown = Progress(*columns, TimeElapsedColumn(), console=Console(stderr=True), transient=True)
            self.shown.add_task(self.what, total=self.total, completed=self.done)
            self.shown.start()

    def advance(self, more: int) -> None:
        """So much more is done."""
        with self.lock:
            self.done += more
            if self.shown:
                self.shown.update(self.shown.task_ids[0], completed=self.done)

    def end(self) -> None:
        """Takes it away."""
        self.timer.cancel()
        with self.lock:
            self.is_over = True
            if self.shown:
                self.shown.stop()


def begin() -> None:
    """From now on works show how much of them is done."""
    _Bar.is_wanted = True


def is_terminal() -> bool:
    """Whether standard error is a terminal."""
    return sys.stderr is not None and sys.stderr.isatty()


@contextlib.contextmanager
def progress(what: str, total: int | None = None) -> Iterator[Advance]:
    """Shows a bar for the time of the context, if that is long. The function that it gives is called with how much more is
    done. Without a total the bar shows only that there is work. Of works within works the outermost is shown."""
    if not _Bar.is_wanted or _Bar.is_in_use or not is_terminal():
        yield lambda more: None
        return
    bar, _Bar.is_in_use = _Bar(what, total), True
    bar.timer.start()
    try:
        yield bar.advance
    finally:
        bar.end()
        _Bar.is_in_use = False


def counted_off(what: str, total: int, items: Iterable[Item]) -> Iterator[Item]:
    """The items; each counts as done where the next one is taken."""
    with progress(what, total) as advance:
        for item in items:
            yield item
            advance(1)
