"""Signals reach the tools that tests start, also where the tests run behind `nohup` or in the background of a shell."""
import signal
from typing import Any

DEFAULTS: tuple[tuple[signal.Signals, Any], ...] = (
    (signal.SIGINT, signal.default_int_handler),
    (signal.SIGHUP, signal.SIG_DFL),
    (signal.SIGTERM, signal.SIG_DFL),
)

for number, handler in DEFAULTS:
    if signal.getsignal(number) == signal.SIG_IGN:
        signal.signal(number, handler)
