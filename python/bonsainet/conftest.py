"""What all tests share: signals that reach the tools, the program that is asked, and how Hypothesis tries examples.

Signals reach the tools that tests start, also where the tests run behind `nohup` or in the background of a shell.
Hypothesis tries the same examples each time, however slow the machine is.
"""
import contextlib
import signal
from typing import Any

import pytest

from bonsainet.cli.command_line import Refused
from bonsainet.ask.native import native
from bonsainet.ask.program import Program

DEFAULTS: tuple[tuple[signal.Signals, Any], ...] = (
    (signal.SIGINT, signal.default_int_handler),
    (signal.SIGHUP, signal.SIG_DFL),
    (signal.SIGTERM, signal.SIG_DFL),
)

for number, handler in DEFAULTS:
    if signal.getsignal(number) == signal.SIG_IGN:
        signal.signal(number, handler)


with contextlib.suppress(ModuleNotFoundError):
    import hypothesis

    hypothesis.settings.register_profile(
        "any machine",
        deadline=None,
        derandomize=True,
        suppress_health_check=[hypothesis.HealthCheck.too_slow],
    )
    hypothesis.settings.load_profile("any machine")


@pytest.fixture(scope="session")
def program() -> Program:
    """The program as one file. A test that asks it is skipped where there is none, with what makes one."""
    try:
        return Program(str(native(Program())))
    except (Refused, OSError) as fault:
        pytest.skip(str(fault))
