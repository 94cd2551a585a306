"""Signals that break a command off."""

import signal
from typing import Any, NoReturn


def heed_interruption() -> None:
    """Has signals to end break off what is done, which then tidies up behind itself."""
    on_signals(interrupted)


def interrupted(*_: object) -> NoReturn:
    """Breaks off. A second signal isn't to break off what the first one began."""
    on_signals(signal.SIG_IGN)
    raise KeyboardInterrupt


def on_signals(handler: Any) -> None:
    """Sets what the signals do."""
    for number in signal.SIGINT, signal.SIGTERM, signal.SIGHUP:
        signal.signal(number, handler)
