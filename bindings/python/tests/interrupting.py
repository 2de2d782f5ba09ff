"""An interrupt, or another call, before any line of the package."""

from __future__ import annotations

import sys
from collections.abc import Callable
from pathlib import Path
from typing import Any

import dcel

FOLDER = str(Path(dcel.__file__).parent)


def between(call: Callable[[], object], lines: int, act: Callable[[], object], spared: str = "none") -> bool:
    """Calls, and acts once that has come to so many lines of the package, but for a file that is spared. Whether it has come to them."""
    acted = False

    def trace(frame: Any, event: str, given: Any) -> Any:
        nonlocal lines, acted
        if not frame.f_code.co_filename.startswith(FOLDER) or frame.f_code.co_filename.endswith(spared):
            return None
        lines -= event == "line"
        if lines < 0 and not acted:
            acted = True
            act()
        return trace

    before = sys.gettrace()
    sys.settrace(trace)
    try:
        call()
    finally:
        sys.settrace(before)
    return acted


def interrupted(call: Callable[[], object], lines: int) -> bool:
    """Whether a call is interrupted once it has come to so many lines of the package. No interrupt comes to those that take turns."""

    def interrupt() -> None:
        raise KeyboardInterrupt

    try:
        return between(call, lines, interrupt, "_turns.py")
    except KeyboardInterrupt:
        return True
