"""The shared library, and its calls with the types that dcel.h declares."""

from __future__ import annotations

import ctypes
import os
import sys
from pathlib import Path
from types import SimpleNamespace
from typing import Any

from ._declared import FUNCTIONS, VERSION, Status
from ._errors import refused

# One call at a time may work on a mesh. PyDLL keeps the interpreter's lock through a call, which takes less time than to give the lock
# back and to take it again. A Python without that lock would break the promise.
if not getattr(sys, "_is_gil_enabled", lambda: True)():
    raise ImportError("dcel wants the interpreter's lock: one call at a time may work on a mesh")


def _load() -> ctypes.PyDLL:
    """The package's library, or the one that DCEL_LIBRARY names."""
    path = os.environ.get("DCEL_LIBRARY") or str(Path(__file__).with_name("libdcel.so"))
    try:
        found = ctypes.PyDLL(path)
    except OSError as error:
        raise ImportError(f"dcel doesn't find its library: {error}") from error
    if not hasattr(found, f"dcel_version_{VERSION.replace('.', '_')}"):
        raise ImportError(f"dcel {VERSION} takes no library of another version: {path}")
    return found


library = _load()


def _check(status: int, function: Any, given: Any) -> None:
    """Raises the error of a status, after each call that returns one."""
    if status:
        raise refused(status, function, given)


def _declare() -> None:
    for name, (result, given) in FUNCTIONS.items():
        function = getattr(library, name)
        function.restype, function.argtypes = result, given
        if result is Status:
            function.restype, function.errcheck = ctypes.c_uint32, _check


_declare()


def calls_of(kind: str) -> SimpleNamespace:
    """The calls on triangulations of a kind: of "triangulation" `insert` is dcel_triangulation_insert."""
    prefix = f"dcel_{kind}_"
    return SimpleNamespace(**{name.removeprefix(prefix): getattr(library, name) for name in FUNCTIONS if name.startswith(prefix)})
