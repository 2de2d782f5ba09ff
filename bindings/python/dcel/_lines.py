"""Lines, and the replies to them."""

from __future__ import annotations

from ctypes import c_uint8, c_uint64

from ._arrays import listed
from ._calls import library
from ._errors import Short


def replies(lines: str) -> str:
    """The replies to lines, which docs/LINES.md lists, on an empty mesh of its own, which isn't kept. Raises OutOfMemory.

    >>> print(replies("triangle 7 8 9\\nflip 0\\nhull\\n"), end="")
    ok
    refused 14 WouldLoop
    hull 0 2 4
    """
    given, buffer, needed = bytearray(lines, "utf-8"), bytearray(len(lines)), c_uint64()
    while True:
        try:
            library.dcel_replies(*listed(given, c_uint8), *listed(buffer, c_uint8), needed)
        except Short:
            buffer = bytearray(needed.value)
            continue
        return buffer[: needed.value].decode()
