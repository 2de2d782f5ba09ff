"""What calls of an object wait for: one thread at a time is in them, and a change that it makes is within no other call."""

from __future__ import annotations

from collections.abc import Callable
from functools import cached_property, wraps
from threading import RLock
from typing import Any, Concatenate, ParamSpec, TypeVar

from ._errors import Busy

Given = ParamSpec("Given")
Result = TypeVar("Result")

# In place of how many calls a thread is in.
CHANGING = -1


class Turn:
    """Whose turn it is in the calls of an object. A thread may come in again: by a signal handler, a finalizer, or what it iterates over. Then
    it may read, unless it is changing the object."""

    def __init__(self) -> None:
        self._lock = RLock()
        self._calls = 0  # that are under way, one within the other

    def take(self, call: Callable[Given, Result], *given: Given.args, **named: Given.kwargs) -> Result:
        """Calls, once no other thread is in a call of the object."""
        with self._lock:
            calls = self._calls
            if calls == CHANGING:
                raise Busy("this thread is changing the triangulation: until that is done, a signal handler or a finalizer can't use it")
            try:
                self._calls = calls + 1
                return call(*given, **named)
            finally:
                self._calls = calls

    def change(self) -> None:
        """Marks the current call as a change: until it ends, no other call is let in."""
        if self._calls != 1:
            raise Busy("this thread is in another call: within it a signal handler, a finalizer or an iterator can't change the triangulation")
        self._calls = CHANGING


def in_turn(method: Callable[Concatenate[Any, Given], Result]) -> Callable[Concatenate[Any, Given], Result]:
    """A method that takes its turn among those of the same object, by its `_turn`."""

    @wraps(method)
    def call(self: Any, *given: Given.args, **named: Given.kwargs) -> Result:
        result: Result = self._turn.take(method, self, *given, **named)
        return result

    return call


class kept_list(cached_property[Any]):
    """A property that is found in turn when it is first read after a change, and that can't be written to."""

    def __init__(self, find: Callable[[Any], Any]) -> None:
        super().__init__(wraps(find)(lambda self: read_only(find(self))))

    def __get__(self, it: Any, kind: type | None = None) -> Any:
        if it is None:
            return self
        return it._turn.take(super().__get__, it, kind)


def read_only(found: Any) -> Any:
    """An array or a memoryview, or some, that can't be written to."""
    if isinstance(found, tuple):
        return tuple(map(read_only, found))
    if isinstance(found, memoryview):
        return found.toreadonly()
    if hasattr(found, "flags"):
        found.flags.writeable = False
    return found
