"""What the library holds for a value of Python: a handle, with a lock, that is given up when nobody
uses it any more."""

from __future__ import annotations

import ctypes
import threading
from types import TracebackType
from typing import Any, ClassVar, Optional, Type, TypeVar, Union

from kormaglen._arguments import type_name
from kormaglen._library import CALLS, DocumentStruct, SchemaStruct
from kormaglen._refusals import closed

_H = TypeVar("_H", bound="Held")


class Handle:
    """A struct of the library's and the lock that each call with it takes, so that there is one call at
    a time.

    The lock can be taken again on the same thread, since a finalizer or a signal's handler may run in
    the midst of a method there.
    """

    __slots__ = ("_close", "_struct", "closed", "lock", "ref")

    def __init__(self, struct: Union[SchemaStruct, DocumentStruct]) -> None:
        # What the finalizer needs is kept here: the module's names may be gone when it runs.
        self._close = (
            CALLS.kormaglen_schema_close
            if isinstance(struct, SchemaStruct)
            else CALLS.kormaglen_document_close
        )
        self._struct = struct
        # (what the struct has may change while a call on another thread runs, so it doesn't tell)
        self.closed = False
        self.lock = threading.RLock()
        self.ref: Any = ctypes.byref(struct)

    def close(self) -> None:
        """Gives up what is held. It waits for a call on another thread."""
        with self.lock:
            self.closed = True
            self._close(self.ref)

    def __del__(self) -> None:
        try:
            # Nobody else has the handle now. Its lock is taken already only in a process that was forked
            # during a call; what the handle holds is then unknown, and it stays.
            if self.lock.acquire(blocking=False):
                self._close(self.ref)
                self.lock.release()
        except AttributeError:
            pass  # it was never made whole


class Held:
    """A value that is held by the library: a context manager that closes it. A value without a handle
    is a closed one."""

    # A subclass or `__new__` may leave out `__init__`: then this one is found.
    _handle: Optional[Handle] = None
    _what: ClassVar[str] = ""

    @property
    def closed(self) -> bool:
        """Whether it was closed, or never opened. It never fails.

        >>> schema = Schema("[]")
        >>> schema.closed
        False
        """
        return self._handle is None or self._handle.closed

    def close(self) -> None:
        """Gives up what is held: every later call but this one and `closed` raises `Closed`. It waits
        for a call on another thread. To close twice is no error.

        >>> schema = Schema("[]")
        >>> schema.close()
        >>> schema.closed
        True
        """
        if self._handle is not None:
            self._handle.close()

    def __enter__(self: _H) -> _H:
        opened(self, Held)
        return self

    def __exit__(
        self,
        kind: Optional[Type[BaseException]],
        error: Optional[BaseException],
        trace: Optional[TracebackType],
    ) -> None:
        self.close()


def opened(value: object, kind: Type[Held], name: str = "self") -> Handle:
    """The handle of a value of that class that isn't closed. Raises TypeError where it is of another
    class: a handle of another kind must not reach the library. Raises Closed where it is closed."""
    if not isinstance(value, kind):
        raise TypeError(f"{name}: a {kind._what} is wanted, not {type_name(value)}")
    handle = value._handle
    if handle is None or handle.closed:
        raise closed(value._what)
    return handle
