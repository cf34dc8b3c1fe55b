"""What every call's arguments pass on their way in: numbers, texts and buffers are tested here and
nowhere else."""

from __future__ import annotations

import ctypes
import mmap
import operator
import sys
from types import TracebackType
from typing import Any, Callable, ClassVar, Optional, Type, TypeVar, Union

from kormaglen._refusals import Status, refused

# A call of the library that writes into the buffer of this address and size, and answers. (ctypes has no
# types for its functions' results.)
Call = Callable[[int, int], Any]

_MOST_TRIES = 8

_V = TypeVar("_V", bound="View")

# A buffer of more bytes than this is taken from the system: its pages count only when they are written.
_LARGE = 1 << 20


def type_name(value: object) -> str:
    """How a message names the type of a value."""
    return type(value).__name__


def integer(value: object, name: str) -> int:
    """The value as an integer of any size. Raises TypeError where it is none, as a float or a bool."""
    if isinstance(value, bool):
        raise TypeError(f"{name}: an integer is wanted, not bool")
    try:
        return operator.index(value)  # type: ignore[arg-type]
    except TypeError:
        raise TypeError(f"{name}: an integer is wanted, not {type_name(value)}") from None


def within(value: object, name: str, least: int, most: int) -> int:
    """The value as an integer of a range. Errors are those of `integer`, and OverflowError where it is
    out of the range."""
    given = integer(value, name)
    if not least <= given <= most:
        # Python refuses to print a number of more than some thousand digits.
        shown = str(given) if given.bit_length() <= 256 else f"a number of {given.bit_length()} bits"
        raise OverflowError(f"{name}: {shown} is not within {least} and {most}")
    return given


def number(value: object, name: str) -> int:
    """The value as a number of 32 bits, as C takes it. It is tested before it crosses, because ctypes
    cuts it silently. Errors are those of `within`."""
    return within(value, name, 0, (1 << 32) - 1)


def chunk_size(value: object) -> int:
    """The value as a number of bytes to handle at once: from 1 to 2^30. Errors are those of `within`."""
    return within(value, "chunk_size", 1, 1 << 30)


def utf8(value: str, name: str) -> bytes:
    """The text in UTF-8. Raises ValueError where it has a lone surrogate."""
    try:
        # (by the type, since a subclass may have another `encode`)
        return str.encode(value, "utf-8")
    except UnicodeEncodeError as error:
        raise ValueError(
            f"{name}: the text has no UTF-8: character {error.start} is a lone surrogate"
        ) from None


def text(value: object, name: str) -> bytes:
    """A text's UTF-8. Raises TypeError where the value is no `str`."""
    if not isinstance(value, str):
        raise TypeError(f"{name}: a str is wanted, not {type_name(value)}")
    return utf8(value, name)


class _PyBuffer(ctypes.Structure):
    """Py_buffer of Python's C API."""

    _fields_ = [
        ("buf", ctypes.c_void_p),
        ("obj", ctypes.c_void_p),
        ("len", ctypes.c_ssize_t),
        ("itemsize", ctypes.c_ssize_t),
        ("readonly", ctypes.c_int),
        ("ndim", ctypes.c_int),
        ("format", ctypes.c_void_p),
        ("shape", ctypes.c_void_p),
        ("strides", ctypes.c_void_p),
        ("suboffsets", ctypes.c_void_p),
        ("internal", ctypes.c_void_p),
    ]


_get_buffer = ctypes.pythonapi.PyObject_GetBuffer
_get_buffer.argtypes = [ctypes.py_object, ctypes.POINTER(_PyBuffer), ctypes.c_int]
_get_buffer.restype = ctypes.c_int
_release_buffer = ctypes.pythonapi.PyBuffer_Release
_release_buffer.argtypes = [ctypes.POINTER(_PyBuffer)]
_release_buffer.restype = None
_new_bytes = ctypes.pythonapi.PyBytes_FromStringAndSize
_new_bytes.argtypes = [ctypes.c_void_p, ctypes.c_ssize_t]
_new_bytes.restype = ctypes.py_object
_has_buffer = ctypes.pythonapi.PyObject_CheckBuffer
_has_buffer.argtypes = [ctypes.py_object]
_has_buffer.restype = ctypes.c_int

_SIMPLE = 0
_WRITABLE = 1


def is_buffer(value: object) -> bool:
    """Whether the value has the buffer protocol."""
    return bool(_has_buffer(value))


class View:
    """The bytes of a buffer, where they lie, for the time of a `with`. Until then they can't be
    resized, but another thread may change them.

    Raises TypeError where the value has no bytes, ValueError for a memoryview that was released,
    BufferError where the bytes aren't contiguous.
    """

    __slots__ = ("_view", "at", "size")
    # (the finalizer may run when the module's names are gone)
    _release: ClassVar[Any] = _release_buffer
    _by_reference: ClassVar[Any] = ctypes.byref

    def __init__(
        self, value: Any, name: str, wanted: str = "a bytes-like object", writable: bool = False
    ) -> None:
        if not is_buffer(value):
            raise TypeError(f"{name}: {wanted} is wanted, not {type_name(value)}")
        self._view = _PyBuffer()
        try:
            _get_buffer(value, ctypes.byref(self._view), _WRITABLE if writable else _SIMPLE)
        except BufferError as error:
            raise BufferError(f"{name}: {error}") from None
        except ValueError as error:
            raise ValueError(f"{name}: {error}") from None
        # The length is the buffer's own: `len` of a subclass may say anything.
        self.at: int = self._view.buf or 0
        self.size: int = self._view.len

    def bytes_at(self, start: int, count: int) -> bytes:
        """A copy of some of the bytes. No other thread of Python runs meanwhile."""
        count = max(0, min(count, self.size - start))
        copy: bytes = _new_bytes(self.at + start, count) if count else b""
        return copy

    def __enter__(self: _V) -> _V:
        return self

    def __exit__(
        self,
        kind: Optional[Type[BaseException]],
        error: Optional[BaseException],
        trace: Optional[TracebackType],
    ) -> None:
        _release_buffer(ctypes.byref(self._view))

    def __del__(self) -> None:
        # A signal's handler may raise before the `with` has begun. What was given back is passed over.
        try:
            self._release(self._by_reference(self._view))
        except AttributeError:
            pass  # nothing was lent


def copied(value: Any, name: str, texts: bool = True) -> bytes:
    """The bytes of a buffer, or of a text where `texts` is set, that nobody changes any more. Errors
    are those of `View`, and ValueError for a lone surrogate."""
    if texts and isinstance(value, str):
        return utf8(value, name)
    if type(value) is bytes:
        return value
    wanted = "a str or a bytes-like object" if texts else "a bytes-like object"
    with View(value, name, wanted) as view:
        return view.bytes_at(0, view.size)


def _is_of_bytes(value: Any) -> bool:
    """Whether a value is a memoryview of bytes."""
    try:
        return type(value) is memoryview and type(value.obj) is bytes
    except ValueError:
        return True  # (it was released, which is said when it is lent)


class Lent(View):
    """The bytes of an argument for a call, which relies on it that they don't change while it runs.
    Bytes, and a memoryview of them, are read where they lie; of what may change, a copy is. A `str` is
    its UTF-8 where `texts` is set.

    Errors are those of `View`, and ValueError for a lone surrogate.
    """

    __slots__ = ()

    def __init__(self, value: Any, name: str, texts: bool = False) -> None:
        super().__init__(value if _is_of_bytes(value) else copied(value, name, texts), name)


def room(wanted: int) -> Union[bytearray, mmap.mmap]:
    """A buffer of `wanted` bytes to write into. Raises MemoryError where there is none."""
    if wanted > sys.maxsize:
        raise MemoryError(f"{wanted} bytes are wanted")
    if wanted <= _LARGE:
        return bytearray(wanted)
    try:
        return mmap.mmap(-1, wanted, flags=mmap.MAP_PRIVATE)
    except (OSError, OverflowError):
        raise MemoryError(f"{wanted} bytes are wanted") from None


def filled(first: int, call: Call) -> bytes:
    """What a call writes. It is called with a buffer of the first size, and where that is too small
    with one of the size that the answer says.

    One more try is enough, as the input stays the same. Raises BufferError where no try is, so that it
    ends in any case.
    """
    wanted = first
    for _ in range(_MOST_TRIES):
        buffer = room(wanted)
        with View(buffer, "buffer", writable=True) as out:
            answer = call(out.at, out.size)
        if answer.status == Status.OK:
            with memoryview(buffer) as view:
                return bytes(view[: answer.bytes])
        if answer.status != Status.TOO_SMALL:
            raise refused(answer)
        wanted = answer.bytes
    raise BufferError("no buffer was large enough for the answer, which grew with each try")
