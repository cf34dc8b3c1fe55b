"""Where lines and blocks come from: buffers, files and iterables, each read in parts of bounded size."""

from __future__ import annotations

from typing import Any, Callable, Iterable, Iterator, List, Mapping

from kormaglen._arguments import View, copied, is_buffer, type_name, utf8

# Gives about as many bytes more as it is asked for, and none at the end.
Read = Callable[[int], bytes]


def _of_buffer(value: Any, name: str) -> Read:
    """Reads a buffer. It is lent for each part anew, so that between two parts it may be resized or
    closed."""
    if isinstance(value, str):
        value = utf8(value, name)
    with View(value, name):
        pass  # (what isn't lent is refused here, and not at the first part)
    at = 0

    def read(size: int) -> bytes:
        nonlocal at
        with View(value, name) as view:
            part = view.bytes_at(at, size)
        at += len(part)
        return part

    return read


def _of_file(file: Any, name: str, texts: bool) -> Read:
    """Reads a file object, of bytes, or of texts where `texts` is set. Its errors are its own."""

    def read(size: int) -> bytes:
        return copied(file.read(size), f"{name}: what read() gives", texts)

    return read


def _of_items(items: Iterable[Any], name: str) -> Read:
    """Reads an iterable of lines: each item is one line or several, and ends a line, with a line feed
    or without."""
    iterator = iter(items)

    def read(size: int) -> bytes:
        parts: List[bytes] = []
        length = 0
        for item in iterator:
            part = copied(item, name)
            parts.append(part if part.endswith(b"\n") else part + b"\n")
            length += len(parts[-1])
            if length >= size:
                break
        return b"".join(parts)

    return read


def _is_file(source: object) -> bool:
    return callable(getattr(source, "read", None))


def reader_of_lines(source: Any, name: str) -> Read:
    """Reads a text, a buffer, a file object or an iterable of texts and buffers. Raises TypeError where
    it is something else."""
    if isinstance(source, str) or is_buffer(source):
        return _of_buffer(source, name)
    if _is_file(source):
        return _of_file(source, name, texts=True)
    # (what a mapping iterates over are its keys, which nobody means by lines)
    if isinstance(source, Iterable) and not isinstance(source, Mapping):
        return _of_items(source, name)
    raise TypeError(
        f"{name}: a text, a bytes-like object, a file or an iterable of lines is wanted, "
        f"not {type_name(source)}"
    )


def reader_of_block(source: Any, name: str) -> Read:
    """Reads a buffer or a file object of bytes. Raises TypeError where it is something else."""
    if is_buffer(source):
        return _of_buffer(source, name)
    if _is_file(source):
        return _of_file(source, name, texts=False)
    raise TypeError(f"{name}: a bytes-like object or a binary file is wanted, not {type_name(source)}")


def whole_lines(read: Read, size: int) -> Iterator[bytes]:
    """The lines in parts of about this size, each of whole lines. A part is larger where a line is."""
    begun: List[bytes] = []
    while True:
        part = read(size)
        if not part:
            break
        cut = part.rfind(b"\n") + 1
        if cut:
            yield b"".join(begun) + part[:cut]
            begun = [part[cut:]]
        else:
            begun.append(part)
    rest = b"".join(begun)
    if rest:
        yield rest


class Carry:
    """The bytes that were read and not yet used: those of `held` from `at` on. `place` is where these
    are in the whole."""

    def __init__(self, read: Read, size: int) -> None:
        self._read = read
        self._size = size
        self.held = b""
        self.at = 0
        self.place = 0
        self.ended = False

    @property
    def left(self) -> int:
        """How many bytes were read and not yet used."""
        return len(self.held) - self.at

    def fill(self, wanted: int) -> int:
        """Reads until `wanted` bytes are there, or all. Returns how many are."""
        length = self.left
        if length < wanted and not self.ended:
            parts = [self.held[self.at :]]
            while length < wanted and not self.ended:
                part = self._read(max(self._size, wanted - length))
                self.ended = not part
                parts.append(part)
                length += len(part)
            self.held, self.at = b"".join(parts), 0
        return length

    def grow(self) -> bool:
        """Reads as many bytes more as there are, and no less than a part. Whether there were any."""
        before = self.left
        return self.fill(before + max(before, self._size)) > before

    def use(self, count: int) -> None:
        """Passes over `count` bytes."""
        self.at += count
        self.place += count
