"""Files of lines: which ones a path names, and where they are cut."""

from __future__ import annotations

import errno
import os
from typing import TYPE_CHECKING, Any, List, Mapping, Optional, Sequence, Union

from dask.utils import parse_bytes
from fsspec.core import get_fs_token_paths
from fsspec.utils import infer_compression

from kormaglen._arguments import type_name, within
from kormaglen.dask._pieces import FilePart, state_of

if TYPE_CHECKING:
    OnePath = Union[str, "os.PathLike[str]"]
    Paths = Union[OnePath, Sequence[OnePath]]
else:
    OnePath = Paths = Any

_LARGEST_BLOCKSIZE = 1 << 62


def tested_blocksize(value: object) -> Optional[int]:
    """How many bytes a piece has. Raises TypeError where it is no integer, text or None, ValueError
    where a text is no size, OverflowError where it is below 1."""
    if value is None:
        return None
    size: object = value
    if isinstance(value, str):
        try:
            # (Dask takes a text without a number, as "MiB" and "", for one of it)
            size = int(parse_bytes(value)) if any(map(str.isdecimal, value)) else int("")
        except (ValueError, OverflowError):
            raise ValueError(f'blocksize: "{value[:40]}" is no size as "16 MiB"') from None
    return within(size, "blocksize", 1, _LARGEST_BLOCKSIZE)


def _texts(path: object) -> List[str]:
    """A path or several, as texts."""
    several: List[Any] = list(path) if isinstance(path, (list, tuple)) else [path]
    if not several:
        raise ValueError("path: no file is named")
    return [path_text(each) for each in several]


def path_text(path: Any) -> str:
    """The text of a path. Raises TypeError where it is none."""
    text = os.fspath(path) if isinstance(path, (str, os.PathLike)) else path
    if not isinstance(text, str):
        raise TypeError(f"path: a text or a path is wanted, not {type_name(path)}")
    return text


def cuts(path: Paths, blocksize: Optional[int], options: Optional[Mapping[str, Any]]) -> List[FilePart]:
    """The pieces of the files that a path names, or several. An empty file is one piece.

    Raises FileNotFoundError where there is no file, IsADirectoryError for a folder, ValueError for a
    compressed file that is to be cut.
    """
    found: List[FilePart] = []
    for text in _texts(path):
        system, _, names = get_fs_token_paths(text, mode="rb", storage_options=dict(options or {}))
        if not names:
            raise FileNotFoundError(errno.ENOENT, "no file has this path", text)
        for name in names:
            found.extend(_cuts_of(system, name, blocksize))
    return found


def _cuts_of(system: Any, path: str, blocksize: Optional[int]) -> List[FilePart]:
    """The pieces of one file."""
    if system.info(path)["type"] == "directory":
        raise IsADirectoryError(errno.EISDIR, "it is a folder, and a file of lines is wanted", path)
    compression = infer_compression(path)
    if compression is not None and blocksize is not None:
        raise ValueError(
            f"{path}: a file that is compressed by {compression} can't be cut; "
            "blocksize=None reads it as one piece"
        )
    state = state_of(system, path)
    if blocksize is None:
        return [FilePart(system, path, compression, 0, None, state)]
    size = state[0]
    if size is None:
        raise ValueError(f"{path}: the size is not known, so it can't be cut; blocksize=None reads it whole")
    starts = range(0, size, blocksize) or range(1)
    ends = [*starts[1:], size]
    return [FilePart(system, path, None, start, end - start, state) for start, end in zip(starts, ends)]
