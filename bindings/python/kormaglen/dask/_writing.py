"""Blocks into files."""

from __future__ import annotations

import errno
import os
from typing import Any, List, Union

from kormaglen._arguments import type_name
from kormaglen.dask import _graphs, _pieces
from kormaglen.dask._blocks import StoredBlocks
from kormaglen.dask._files import path_text


def write_blocks(
    blocks: StoredBlocks, path: Union[str, "os.PathLike[str]"], compute: bool = True
) -> List[Any]:
    """Writes the block of each piece into a separate file. Returns the paths of the files in the order
    of the pieces: one after the other they are one block. With `compute=False` it returns a `Delayed` of
    each path, and a file is written when that is computed.

    `path` is a folder, which is made where there is none, and has the files `000.block`, `001.block` and
    so on; or it has one `*` in the name of the file, for which the number stands. The numbers have as
    many digits as the last one, so that files sorted by their names are in order. The workers have to see
    the folder by its path, as on one machine or one file system.

    Each file is written under another name beside it, with the end `.new`, and renamed when it is whole:
    a file is whole or not there, and a piece that is computed twice gives the same file. After an error
    there are the files of some pieces, and no others.

    Raises at once FileExistsError where the folder has blocks already, or a file has one of the names,
    TypeError where an argument is of another type, ValueError where a path has two `*`, or begins as a
    URL does; and OSError where a folder can't be made. What reading, importing and writing raises comes
    when it is computed.

    >>> folder = os.path.join(os.path.dirname(PATH), "blocks")
    >>> paths = write_blocks(read_json_lines(PATH, SCHEMA, blocksize=17), folder)
    >>> [os.path.basename(path) for path in paths]
    ['0.block', '1.block']
    """
    if not isinstance(blocks, StoredBlocks):
        raise TypeError(f"blocks: a StoredBlocks is wanted, not {type_name(blocks)}")
    targets = _targets(path, blocks.npartitions)
    rows = list(zip(blocks._parts.keys, targets))
    written = _graphs.calls(_pieces.write_piece, rows, blocks._parts).delayed()
    return list(_graphs.compute(*written)) if compute else written


def _targets(path: object, count: int) -> List[str]:
    """The paths of the files. The folder is there, and none of the files."""
    text = path_text(path)
    if "://" in text:
        raise ValueError(f"path: a folder of this machine is wanted, not {text}")
    whole = os.path.abspath(text)
    folder, name = os.path.split(whole) if "*" in text else (whole, "*.block")
    if name.count("*") != 1 or "*" in text[: text.rfind(os.sep) + 1]:
        raise ValueError(f"path: one * may stand in the name of the file, not as in {text}")
    os.makedirs(folder, exist_ok=True)
    before, after = name.split("*")
    digits = len(str(count - 1))
    _expect_none(folder, before, after)
    return [os.path.join(folder, f"{before}{number:0{digits}}{after}") for number in range(count)]


def _expect_none(folder: str, before: str, after: str) -> None:
    """Raises FileExistsError where a file has a name that a block could have: with those of this
    collection it would be taken for one."""
    for name in sorted(os.listdir(folder)):
        number = name[len(before) : len(name) - len(after)]
        if name == before + number + after and number.isdecimal():
            raise FileExistsError(errno.EEXIST, "there is a block already", os.path.join(folder, name))
