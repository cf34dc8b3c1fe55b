"""Lines of JSON into stored blocks by Dask, in threads, in processes or on a cluster.

A file is cut at line feeds into pieces. Each piece is imported by itself, and the blocks of all pieces,
one after the other, are the block that one import of the whole file gives. Terms and facets are counted
piece by piece, and the counts are added up as a tree.

>>> blocks = read_json_lines(PATH, SCHEMA, blocksize=17)
>>> blocks.npartitions
2
>>> [refused.line for refused in blocks.refused().compute(scheduler="threads")]
[2]
>>> terms(blocks, "age").compute()
[(b'\\x00\\x00\\x00\\x00u\\x00\\x00\\x00\\x00\\x00\\x00\\x00$', 2)]

This module needs the package `dask` with its bags (Debian: python3-dask); `import kormaglen` doesn't.
What crosses processes is bytes, numbers, texts and tuples of them. The schema's JSON goes with each
piece, and is read anew for it: that takes a quarter of a millisecond, and a piece of 16 MiB a second.

What is wrong with arguments is raised when a collection is made: a path without a file, a schema that
is refused, a field that isn't there. What is wrong with a file comes when it is read.
"""

try:
    import dask.bag
    import fsspec
except ImportError as error:
    _cause: ImportError = error
    while isinstance(_cause.__cause__, ImportError):  # (Dask says in its own words that there is no bag)
        _cause = _cause.__cause__
    raise ImportError(
        "kormaglen.dask wants Dask with its bags (Debian: python3-dask): "
        f"the package {(_cause.name or 'dask').split('.')[0]} is missing",
        name=_cause.name,
    ) from error

from kormaglen.dask._blocks import Piece, RefusedLine, StoredBlocks, read_json_lines
from kormaglen.dask._counts import facet_counts, term_documents, terms
from kormaglen.dask._pieces import FileChanged
from kormaglen.dask._writing import write_blocks

__all__ = [
    "FileChanged",
    "Piece",
    "RefusedLine",
    "StoredBlocks",
    "facet_counts",
    "read_json_lines",
    "term_documents",
    "terms",
    "write_blocks",
]
