"""Graphs of Dask's: layers of calls, one for each piece. What is used of Dask stands here, since it has
no types."""

from __future__ import annotations

from typing import Any, Callable, List, NamedTuple, Sequence, Tuple

import dask
from dask.bag.core import Bag
from dask.base import tokenize
from dask.delayed import Delayed
from dask.highlevelgraph import HighLevelGraph
from dask.threaded import get

from kormaglen._arguments import within

_Bag: Any = Bag
_tokenize: Any = tokenize
_Delayed: Any = Delayed
_HighLevelGraph: Any = HighLevelGraph
_dask: Any = dask
compute: Any = _dask.compute
persist: Any = _dask.persist
in_threads: Any = get

Key = Tuple[str, int]

_MOST_AT_ONCE = 1 << 20


class Layer(NamedTuple):
    """Calls with the keys (name, 0) to (name, size - 1), and the graph that they stand in."""

    graph: Any
    name: str
    size: int

    @property
    def keys(self) -> List[Key]:
        """The keys of the calls."""
        return [(self.name, at) for at in range(self.size)]

    def bag(self) -> Any:
        """A bag whose partitions the calls give."""
        return _Bag(self.graph, self.name, self.size)

    def delayed(self) -> List[Any]:
        """A `Delayed` for each call."""
        return [_Delayed(key, self.graph, layer=self.name) for key in self.keys]


def of_results(results: Any, name: str, size: int) -> Layer:
    """A layer with another graph, as one that has results in the place of calls."""
    if not isinstance(results, _HighLevelGraph):
        results = _HighLevelGraph({name: results}, {name: set()})
    return Layer(results, name, size)


def calls(function: Callable[..., Any], rows: Sequence[Tuple[Any, ...]], *before: Layer) -> Layer:
    """A call of the function with each row of arguments. Keys of the layers before stand for what their
    calls give. The name is made of all that, so that the same calls have the same."""
    name = f"kormaglen-{function.__name__.strip('_').replace('_', '-')}-{_tokenize(function, rows)}"
    layers = {key: layer for each in before for key, layer in each.graph.layers.items()}
    needs = {key: names for each in before for key, names in each.graph.dependencies.items()}
    layers[name] = {(name, at): (function, *row) for at, row in enumerate(rows)}
    needs[name] = {each.name for each in before}
    return Layer(_HighLevelGraph(layers, needs), name, len(rows))


def each(function: Callable[..., Any], of: Layer, *arguments: Any) -> Layer:
    """A call of the function with what each call of a layer gives, and these arguments."""
    return calls(function, [(key, *arguments) for key in of.keys], of)


def reduced(function: Callable[..., Any], of: Layer, split_every: int) -> Layer:
    """One call, at the root of a tree: the function makes one result of a list of `split_every` results,
    and again of a list of those."""
    several = within(split_every, "split_every", 2, _MOST_AT_ONCE)
    while of.size > 1:
        keys = of.keys
        rows = [(keys[at : at + several],) for at in range(0, of.size, several)]
        of = calls(function, rows, of)
    return of


def before_each(count: Callable[..., int], of: Layer, begins: Sequence[bool]) -> Layer:
    """One call that gives for each of the layer's results the sum of the counts before it, from the last
    one on that begins anew."""
    counts = each(count, of)
    return calls(_sums, [(counts.keys, list(begins))], counts)


def _sums(counts: Sequence[int], begins: Sequence[bool]) -> List[int]:
    sums: List[int] = []
    total = 0
    for count, begin in zip(counts, begins):
        total = 0 if begin else total
        sums.append(total)
        total += count
    return sums
