"""A backend of networkx: `nx.minimum_spanning_tree(G, backend="boruvka")`. It needs networkx 3.2 or later.

Networkx finds it by its entry points once the package is installed. Each function returns what networkx's own function
returns with Kruskal's algorithm: the same edges in the same order. Calls with another algorithm are passed on to
networkx. So are calls whose weights can't be ordered as 64-bit numbers: integers of more than 64 bits, doubles together
with integers above 2^53, and other types such as `Fraction`.

The first call puts the endpoints of the edges into arrays. Networkx (from version 3.3 on) stores these with the graph,
and drops them when a method changes the graph. With a view it stores nothing. Weights are read at each call.
"""

from __future__ import annotations

from collections.abc import Callable, Collection, Iterable, Iterator, Mapping
from itertools import chain, compress
from typing import Any

import networkx as nx
import numpy as np
from numpy.typing import NDArray

from boruvka._edges import forest_indices

#: the endpoints, the key in a multigraph, and the data
Edge = tuple[Any, ...]
# with more edges than this, calls are faster here in spite of the conversion to arrays
_WORTHWHILE = 500
_WHOLE = {bool, int, np.bool_, np.int8, np.int16, np.int32, np.int64, np.uint8, np.uint16, np.uint32}
_FLOATS = {float, np.float16, np.float32, np.float64}
# up to this every integer is a double
_EXACT = 1 << 53


class Unsuited(Exception):
    """The weights can't be ordered here, so networkx has to find the edges."""


class ArrayGraph:
    """A graph of networkx, with its edges in networkx's order: arrays of their endpoints, and lists of their keys and
    data.

    Tuples are made only for the edges of the forest, because making one for each edge takes longer than finding the
    forest.
    """

    __networkx_backend__ = "boruvka"

    def __init__(self, graph: nx.Graph) -> None:
        self.graph = graph
        # (dict() is needed for views: their length counts what they filter out)
        around = {it: _as_dict(others) for it, others in graph.adjacency()}
        self.names = list(around)
        number = {it: i for i, it in enumerate(self.names)}
        u = np.repeat(np.arange(len(number), dtype=np.int32), _lengths(around.values()))
        v = np.fromiter(map(number.__getitem__, chain.from_iterable(around.values())), np.int32, len(u))
        data = list(chain.from_iterable(it.values() for it in around.values()))
        self.keys = None
        if graph.is_multigraph():
            # between two vertices there is an edge for each key
            data = list(map(_as_dict, data))
            u, v = (np.repeat(it, _lengths(data)) for it in (u, v))
            keys, data = list(chain.from_iterable(data)), list(chain.from_iterable(it.values() for it in data))
            self.keys = list(compress(keys, (u <= v).tolist()))
        # networkx lists an edge at both endpoints; only the one at the earlier endpoint counts
        self.data = list(compress(data, (u <= v).tolist()))
        self.u, self.v = u[u <= v], v[u <= v]

    def is_directed(self) -> bool:
        return bool(self.graph.is_directed())

    def is_multigraph(self) -> bool:
        return bool(self.graph.is_multigraph())

    def edges(self, index: NDArray[np.intp]) -> list[Edge]:
        """Edges as networkx has them: endpoints, keys in a multigraph, and data."""
        columns = [map(self.names.__getitem__, it[index].tolist()) for it in (self.u, self.v)]
        columns += [map(it.__getitem__, index.tolist()) for it in (self.keys, self.data) if it is not None]
        return list(zip(*columns))

    def forest(self, weight: str, is_minimum: bool, ignore_nan: bool) -> list[Edge]:
        """The edges of the forest in the order in which Kruskal's algorithm chooses them.

        Raise Unsuited if the weights can't be ordered.
        """
        weights = _array_of([it.get(weight, 1) for it in self.data])
        numbers = ~np.isnan(weights)
        if not (ignore_nan or numbers.all()):
            (edge,) = self.edges(np.flatnonzero(~numbers)[:1])
            raise ValueError(f"NaN found as an edge weight. Edge {edge}")
        used = np.flatnonzero(numbers)
        columns = self.u[used], self.v[used], _ranks(weights[used], is_minimum)
        return self.edges(used[forest_indices(len(self.names), *columns)])


def minimum_spanning_edges(
    G: ArrayGraph | nx.Graph,
    algorithm: str = "kruskal",
    weight: str = "weight",
    keys: bool = True,
    data: bool = True,
    ignore_nan: bool = False,
) -> Iterator[Edge]:
    """Do what `networkx.minimum_spanning_edges` does, with its parameters."""
    return _edges(G, nx.minimum_spanning_edges, algorithm, weight, keys, data, ignore_nan)


def maximum_spanning_edges(
    G: ArrayGraph | nx.Graph,
    algorithm: str = "kruskal",
    weight: str = "weight",
    keys: bool = True,
    data: bool = True,
    ignore_nan: bool = False,
) -> Iterator[Edge]:
    """Do what `networkx.maximum_spanning_edges` does, with its parameters."""
    return _edges(G, nx.maximum_spanning_edges, algorithm, weight, keys, data, ignore_nan)


def minimum_spanning_tree(
    G: ArrayGraph | nx.Graph, weight: str = "weight", algorithm: str = "kruskal", ignore_nan: bool = False
) -> nx.Graph:
    """Do what `networkx.minimum_spanning_tree` does, with its parameters."""
    return _tree(G, minimum_spanning_edges(G, algorithm, weight, ignore_nan=ignore_nan))


def maximum_spanning_tree(
    G: ArrayGraph | nx.Graph, weight: str = "weight", algorithm: str = "kruskal", ignore_nan: bool = False
) -> nx.Graph:
    """Do what `networkx.maximum_spanning_tree` does, with its parameters."""
    return _tree(G, maximum_spanning_edges(G, algorithm, weight, ignore_nan=ignore_nan))


def convert_from_nx(graph: nx.Graph, **_: Any) -> ArrayGraph:
    """What networkx passes to the functions instead of its graph, and stores with the graph."""
    if hasattr(graph, "_graph"):
        # (a view changes with its graph, whose methods drop nothing here, so networkx must store nothing)
        graph.__networkx_cache__ = None
    return ArrayGraph(graph)


def convert_to_nx(result: Any, **_: Any) -> Any:
    """A result as networkx has it."""
    return result.graph if isinstance(result, ArrayGraph) else result


def can_run(name: str, args: tuple[Any, ...], kwargs: dict[str, Any]) -> bool:
    """Whether a call is possible. Every call is, because networkx finds what this backend can't."""
    return True


def should_run(name: str, args: tuple[Any, ...], kwargs: dict[str, Any]) -> bool | str:
    """Whether a call is faster here, if the user named no backend."""
    graph = args[0] if args else kwargs["G"]
    return graph.number_of_edges() > _WORTHWHILE or "networkx is as fast for a small graph"


def _edges(
    G: ArrayGraph | nx.Graph, of_networkx: Callable[..., Iterator[Edge]], algorithm: str, weight: str, keys: bool, data: bool, ignore_nan: bool
) -> Iterator[Edge]:
    arrays = G if isinstance(G, ArrayGraph) else ArrayGraph(G)
    if arrays.is_directed():
        raise nx.NetworkXNotImplemented("not implemented for directed type")
    own = getattr(of_networkx, "orig_func", of_networkx)
    options = {"algorithm": algorithm, "weight": weight, "keys": keys, "data": data, "ignore_nan": ignore_nan}
    found: Iterator[Edge] = _found(arrays, own, **options) if algorithm == "kruskal" else own(arrays.graph, **options)
    return found


def _found(arrays: ArrayGraph, own: Callable[..., Iterator[Edge]], **options: Any) -> Iterator[Edge]:
    """The edges of the forest. As in networkx, weights are read when the first edge is needed."""
    try:
        found = arrays.forest(options["weight"], own.__name__ == "minimum_spanning_edges", options["ignore_nan"])
    except Unsuited:
        yield from own(arrays.graph, **options)
        return
    length = 3 if options["keys"] and arrays.is_multigraph() else 2
    for it in found:
        yield (*it[:length], it[-1]) if options["data"] else it[:length]


def _tree(G: ArrayGraph | nx.Graph, edges: Iterator[Edge]) -> nx.Graph:
    """A graph of the same class, with the same vertices and these edges."""
    graph = convert_to_nx(G)
    tree = graph.__class__()
    tree.graph.update(graph.graph)
    tree.add_nodes_from(graph.nodes.items())
    tree.add_edges_from(edges)
    return tree


def _as_dict(group: Mapping[Any, Any]) -> dict[Any, Any]:
    """The same entries as a dict."""
    return group if type(group) is dict else dict(group)


def _lengths(groups: Iterable[Collection[Any]]) -> NDArray[np.intp]:
    return np.array([len(it) for it in groups], np.intp)


def _array_of(weights: list[Any]) -> NDArray[Any]:
    """The weights as numbers of 64 bits in the same order. Raise Unsuited if there are none."""
    types = set(map(type, weights))
    if not types <= _WHOLE | _FLOATS:
        raise Unsuited
    if types <= _WHOLE:
        try:
            return np.fromiter(weights, np.int64, len(weights))
        except OverflowError:
            raise Unsuited from None
    if types & _WHOLE and any(abs(int(it)) > _EXACT for it in weights if type(it) in _WHOLE):
        raise Unsuited
    return np.fromiter(weights, np.float64, len(weights))


def _ranks(weights: NDArray[Any], is_minimum: bool) -> NDArray[np.int64]:
    """The rank of each weight when Kruskal's algorithm sorts them; among equal weights the first has the lower rank."""
    m = len(weights)
    # (sorting backwards and reversing the result puts the greatest first, and keeps equal weights in order)
    order = np.argsort(weights, kind="stable") if is_minimum else m - 1 - np.argsort(weights[::-1], kind="stable")[::-1]
    ranks = np.empty(m, np.int64)
    ranks[order] = np.arange(m)
    return ranks
