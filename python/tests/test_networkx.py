"""The backend of networkx, compared with networkx's own functions: the same edges in the same order."""

import fractions
import math
import unittest
import warnings

import numpy as np
from _boruvka_networkx import info
from graphs import Graph

import boruvka  # noqa: F401 (it can be imported without networkx)

try:
    import networkx as nx
except ImportError:
    nx = None
else:
    from boruvka import networkx_backend as backend


def is_found():
    """Whether networkx finds the backend by its entry points, as it does after the package is installed."""
    backends = getattr(getattr(nx, "utils", None), "backends", None)
    return "boruvka" in getattr(backends, "backends", {})


def graph_of(drawn, kind):
    graph = kind(name="drawn")
    graph.add_nodes_from(((i, "a vertex"), {"place": i}) for i in range(drawn.n))
    for i, (u, v, w) in enumerate(zip(drawn.u, drawn.v, drawn.w)):
        # (every tenth edge has no weight, so networkx uses its default)
        graph.add_edge((u, "a vertex"), (v, "a vertex"), place=i, **({} if i % 10 == 9 else {"weight": w}))
    return graph


def whole(graph):
    """Everything in a graph, in its order."""
    edges = graph.edges(keys=True, data=True) if graph.is_multigraph() else graph.edges(data=True)
    return type(graph), graph.graph, list(graph.nodes(data=True)), list(edges)


@unittest.skipUnless(nx, "there is no networkx")
class Functions(unittest.TestCase):
    def expect_the_same(self, graph, **pattern):
        for name in ("minimum_spanning_edges", "maximum_spanning_edges"):
            for keys in (True, False):
                for data in (True, False):
                    expected = list(getattr(nx, name)(graph, keys=keys, data=data, **pattern))
                    self.assertEqual(list(getattr(backend, name)(graph, keys=keys, data=data, **pattern)), expected)
        for name in ("minimum_spanning_tree", "maximum_spanning_tree"):
            expected = whole(getattr(nx, name)(graph, **pattern))
            self.assertEqual(whole(getattr(backend, name)(graph, **pattern)), expected)

    def test_drawn_graphs(self):
        for seed in range(150):
            drawn = Graph(seed)
            with self.subTest(seed=seed, kind=drawn.kind):
                for kind in (nx.Graph, nx.MultiGraph):
                    self.expect_the_same(graph_of(drawn, kind))

    def test_small_graphs(self):
        for kind in (nx.Graph, nx.MultiGraph):
            self.expect_the_same(kind())
            self.expect_the_same(kind([(1, 1)]))
            self.expect_the_same(nx.path_graph(5, create_using=kind))
            self.expect_the_same(nx.cycle_graph("abcd", create_using=kind))

    def test_weights_of_other_types(self):
        big, half = 2**53, 0.5
        for weights in [
            [big + 1, float(big), big - half, 3],
            [2**63, 2**63 + 1, -1, 0],
            [2**64 + 1, 2**64, 5, -(2**70)],
            [fractions.Fraction(1, 3), 1 / 3, 1, 2],
            [True, 0, 2, False],
            [math.inf, big, -math.inf, -big],
            [np.int64(4), np.float32(0.1), 0.1, 3],
            [np.uint64(2**63), np.uint64(2**63 - 1), 1, 2],
            [-(2**63), 2**63 - 1, 0, -1],
        ]:
            for turned in (weights, weights[::-1], [weights[it] for it in (2, 0, 3, 1)]):
                graph = nx.Graph()
                for i, it in enumerate([*turned, *turned]):
                    graph.add_edge(i % 4, (i + 1 + i // 4) % 5, weight=it)
                self.expect_the_same(graph)

    def test_another_name_of_the_weight(self):
        graph = nx.Graph([(1, 2, {"length": 4, "weight": 1}), (2, 3, {"length": 2}), (1, 3, {"length": 3, "weight": 0})])
        self.expect_the_same(graph, weight="length")
        self.expect_the_same(graph, weight="none of them")

    def test_other_algorithms_are_networkxs(self):
        draw = np.random.default_rng(1)
        graph = nx.Graph()
        graph.add_weighted_edges_from((int(u), int(v), float(w)) for u, v, w in zip(draw.integers(0, 30, 90), draw.integers(0, 30, 90), draw.random(90)) if u != v)
        for algorithm in ("prim", "boruvka"):
            self.expect_the_same(graph, algorithm=algorithm)
        with self.assertRaisesRegex(ValueError, "not a valid choice"):
            backend.minimum_spanning_tree(graph, algorithm="none")

    def test_weights_that_are_no_numbers(self):
        graph = nx.Graph([(1, 2, {"weight": math.nan}), (2, 3, {"weight": 2.0}), (1, 3, {"weight": 3}), (4, 5, {"weight": math.nan})])
        self.expect_the_same(graph, ignore_nan=True)
        for name in ("minimum_spanning_edges", "maximum_spanning_edges"):
            with self.assertRaisesRegex(ValueError, r"NaN found as an edge weight. Edge \(1, 2"):
                list(getattr(backend, name)(graph))
        graph[2][3]["weight"] = "two"
        with self.assertRaises(TypeError):
            list(backend.minimum_spanning_edges(graph, ignore_nan=True))

    def test_weights_are_looked_at_when_the_first_edge_is_read(self):
        for wrong in (math.nan, "two", None):
            graph = nx.Graph([(1, 2, {"weight": wrong}), (2, 3, {"weight": 2.0})])
            for module in (nx, backend):
                for name in ("minimum_spanning_edges", "maximum_spanning_edges"):
                    edges = getattr(module, name)(graph)
                    with self.assertRaises((ValueError, TypeError)):
                        next(edges)
                with self.assertRaises((ValueError, TypeError)):
                    module.minimum_spanning_tree(graph)
            graph[1][2]["weight"] = 1.0
            self.expect_the_same(graph)

    def test_views_that_filter(self):
        for seed in range(60):
            drawn = Graph(seed)
            for kind in (nx.Graph, nx.MultiGraph):
                graph = graph_of(drawn, kind)
                edges = list(graph.edges(keys=True)) if graph.is_multigraph() else list(graph.edges())
                kept = set(edges[::2]) | {(it[1], it[0], *it[2:]) for it in edges[::2]}
                views = [
                    nx.subgraph_view(graph, filter_edge=lambda *it: it in kept),
                    nx.subgraph_view(graph, filter_node=lambda it: it[0] % 3 > 0),
                    graph.edge_subgraph(edges[::2]),
                    graph.subgraph(list(graph)[::2]),
                ]
                for place, view in enumerate(views):
                    with self.subTest(seed=seed, kind=kind, place=place):
                        for name in ("minimum_spanning_edges", "maximum_spanning_edges"):
                            self.assertEqual(list(getattr(backend, name)(view)), list(getattr(nx, name)(view)))

    def test_directed_graphs_are_rejected(self):
        for kind in (nx.DiGraph, nx.MultiDiGraph):
            for name in info()["functions"]:
                with self.assertRaisesRegex(nx.NetworkXNotImplemented, "directed"):
                    list(getattr(backend, name)(kind([(1, 2)])))

    def test_small_graphs_are_left_to_networkx(self):
        self.assertIs(backend.should_run("minimum_spanning_tree", (nx.path_graph(600),), {}), True)
        self.assertIsNot(backend.should_run("minimum_spanning_tree", (), {"G": nx.path_graph(6)}), True)


@unittest.skipUnless(is_found(), "networkx finds no backend boruvka: it is older than 3.2, or the package isn't installed")
class Found(unittest.TestCase):
    def setUp(self):
        caught = warnings.catch_warnings()
        caught.__enter__()
        self.addCleanup(caught.__exit__, None, None, None)
        # (networkx says that it cached the arrays)
        warnings.filterwarnings("ignore", "Note: conversions to backend graphs are saved")

    def test_by_its_name(self):
        for kind in (nx.Graph, nx.MultiGraph):
            for seed in range(40):
                graph = graph_of(Graph(seed), kind)
                for name in info()["functions"]:
                    own, ours = getattr(nx, name)(graph), getattr(nx, name)(graph, backend="boruvka")
                    if "tree" in name:
                        own, ours = whole(own), whole(ours)
                        self.assertEqual(ours, own)
                    else:
                        self.assertEqual(list(ours), list(own))

    def test_a_graph_that_was_changed(self):
        graph = nx.path_graph(4)
        graph.add_edge(0, 3, weight=2)
        self.assertEqual(sorted(nx.minimum_spanning_edges(graph, data=False, backend="boruvka")), [(0, 1), (1, 2), (2, 3)])
        graph.add_edge(1, 2, weight=9)
        self.assertEqual(sorted(nx.minimum_spanning_edges(graph, data=False, backend="boruvka")), [(0, 1), (0, 3), (2, 3)])
        graph.remove_edge(0, 1)
        self.assertEqual(sorted(nx.minimum_spanning_edges(graph, data=False, backend="boruvka")), [(0, 3), (1, 2), (2, 3)])

    def test_weights_that_changed_between_calls(self):
        for kind, key in ((nx.Graph, []), (nx.MultiGraph, [0])):
            graph = nx.cycle_graph(4, create_using=kind)
            for heavy in ((0, 1), (2, 3), (1, 2), (3, 0)):
                *at, last = [*heavy, *key]
                data = graph[at[0]][last] if not key else graph[at[0]][at[1]][last]
                data["weight"] = 5
                left_out = {*graph.edges()} - {it[:2] for it in nx.minimum_spanning_edges(graph, data=False, backend="boruvka")}
                self.assertEqual({frozenset(it) for it in left_out}, {frozenset(heavy)})
                data["weight"] = 1

    def test_the_arrays_are_kept_with_the_graph(self):
        graph = nx.path_graph(4)
        if not hasattr(graph, "__networkx_cache__"):
            self.skipTest("this networkx keeps nothing")
        found = [list(nx.minimum_spanning_edges(graph, backend="boruvka")) for _ in range(3)]
        (held,) = graph.__networkx_cache__["backends"]["boruvka"].values()
        self.assertEqual((found[1:], held.u.tolist()), (found[:2], [0, 1, 2]))

    def test_views_of_graphs_that_were_changed(self):
        kept = {0, 1}
        for made in (
            lambda it: it.subgraph(range(4)),
            lambda it: it.edge_subgraph([*it.edges]),
            lambda it: it.copy(as_view=True),
            lambda it: it.to_undirected(as_view=True),
            lambda it: nx.restricted_view(it, [9], []),
            lambda it: it.subgraph(range(4)).subgraph(range(4)),
        ):
            for kind in (nx.Graph, nx.MultiGraph):
                graph = kind([(0, 1), (1, 2), (2, 3)])
                view = made(graph)
                self.assertEqual(sorted(nx.minimum_spanning_edges(view, data=False, keys=False, backend="boruvka")), [(0, 1), (1, 2), (2, 3)])
                graph.remove_edge(0, 1)
                self.assertEqual(sorted(nx.minimum_spanning_edges(view, data=False, keys=False, backend="boruvka")), [(1, 2), (2, 3)])
        view = nx.subgraph_view(nx.path_graph(4), filter_node=kept.__contains__)
        self.assertEqual(list(nx.minimum_spanning_tree(view, backend="boruvka")), [0, 1])
        kept.add(2)
        self.assertEqual(list(nx.minimum_spanning_tree(view, backend="boruvka").edges), [(0, 1), (1, 2)])

    def test_what_networkx_finds_itself(self):
        graph = nx.Graph([(1, 2, {"weight": 2**70}), (2, 3, {"weight": 0.5}), (1, 3, {"weight": 2**70 + 1})])
        self.assertEqual(list(nx.minimum_spanning_edges(graph, data=False, backend="boruvka")), [(2, 3), (1, 2)])
        with self.assertRaises(nx.NetworkXNotImplemented):
            nx.minimum_spanning_tree(nx.DiGraph([(1, 2)]), backend="boruvka")

    def test_as_the_first_choice_for_all_calls(self):
        if not hasattr(getattr(nx, "config", None), "backend_priority"):
            self.skipTest("this networkx has no such choice")
        draw = np.random.default_rng(2)
        for weights in (draw.random(900).tolist(), [fractions.Fraction(it, 7) for it in draw.integers(0, 9, 900).tolist()]):
            graph = nx.MultiGraph()
            graph.add_weighted_edges_from(zip(draw.integers(0, 99, 900).tolist(), draw.integers(0, 99, 900).tolist(), weights))
            own = list(nx.maximum_spanning_edges(graph)), whole(nx.minimum_spanning_tree(graph))
            with nx.config(backend_priority=["boruvka"]):
                self.assertEqual((list(nx.maximum_spanning_edges(graph)), whole(nx.minimum_spanning_tree(graph))), own)
            self.assertIn("boruvka", graph.__networkx_cache__["backends"])

    def test_dispatched_by_networkx(self):
        self.assertEqual(nx.utils.backends.backend_info["boruvka"]["backend_name"], "boruvka")


if __name__ == "__main__":
    unittest.main()
