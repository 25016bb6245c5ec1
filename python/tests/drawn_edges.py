"""Drawn edges, in every way that this package takes them, compared with Kruskal's algorithm on Python's own sort.

`SORTS` has a function for each sort of case. Each takes a generator of numpy.
"""

import random

import numpy as np

from boruvka import Forest, forest_of_chunks, from_edges, minimum_spanning_forest
from graphs import Components, Graph, by_key, replaced, searched

# 27 kinds of weights: for each dtype a few values and any bits, and three dtypes in the other byte order
_DTYPES = "b B h H i I l L e f d ?".split()
KINDS = [(it, how) for it in _DTYPES for how in ("ties", "any")] + [(it, "any") for it in (">i8", ">u4", ">f8")]
_ENDS = ["i1", "i2", "i4", "i8", "u1", "u2", "u4", "u8", ">i4", ">i8"]
_LETTERS = "AZaz09 é東𝔸"


def weights_of(draw, kind, count):
    """`count` weights of a kind, as an array."""
    dtype, how = np.dtype(kind[0]), kind[1]
    if how == "ties" or dtype.kind == "b":
        return np.array([draw.randint(0, 1 if dtype.kind == "b" else 3) for _ in range(count)]).astype(dtype)
    found = np.frombuffer(draw.randbytes(count * dtype.itemsize), dtype).copy()
    if dtype.kind == "f":
        found[np.isnan(found)] = np.inf
    # (a weight is at most 2^63 - 1)
    return found >> np.uint64(1) if dtype == np.uint64 else found


def drawn_graph(draw, kind):
    """A graph whose columns are arrays of drawn dtypes and memory layouts, some of them views."""
    graph = Graph(0)
    graph.n = draw.choice([1, 2, 3, 5, 8, 20, 60, 100])
    count = draw.choice([0, 1, 2, 5, 10]) * draw.choice([1, graph.n])
    reach = draw.choice([1, 3, graph.n])
    graph.u = [draw.randrange(graph.n) for _ in range(count)]
    graph.v = [min(graph.n - 1, max(0, it + draw.randint(-reach, reach))) for it in graph.u]
    graph.held = [np.array(it, draw.choice(_ENDS)) for it in (graph.u, graph.v)] + [weights_of(draw, kind, count)]
    graph.w = graph.held[2].tolist()
    for place, it in enumerate(graph.held):
        form = draw.randrange(4)
        if form == 1:
            graph.held[place] = np.repeat(it, 2)[::2]
        elif form == 2:
            graph.held[place] = it[::-1].copy()[::-1]
        elif form == 3:
            it.flags.writeable = False
    return graph


def expect(found, wanted, what):
    if found != wanted:
        raise AssertionError(f"{what}: expected {wanted!r:.300}, found {found!r:.300}")


def expect_forest(forest, graph, wanted, what):
    ends = [tuple(sorted((graph.u[it], graph.v[it]))) for it in wanted]
    expect(list(zip(forest.u.tolist(), forest.v.tolist())), ends, what)
    expect(forest.w.astype(graph.held[2].dtype).tobytes(), graph.held[2][wanted].tobytes(), what)


def expect_calls(draw, graph, wanted, maximum):
    """With and without threads, with and without n; and in chunks, some of which are forests."""
    u, v, w = graph.held
    more = {"maximum": maximum, "threads": draw.choice([1, 1, 2, 4])}
    n = max([*graph.u, *graph.v], default=-1) + 1
    for forest in (minimum_spanning_forest(graph.n, u, v, w, **more), minimum_spanning_forest(u, v, w, **more), minimum_spanning_forest(n=graph.n, u=u, v=v, w=w, **more)):
        expect(forest.index.tolist(), wanted, "index")
        expect_forest(forest, graph, wanted, "forest")
        expect(forest.n in (graph.n, n), True, "n")
    cuts = sorted(draw.randint(0, len(w)) for _ in range(draw.randrange(4)))
    rows = list(zip([0, *cuts], [*cuts, len(w)]))
    chunks = [tuple(it[start:end] for it in graph.held) for start, end in rows]
    chunks = [minimum_spanning_forest(graph.n, *it, maximum=maximum) if draw.random() < 0.4 else it for it in chunks]
    merged = forest_of_chunks(graph.n, chunks, maximum=maximum)
    expect_forest(merged, graph, wanted, "forest of chunks")
    for (chunk, row), place in zip(merged.index.tolist(), wanted):
        inner = chunks[chunk].index[row] if isinstance(chunks[chunk], Forest) else row
        expect(rows[chunk][0] + int(inner), place, "chunk and row")


def expect_names(draw, graph, maximum):
    """By names of one kind, with the rows in another order and endpoints swapped."""
    count = graph.n
    kinds = [range(-3, count), [10**15 * it for it in range(count)], [it / 2 for it in range(count)], [(it // 3, f"{it % 3}") for it in range(count)]]
    texts = {"".join(draw.choices(_LETTERS, k=draw.randint(1, 4))).strip() + "." for _ in range(3 * count)}
    kinds.append(sorted(texts, key=lambda it: [ord(letter) for letter in it]))
    names = draw.choice([list(it)[:count] for it in kinds if len(it) >= count])
    order = draw.sample(range(len(graph.w)), len(graph.w))
    # (among parallel edges of equal weight the first row counts)
    other = Graph(0)
    swapped = [draw.random() < 0.5 for _ in order]
    other.n = count
    other.u = [(graph.v if is_swapped else graph.u)[it] for it, is_swapped in zip(order, swapped)]
    other.v = [(graph.u if is_swapped else graph.v)[it] for it, is_swapped in zip(order, swapped)]
    other.w = [graph.w[it] for it in order]
    table = {"u": [names[it] for it in other.u], "v": [names[it] for it in other.v], "w": graph.held[2][order]}
    forest = from_edges(table, maximum=maximum)
    expect(forest.index.tolist(), by_key(other, maximum), "index by names")
    expect(forest.names, [names[it] for it in sorted({*other.u, *other.v})], "names")


def expect_questions(draw, graph, wanted, maximum):
    """Paths, bottlenecks, components and replacements."""
    forest = minimum_spanning_forest(graph.n, *graph.held, maximum=maximum)
    edges = list(zip(forest.u.tolist(), forest.v.tolist()))
    place = {it: number for number, it in enumerate(edges)}
    components = Components(graph.n)
    for it in edges:
        components.join(*it)
    roots = [components.root(it) for it in range(graph.n)]
    numbers = {it: number for number, it in enumerate(dict.fromkeys(roots))}
    expect(forest.labels(clusters=forest.components).tolist(), [numbers[it] for it in roots], "labels")
    pairs = [(a, b) for a, b in ((draw.randrange(graph.n), draw.randrange(graph.n)) for _ in range(6)) if roots[a] == roots[b]]
    ways = [searched(edges, *it) for it in pairs]
    expect(forest.path([a for a, _ in pairs], [b for _, b in pairs]), ways, "paths")
    for (a, b), way in zip(pairs, ways):
        if a != b:
            worst = max(place[min(it), max(it)] for it in zip(way, way[1:]))
            expect(forest.bottleneck(a, b).position, worst, "bottleneck")
    if len(graph.w) <= 100:
        expect(forest.replacements(*graph.held).tolist(), replaced(graph, wanted, maximum), "replacements")


def expect_edges(generator, kind=None):
    """Draw and check a case; return the kind of its weights."""
    draw = random.Random(int(generator.integers(2**63)))
    kind, maximum = kind or draw.choice(KINDS), draw.random() < 0.5
    graph = drawn_graph(draw, kind)
    before = [it.tobytes() for it in graph.held]
    wanted = by_key(graph, maximum)
    try:
        expect_calls(draw, graph, wanted, maximum)
        expect_names(draw, graph, maximum)
        expect_questions(draw, graph, wanted, maximum)
        expect([it.tobytes() for it in graph.held], before, "what was given")
    except AssertionError as error:
        raise AssertionError(f"{graph.n} vertices, {len(graph.w)} edges, weights of the kind {kind}, maximum={maximum}: {error}") from None
    return kind


SORTS = {"edges": expect_edges}
