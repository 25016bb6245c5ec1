"""Merges of clusters: the module's in Node, compared with scipy's single linkage, and the page's dendrogram."""
import csv
import io
import json
import os
import random
import subprocess
import sys

from browsing.node import links_in, results_by_node
from browsing.page import Page, arcs_of, clusters_of, is_same_partition, is_so, quick
from browsing.reach import MOST_POINTS, MOST_STEP, own_time
from cases.running import Skipped, case, file_of, forest_of

# For each graph: the merges of its links as given, or an error; whether the links are unchanged; the forest; and the forest's
# merges by the module and by kruskal.js.
MERGES = """
const rowsOut = merges => Array.from({ length: merges.length / 3 }, (_, i) => [...merges.subarray(3 * i, 3 * i + 3)]);
for (const { n, links } of given) {
    const before = String(links), ofLinks = tried(() => rowsOut(mergesOfLinks(module, n, links))), isKept = String(links) === before;
    const forest = tried(() => forestOfLinks(module, n, links)), isFound = forest instanceof Uint32Array;
    const [proved, unproved] = isFound ? [mergesOfLinks(module, n, forest), mergesByKruskal(n, forest)].map(rowsOut) : [[], []];
    console.log(JSON.stringify({ ofLinks, isKept, forest: isFound ? linksOut(forest) : forest, proved, unproved }));
}
"""
# The example in scipy's documentation of `scipy.cluster.hierarchy.single`: twelve points in four corners, their heights, and the
# flat clusters at a distance of 1.
CORNERS = [(0, 0), (0, 1), (1, 0), (0, 4), (0, 3), (1, 4), (4, 0), (3, 0), (4, 1), (4, 4), (3, 4), (4, 3)]
CORNER_HEIGHTS = [1.0] * 8 + [2.0] * 3
CORNER_CLUSTERS = [3, 3, 3, 4, 4, 4, 2, 2, 2, 1, 1, 1]
LEFT, RIGHT, HOME, END = "\ue012", "\ue014", "\ue011", "\ue010"


def by_scipy(script, given):
    """The JSON that a script prints. It can use `given`, and scipy's `hierarchy` and `numpy`."""
    python = "/usr/bin/python3" if os.path.exists("/usr/bin/python3") else sys.executable
    head = "import json, sys, numpy; from scipy.cluster import hierarchy; given = json.load(sys.stdin)\n"
    ended = subprocess.run([python, "-c", head + script], input=json.dumps(given), capture_output=True, text=True, check=False)
    if "No module named" in ended.stderr:
        raise Skipped("there is no scipy")
    is_so((ended.returncode, ended.stderr[-500:]), (0, ""))
    return json.loads(ended.stdout)


def merges_of(room, graphs):
    """The result of the script above for graphs, each given by its number of vertices and its edges (u, v, weight)."""
    found = results_by_node(room, MERGES, [(n, arcs, "") for n, arcs in graphs])
    for it in found:
        it["forest"] = links_in(it["forest"])
    return found


def rows_of(n, links):
    """The merges of edges (weight, low, high), computed with sets of vertices."""
    clusters, rows = {v - 1: {v} for v in range(1, n + 1)}, []
    for i, (_, low, high) in enumerate(links):
        first, second = sorted(name for name, points in clusters.items() if points & {low, high})
        clusters[n + i] = clusters.pop(first) | clusters.pop(second)
        rows.append([first, second, len(clusters[n + i])])
    return rows


def all_pairs(draw, n, most):
    return [(u, v, draw.randint(0, most)) for v in range(1, n + 1) for u in range(1, v)]


@case
def worked_merges_in_node(room):
    """Merges computed by hand: equal weights, several trees, endpoints in either order, and zero, one and two points."""
    small = [(2, 5, 0), (3, 4, 0), (3, 5, 0), (4, 6, 3), (1, 3, 10)]
    worked = [
        (6, small, [[1, 4, 2], [2, 3, 2], [6, 7, 4], [5, 8, 5], [0, 9, 6]]),
        # in another order of equal weights, and with swapped endpoints
        (6, [(5, 3, 0), (5, 2, 0), (4, 3, 0), (6, 4, 3), (3, 1, 10)], [[2, 4, 2], [1, 6, 3], [3, 7, 4], [5, 8, 5], [0, 9, 6]]),
        # only the first two edges: four trees
        (6, small[:2], [[1, 4, 2], [2, 3, 2]]),
        (7, [(1, 2, -9), (4, 5, -9), (2, 3, 2**62), (6, 4, 2**63 - 1)], [[0, 1, 2], [3, 4, 2], [2, 7, 3], [5, 8, 3]]),
        (2, [(1, 2, -(2**63))], [[0, 1, 2]]),
        (2, [], []),
        (1, [], []),
        (0, [], []),
        (10**6, [(1, 10**6, 0), (2, 10**6, 0)], [[0, 10**6 - 1, 2], [1, 10**6, 3]]),
    ]
    found = merges_of(room, [(n, arcs) for n, arcs, _ in worked])
    is_so([(it["ofLinks"], it["isKept"]) for it in found], [(wanted, True) for *_, wanted in worked])


@case
def merges_of_drawn_forests_in_node(room):
    """The module and kruskal.js find the same merges as sets of vertices, for one tree and for several."""
    draw, graphs = random.Random(18), []
    for _ in range(80):
        n = draw.choice([1, 2, 3, 8, 60, 300])
        graphs.append((n, [(draw.randint(1, n), draw.randint(1, n), draw.randint(0, draw.choice([0, 3, 10**9]))) for _ in range(draw.randint(0, 3 * n))]))
    for (n, arcs), found in zip(graphs, merges_of(room, graphs), strict=True):
        is_so(found["forest"], forest_of(n, arcs))
        wanted = rows_of(n, found["forest"])
        is_so((found["proved"] == wanted, found["unproved"] == wanted), (True, True))
    # larger than each internal block: a path, whose merges are known, and a random graph
    n = 100_000
    line, drawn = merges_of(room, [(n, [(v, v + 1, v) for v in range(1, n)]), (n, [(draw.randint(1, n), draw.randint(1, n), draw.randint(0, 99)) for _ in range(2 * n)])])
    is_so(line["ofLinks"] == [[0, 1, 2]] + [[v, n + v - 2, v + 1] for v in range(2, n)], True)
    is_so((len(drawn["proved"]) == len(drawn["forest"]), drawn["proved"] == drawn["unproved"]), (True, True))
    return f"{len(graphs)} graphs"


@case
def merges_in_node_are_single_linkage(room):
    """The merges agree with scipy's: row by row if no two distances are equal, and otherwise by the height at which any two
    points are joined."""
    draw = random.Random(19)
    graphs = [(n, all_pairs(draw, n, most)) for n in (2, 3, 12, 70) for most in (0, 2, 40, 10**12)]
    found = [[[first, second, height, size] for (first, second, size), (height, *_) in zip(it["proved"], it["forest"], strict=True)] for it in merges_of(room, graphs)]
    script = """
rows = []
for (n, weights), ours in given:
    theirs, ours = hierarchy.linkage(numpy.array(weights, float), 'single'), numpy.array(ours, float)
    isSame = numpy.array_equal(hierarchy.cophenet(ours), hierarchy.cophenet(theirs))
    hasSameRows = numpy.array_equal(ours, theirs) or len(set(weights)) < len(weights)
    rows.append([bool(hierarchy.is_valid_linkage(ours)), isSame, hasSameRows])
print(json.dumps(rows))
"""
    # scipy takes the pairs in the order (1, 2), (1, 3), ..
    given = [((n, [w for _, _, w in sorted(arcs)]), ours) for (n, arcs), ours in zip(graphs, found)]
    is_so(by_scipy(script, given), [[True] * 3] * len(graphs))
    is_so(sum(len({w for *_, w in arcs}) == len(arcs) for _, arcs in graphs) >= 4, True)


@case
def mistakes_of_merges_in_node(room):
    mistakes = [
        # not ascending, also at the end of a long list
        (3, [(1, 2, 5), (2, 3, 4)], "links aren't sorted by weight"),
        (3, [(1, 2, 0), (2, 3, -1)], "links aren't sorted by weight"),
        (1000, [(v, v + 1, v % 999) for v in range(1, 1000)], "links aren't sorted by weight"),
        # all edges instead of those of the forest
        (3, [(1, 2, 1), (2, 3, 1), (1, 3, 1)], "links contain a cycle"),
        (2, [(1, 2, 3), (2, 1, 3)], "links contain a cycle"),
        (2, [(2, 2, 3)], "links contain a cycle"),
        # both errors: the cycle is reported first
        (3, [(1, 2, 3), (2, 3, 2), (1, 3, 1)], "links contain a cycle"),
        # vertices numbered from 0, or another number of them
        (3, [(0, 1, 1), (1, 2, 1)], "an endpoint isn't a vertex"),
        (2, [(1, 3, 1)], "an endpoint isn't a vertex"),
        (0, [(1, 1, 1)], "an endpoint isn't a vertex"),
        (2**26 + 1, [], "too many vertices"),
    ]
    found = merges_of(room, [(n, arcs) for n, arcs, _ in mistakes])
    is_so([(it["ofLinks"], it["isKept"]) for it in found], [(error, True) for *_, error in mistakes])


def linkage_of(page):
    return [[float(it) for it in row.split(",")] for row in page.saved("linkage.csv").decode().splitlines()]


def numbers_of(page):
    return [int(it["cluster"]) for it in csv.DictReader(io.StringIO(page.saved("clusters.csv").decode()))]


def line_of(page):
    """The cut as screen readers get it: the least, the greatest and the current number of clusters, and a text."""
    return page.browser.run("const it = document.getElementById('dendrogram'); return [it.ariaValueMin, it.ariaValueMax, it.ariaValueNow, it.ariaValueText]")


def press(page, *keys):
    page.browser.run("document.getElementById('dendrogram').focus()")
    page.browser.press(*keys)
    page.frames()


@case
def the_dendrogram_of_scipys_corners(_room):
    """Keys move the cut from height to height. It never separates equal heights."""
    text = "".join(f"{x},{y}\n" for x, y in [("x", "y"), *CORNERS]).encode()
    for scheme, width, height in [("light", 1280, 800), ("dark", 390, 844)]:
        page = Page.opened(width=width, height=height, scheme=scheme)
        page.drop(("corners.csv", text))
        if width < 500:
            page.click("tree")
        is_so([it[2] for it in linkage_of(page)], CORNER_HEIGHTS)
        # it begins at the largest jump of heights
        is_so(line_of(page), ["1", "12", "4", "4 clusters, merged up to 1"])
        is_same_partition(numbers_of(page), CORNER_CLUSTERS)
        page.keep(f"corners_{scheme}")
        texts = []
        for key in (LEFT, LEFT, RIGHT, RIGHT, RIGHT, HOME, END):
            press(page, key)
            texts.append(line_of(page)[2:])
        one, four, twelve = ["1", "1 cluster, merged up to 2"], ["4", "4 clusters, merged up to 1"], ["12", "12 clusters"]
        is_so(texts, [one, one, four, twelve, twelve, one, twelve])
        # from between equal heights to below or above them
        for key, wanted in [(LEFT, four), (RIGHT, twelve)]:
            page.set("clusters", 7)
            press(page, key)
            is_so(line_of(page)[2:], wanted)
        page.expect(points="12", size="11", total="14")


@case
def the_dendrogram_of_several_trees(_room):
    """A graph of three trees has at least three clusters, and its merges are those of the sets of vertices."""
    page, draw = Page.opened(), random.Random(20)
    page.drop(("trees.gr", b"p sp 7 5\na 1 2 -9\na 4 5 -9\na 2 3 4\na 6 4 4\na 3 1 7\n"))
    is_so(linkage_of(page), [[0, 1, -9, 2], [3, 4, -9, 2], [2, 7, 4, 3], [5, 8, 4, 3]])
    texts = []
    for key in (HOME, RIGHT, RIGHT, LEFT, LEFT):
        press(page, key)
        texts.append((line_of(page), numbers_of(page)))
    joined, apart = ["3", "7", "3", "3 clusters, merged up to 4"], ["3", "7", "5", "5 clusters, merged up to −9"]
    is_so(texts[0], (joined, [1, 1, 1, 2, 2, 2, 3]))
    is_so(texts[1], (apart, [1, 1, 3, 2, 2, 4, 5]))
    is_so(texts[2], (["3", "7", "7", "7 clusters"], [1, 2, 3, 4, 5, 6, 7]))
    is_so((texts[3], texts[4]), (texts[1], texts[0]))
    page.keep("trees")
    # (doubles would round these heights)
    page.drop(("far.gr", b"p sp 3 2\na 1 2 9007199254740993\na 2 3 -9007199254740993\n"))
    is_so(page.saved("linkage.csv"), b"1,2,-9007199254740993,2\n0,3,9007199254740993,3\n")
    for n, m in [(60, 40), (60, 200)]:
        arcs = [(draw.randint(1, n), draw.randint(1, n), draw.randint(0, 9)) for _ in range(m)]
        page.drop(("drawn.gr", file_of(n, arcs)))
        forest = forest_of(n, arcs)
        is_so(linkage_of(page), [[first, second, height, size] for (first, second, size), (height, *_) in zip(rows_of(n, forest), forest, strict=True)])


@case
def the_dendrogram_of_no_one_and_two_points(_room):
    page = Page.cleared()
    label = "return document.getElementById('dendrogram').ariaLabel"
    press(page, LEFT, RIGHT, HOME, END)
    is_so((page.browser.run(label), line_of(page)), ("Dendrogram: no merges yet", ["1", "1", "1", "1 cluster"]))
    page.drop(("one.csv", b"x,y\n5,5\n"))
    press(page, LEFT, RIGHT, HOME, END)
    is_so((page.browser.run(label), line_of(page), page.saved("linkage.csv")), ("Dendrogram: no merges yet", ["1", "1", "1", "1 cluster"], b""))
    page.drop(("two.csv", b"x,y\n0,0\n3,4\n"))
    is_so((page.browser.run(label), page.saved("linkage.csv")), ("Dendrogram. The heaviest merges are at 5.", b"0,1,5,2\n"))
    texts = []
    for key in (HOME, RIGHT, LEFT):
        press(page, key)
        texts.append(line_of(page))
    joined = ["1", "2", "1", "1 cluster, merged up to 5"]
    is_so(texts, [joined, ["1", "2", "2", "2 clusters"], joined])
    page.expect(points="2", size="1")


# drags the cut over the dendrogram in thirty drawn steps, and returns the number of clusters at each
DRAG = """
return (async () => {
    const it = document.getElementById('dendrogram'), box = it.getBoundingClientRect(), counts = [];
    const event = (kind, x) => it.dispatchEvent(new PointerEvent(kind, { pointerId: 1, clientX: box.left + x, clientY: box.top + 60, buttons: 1, bubbles: true }));
    it.setPointerCapture = () => {};
    event('pointerdown', 15);
    for (let i = 1; i <= 30; i++) {
        event('pointermove', 15 + (box.width - 30) * i / 30);
        await new Promise(done => requestAnimationFrame(() => setTimeout(done)));
        counts.push(document.getElementById('clusters').valueAsNumber);
    }
    event('pointerup', box.width - 15);
    return counts;
})()
"""


@case
def the_dendrogram_of_a_hundred_thousand_points(_room):
    """The cut is dragged from one cluster to all points. Its clusters are those of the edges up to its height."""
    page = Page.opened()
    page.browser.run("document.getElementById('count').value = arguments[0]; document.getElementById('random').click()", MOST_POINTS)
    page.settle()
    page.browser.devtools("Performance.enable", timeDomain="threadTicks")
    begun = own_time(page)
    counts = page.browser.run(DRAG)
    step = (own_time(page) - begun) / 30
    is_so((counts == sorted(counts), counts[0] < 100, counts[-1] > MOST_POINTS / 2), (True, True, True))
    page.keep("dragged")
    forest = page.saved("forest.gr")
    heights = [it[2] for it in arcs_of(forest)[1]]
    ninth = sorted(set(heights))[-9]
    for keys, count in [([HOME] + [RIGHT] * 9, 1 + sum(it >= ninth for it in heights)), ([END], MOST_POINTS)]:
        press(page, *keys)
        is_so(line_of(page)[2], str(count))
        is_same_partition(numbers_of(page), clusters_of(forest, count))
    return quick(step <= MOST_STEP, f"the page's thread worked {step:.0f} ms a step")
