"""Files near the sizes from which `--plain` keeps fewer links than it reads. If there are more than 65,536 arcs, and more than
15 per vertex, then a list of 32,768 links, and of 10 per vertex, is replaced by its forest."""
import os
import random

from cases.running import Program, case, expect, file_of, forest_of, forest_text, ran, with_library

LONG = 32_768
WEIGHTS = {
    "equal": lambda draw, place: 7,
    "few": lambda draw, place: draw.randint(-2, 2),
    "many": lambda draw, place: draw.randint(-(2**62), 2**62),
    "rising": lambda draw, place: place,
    "falling": lambda draw, place: -place,
}
THREADS = [["--plain"], ["--plain", "--threads", "3"]]


def expect_forest(vertices, arcs, all_words=THREADS):
    file, forest = file_of(vertices, arcs), forest_of(vertices, arcs)
    links, total = sum(u != v for u, v, _ in arcs), sum(weight for weight, _, _ in forest)
    report = f"vertices={vertices} links={links} rounds=0 shards=0 asked=0 answered=0 alone=0 closed=0 total={total}\n"
    for words in all_words:
        expect(ran([*words, "--report"], file), 0, forest_text(vertices, forest), report.encode())


def drawn(seed, vertices, arcs, weights):
    """Draws arcs between any vertices, with loops and repeats."""
    draw = random.Random(seed)
    return [(draw.randint(1, vertices), draw.randint(1, vertices), WEIGHTS[weights](draw, place)) for place in range(arcs)]


def by_rows(seed, vertices, each, weights):
    """Draws arcs from each vertex in turn to near ones, both directions next to each other."""
    draw = random.Random(seed)
    rows = []
    for v in range(vertices):
        for place in range(each // 2):
            near, weight = (v + draw.randint(1, 2 * each)) % vertices, WEIGHTS[weights](draw, place)
            rows += [(v + 1, near + 1, weight), (near + 1, v + 1, weight)]
    return rows


@case
def as_many_arcs_as_are_kept_whole_and_one_more(_room):
    for vertices in (2, 300, 4_369, 5_000):
        most = max(65_536, 15 * vertices)
        for arcs in (most - 1, most, most + 1):
            expect_forest(vertices, drawn(arcs, vertices, arcs, "many"))


@case
def lists_that_end_as_long_as_the_bound(_room):
    # all links of a star are in the forest: the list gets long at its last link, one before, or one after it
    for vertices in (3_000, 4_000):
        long = max(LONG, 10 * vertices)
        star = [(1, v, v) for v in range(2, vertices + 1)]
        loops = [(1, 1, 0)] * 70_000
        for links in (long - 1, long, long + 1):
            again = [(2, 3, weight) for weight in range(links - len(star))]
            expect_forest(vertices, star + again + loops)
            expect_forest(vertices, loops + again + star)


@case
def many_arcs_of_each_order_of_weights(_room):
    for vertices, arcs in ((300, 80_000), (7_000, 145_000)):
        for seed, weights in enumerate(WEIGHTS):
            expect_forest(vertices, drawn(seed, vertices, arcs, weights))
            expect_forest(vertices, by_rows(seed, vertices, arcs // vertices, weights))


@case
def heavy_arcs_that_join_what_light_ones_leave_apart(_room):
    # many light arcs within two halves; long after them a heavy arc joins the halves, and then a lighter one
    draw = random.Random(5)
    light = [(2 * draw.randint(1, 200) - half, 2 * draw.randint(1, 200) - half, draw.randint(1, 1_000)) for half in (0, 1) for _ in range(45_000)]
    draw.shuffle(light)
    for bridges in ([(1, 2, 10**6)], [(1, 2, 10**6), (3, 4, 10**6 - 1)], [(1, 2, 0)]):
        expect_forest(400, light[:80_000] + bridges + light[80_000:])
        expect_forest(400, light + bridges)


@case
def repeated_edges_next_to_each_other(_room):
    # all of them, or only those in a part of the file, so that a sample misses some
    for seed, (vertices, edges) in enumerate([(2, 40_000), (300, 20_000), (5_000, 30_000), (20_000, 90_000)]):
        draw = random.Random(seed)
        for first, last in [(0, edges), (edges // 3, edges // 2), (edges - 50, edges)]:
            arcs = []
            for place, (u, v, weight) in enumerate(drawn(seed, vertices, edges, "few")):
                times = draw.choice([1, 2, 2, 2, 3]) if first <= place < last else 1
                arcs += [(u, v, weight), (v, u, weight), (u, v, weight)][:times]
            expect_forest(vertices, arcs)


@case
def edges_in_both_directions_take_the_memory_of_one(room):
    vertices, edges = 100_000, drawn(7, 100_000, 400_000, "many")
    peaks = {}
    for name, arcs in [("one", edges), ("both", [arc for u, v, weight in edges for arc in [(u, v, weight), (v, u, weight)]])]:
        with open(f"{room}/{name}.gr", "wb") as it:
            it.write(file_of(vertices, arcs))
        found, peak = with_library(room, [Program.path, "--plain", f"{room}/{name}.gr"], b"", {"PEAK": "1"})
        expect(found, 0, forest_text(vertices, forest_of(vertices, edges)), b"")
        peaks[name] = int(peak) << 10
    if not 8 << 20 < peaks["one"] < 40 << 20 or peaks["both"] > 1.05 * peaks["one"]:
        raise AssertionError(f"bytes by the edges' directions: {peaks}")


@case
def many_arcs_of_a_million_vertices_take_the_memory_of_ten_per_vertex(room):
    # 40 million arcs, which would take 640 MB: two links in turn, so that none repeats the link before it
    vertices, arcs = 2**20 + 1, 40_000_000
    name = f"{room}/long.gr"
    with open(name, "wb") as it:
        it.write(b"p sp %d %d\n" % (vertices, arcs))
        for _ in range(20):
            it.write(b"a 1 2 3\na 1 3 3\n" * (arcs // 40))
    text = b"p sp %d 2\na 1 2 3\na 1 3 3\n" % vertices
    for words in THREADS:
        found, peak = with_library(room, [Program.path, *words, name], b"", {"PEAK": "1"})
        expect(found, 0, text, b"")
        if not 16 * 10 * vertices < int(peak) << 10 < 16 * 25 * vertices:
            raise AssertionError(f"{words}: {peak.decode()} KiB")
    os.remove(name)
