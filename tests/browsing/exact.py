"""Minimum spanning trees of points: their lengths are exactly those of Prim's algorithm over all pairs."""
import array
import json
import math
import os
import random
import shutil
import struct
import subprocess

from browsing.page import HERE, WEB, Page, arcs_of, forest_by_program, is_so
from cases.running import Skipped, case

# This script reads points as doubles, and writes the candidate edges: endpoints and length.
CANDIDATES = """
import { readFileSync, writeSync } from 'node:fs';
import { candidates } from './tree.js';
import { Globe, Plane } from './spaces.js';
const bytes = readFileSync(process.argv[3]), points = new Float64Array(bytes.buffer.slice(bytes.byteOffset, bytes.byteOffset + bytes.length));
const space = (process.argv[2] === 'globe' ? Globe : Plane).of(points), links = candidates(space);
for (let i = 2; i < links.length; i += 3) links[i] = space.length(links[i]);
writeSync(1, new Uint8Array(Float64Array.from(links).buffer));
"""


def by_node(room, script, space, points):
    """The doubles that a script writes for these points."""
    node = shutil.which("node")
    if not node:
        raise Skipped("there is no node")
    with open(f"{room}/points", "wb") as it:
        array.array("d", [value for point in points for value in point]).tofile(it)
    ended = subprocess.run([node, script, space, f"{room}/points"], capture_output=True, timeout=300, check=False)
    if ended.returncode:
        raise AssertionError(ended.stderr[-2000:].decode())
    return array.array("d", ended.stdout)


def modules(room):
    """A folder with the page's scripts for Node, and the script above."""
    if not os.path.exists(f"{room}/web"):
        shutil.copytree(WEB, f"{room}/web")
        shutil.copy(f"{HERE}/prim.js", f"{room}/web")
        with open(f"{room}/web/package.json", "w", encoding="utf-8") as it:
            json.dump({"type": "module"}, it)
        with open(f"{room}/web/candidates.js", "w", encoding="utf-8") as it:
            it.write(CANDIDATES)
    return f"{room}/web"


def lengths_by_prim(room, points, space="plane"):
    """The lengths of the edges of the tree, the shortest first."""
    far = space == "plane" and max(abs(value) for point in points for value in point) > 1e150
    scale = 2.0**-600 if far else 1.0
    found = by_node(room, f"{modules(room)}/prim.js", space, [(x * scale, y * scale) for x, y in points])
    return [it / scale for it in found]


def lengths_of(links, n):
    """The lengths of the tree's edges by Kruskal's algorithm, from edges (u, v, length)."""
    parent, found = list(range(n)), []

    def root(v):
        while parent[v] != v:
            parent[v] = parent[parent[v]]
            v = parent[v]
        return v

    for u, v, length in sorted(links, key=lambda it: it[2]):
        u, v = root(int(u)), root(int(v))
        if u != v:
            parent[u] = v
            found.append(length)
    return found


def uniform(draw, n):
    return [(draw.random(), draw.random()) for _ in range(n)]


def clustered(draw, n):
    middles = [(1000 * draw.random(), 1000 * draw.random()) for _ in range(12)]
    return [(draw.gauss(middles[i % 12][0], 15), draw.gauss(middles[i % 12][1], 3)) for i in range(n)]


def gridded(_draw, n):
    side = math.isqrt(n)
    return [(x, y) for x in range(side) for y in range(side)]


def repeated(draw, n):
    return [(draw.randrange(40), draw.randrange(40) / 4) for _ in range(n)]


def in_a_line(draw, n):
    return [(draw.randrange(10 * n) / 8, 7) for _ in range(n)]


def far_and_near(draw, n):
    """Points at 90 distances from the corner, each a tenth of the one before, so that boxes have all sizes."""
    return [(10.0 ** -(i % 90) * draw.choice([1, -1]), 10.0 ** -(i % 90) * draw.random()) for i in range(n)]


def at_the_ends(draw, n):
    """Coordinates near the largest double."""
    return [(1e307 * draw.random(), 1e307 * draw.random()) for _ in range(n)]


SHAPES = [uniform, clustered, gridded, repeated, in_a_line, far_and_near, at_the_ends]


def towns(draw, n):
    """Points all over the globe, some of them near 180 degrees, and many within a metre near a pole."""
    places = [(draw.uniform(-180, 180), draw.uniform(-90, 90)) for _ in range(n // 2)]
    near = [(draw.choice([-1, 1]) * (180 - draw.random() / 9), draw.uniform(-80, 80)) for _ in range(n // 4)]
    close = [(13.4 + draw.random() / 1e5, 89.999 + draw.random() / 1e5) for _ in range(n - len(places) - len(near))]
    return places + near + close


@case
def candidates_contain_a_minimum_spanning_tree(room):
    draw = random.Random(84)
    for n in (1, 2, 9, 10, 300, 2000):
        for shape in SHAPES:
            points = shape(draw, n)
            links = by_node(room, f"{modules(room)}/candidates.js", "plane", points)
            found = lengths_of(zip(links[::3], links[1::3], links[2::3]), len(points))
            is_so((shape.__name__, n, found == lengths_by_prim(room, points)), (shape.__name__, n, True))


@case
def candidates_of_points_that_share_a_coordinate(room):
    """The shared coordinate may be much larger than the others."""
    for shared, step in [(5, 1e-310), (1e308, 0.001), (-1.7976931348623157e308, 0.25), (1e10, 1e-300)]:
        for turn in (1, -1):
            points = [(shared, y * step)[::turn] for y in (0, 4, 1)]
            links = by_node(room, f"{modules(room)}/candidates.js", "plane", points)
            found = lengths_of(zip(links[::3], links[1::3], links[2::3]), 3)
            is_so([math.isclose(a, b, rel_tol=1e-12) for a, b in zip(found, [step, 3 * step], strict=True)], [True, True])


@case
def candidates_on_the_globe(room):
    draw = random.Random(85)
    for n in (2, 9, 300, 5000):
        points = towns(draw, n)
        links = by_node(room, f"{modules(room)}/candidates.js", "globe", points)
        found, wanted = lengths_of(zip(links[::3], links[1::3], links[2::3]), n), lengths_by_prim(room, points, "globe")
        is_so(len(found), n - 1)
        # (sines are rounded, so the last digit depends on the order of the steps)
        is_so([(a, b) for a, b in zip(found, wanted) if abs(a - b) > 1e-12 * b + 1e-9], [])


@case
def a_point_of_the_globe_with_several_coordinates(room):
    """At a pole all degrees east are one point, and so are 180 and -180, or 0 and 360. Many points may lie there."""
    for points in ([(13.4, 52.5)] * 50000, [(x / 100, 90) for x in range(20000)], [(180 - 360 * (i % 2), 10) for i in range(50000)], [(360 * (i % 2), -89.5) for i in range(50000)]):
        links = by_node(room, f"{modules(room)}/candidates.js", "globe", points)
        is_so(set(links[2::3]), {0.0})
    page = Page.opened()
    page.drop(("globe.csv", b"lon,lat\n0,90\n120,90\n180,0\n-180,0\n"))
    page.expect(size="3", total="10,007.54 km")


def text_of(points):
    return "".join(f"{x!r},{y!r}\n" for x, y in points).encode()


@case
def the_page_finds_a_minimum_spanning_tree(room):
    """The page's forest has the lengths of Prim's, and is the program's forest of the candidate edges."""
    page, draw = Page.opened(), random.Random(86)
    for n, shapes in [(2000, SHAPES), (20000, SHAPES[:5])]:
        for shape in shapes:
            points = shape(draw, n)
            page.drop(("points.csv", text_of(points)))
            page.expect(points=f"{len(points):,}", size=f"{len(points) - 1:,}")
            forest = page.saved("forest.gr")
            found = [struct.unpack("d", struct.pack("q", it[2]))[0] for it in arcs_of(forest)[1]]
            is_so((shape.__name__, n, found == lengths_by_prim(room, points)), (shape.__name__, n, True))
            is_so(forest_by_program(page.saved("links.gr")) == forest, True)
            total = f"{sum(found):,.7g}" if 1e-3 < sum(found) < 1e6 else None
            if total:
                is_so(page.text("total"), f"{float(f'{sum(found):.7g}'):,}".removesuffix(".0"))


@case
def points_that_cannot_be_measured(_room):
    page = Page.opened()
    for text, error in [(b"-1e308,0\n1e308,1e308\n", "TooFarApart"), (b"0,0\n1e-200,0\n1,1\n", "TooNear"), (b"1e-320,0\n0,0\n1,1\n", "TooNear")]:
        page.drop(("points.csv", text))
        is_so(page.error(), error)
    page.drop(("points.csv", b"0,0\n0,3e-300\n4e-300,0\n"))
    page.expect(size="2")
    page.drop(("points.csv", b"0,1e308\n1e308,1e308\n"))
    page.expect(size="1")
