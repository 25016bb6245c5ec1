"""Points of the pen, random points and points of files; their clusters and pictures."""
import math
import re
import struct
import xml.etree.ElementTree

from browsing.page import Page, arcs_of, clusters_of, drawn_points, forest_by_program, is_same_partition, is_so
from cases.running import case, forest_of

CLICKED = [(300, 200), (310, 200), (300, 212), (700, 500), (712, 500), (800, 190)]
ENTER, DELETE, LEFT, DOWN, SHIFT, CONTROL = "\ue007", "\ue017", "\ue012", "\ue015", "\ue008", "\ue009"
GREY = "#807b72"


def all_pairs(points):
    """The edges between all pairs of points, which are numbered from 1, sorted by length."""
    pairs = [(u, v) for v in range(len(points)) for u in range(v)]
    return sorted((u + 1, v + 1, math.dist(points[u], points[v])) for u, v in pairs)


def lengths_in(forest):
    """The lengths in a forest's text, whose weights are bit patterns of doubles."""
    return [struct.unpack("d", struct.pack("q", it[2]))[0] for it in arcs_of(forest)[1]]


def clicked():
    """A page with these points, added with the pen."""
    page = Page.cleared()
    page.click("pen")
    for number, (x, y) in enumerate(CLICKED, 1):
        page.browser.click_at("picture", x, y)
        page.settle()
        page.expect(points=str(number), size=str(number - 1))
    return page


@case
def clicked_points(_room):
    page = clicked()
    weights = [it[0] for it in forest_of(6, all_pairs(CLICKED))]
    total, heaviest = f"{sum(weights):.7g}", f"{weights[-1]:.7g}"
    page.set("clusters", 3)
    page.expect(total=total, heaviest=heaviest, kept="12", say="3 clusters. Sizes: 3, 2, 1. 1 cluster smaller than 2 is grey.")
    page.keep("six_clicks")
    rows = page.saved("clusters.csv").decode().splitlines()
    is_so((rows[0], [it.rsplit(",", 1)[1] for it in rows[1:]]), ("x,y,cluster", ["1", "1", "1", "2", "2", "3"]))
    page.click("undo")
    page.expect(points="5")
    page.browser.run("document.getElementById('picture').focus()")
    page.browser.press((CONTROL, "z"))
    page.expect(points="4")
    # the hand adds no points
    page.click("pen")
    page.browser.click_at("picture", 500, 400)
    page.expect(points="4")


@case
def a_point_far_from_zero(_room):
    """With map coordinates in metres, the pen adds a point exactly at the pixel."""
    page = Page.opened()
    page.drop(("utm.csv", b"x,y\n391234.5,5812345.25\n391244.5,5812345.25\n391244.5,5812355.25\n"))
    page.click("pen")
    page.browser.click_at("picture", 400, 400)
    page.expect(points="4")
    script = "return Promise.all([import('./state.js'), import('./view.js')]).then(([{ state: { shown } }, { lens }]) => [lens().across(shown.points[6]), lens().down(shown.points[7])])"
    is_so([abs(it - 400) < 0.2 for it in page.browser.run(script)], [True, True])


@case
def the_field_has_the_clusters_that_there_are(_room):
    """A number that is too large, a fraction or an empty field is replaced by the number in use."""
    page = Page.opened()
    page.drop(("points.csv", b"0,0\n3,4\n10,10\n"))
    for written, count in [("1000", "3"), ("1.6", "2"), ("-5", "1"), (DELETE, "1")]:
        page.set("cut", 2)
        page.browser.run("const it = document.getElementById('clusters'); it.focus(); it.select()")
        page.browser.press(*written, ENTER)
        page.frames()
        is_so((written, page.value("clusters"), page.text("say").split(" ")[0]), (written, count, count))


@case
def points_by_keys(_room):
    page = Page.cleared()
    page.click("pen")
    page.browser.run("document.getElementById('picture').focus()")
    page.browser.press(ENTER)
    page.settle()
    page.browser.press(LEFT, LEFT, LEFT, ENTER)
    page.settle()
    page.browser.press(DOWN, DOWN, DOWN, DOWN, (SHIFT, LEFT), ENTER)
    page.settle()
    page.expect(points="3", size="2", heaviest="40.0125", total="70.0125")
    page.keep("keys")
    page.browser.press(DELETE)
    page.settle()
    page.expect(points="2", size="1", total="30")


@case
def clusters_by_slider_field_dendrogram_and_bars(_room):
    page, (_, text) = Page.opened(), drawn_points(3, 300)
    page.drop(("points.csv", text))
    forest = page.saved("forest.gr")
    weights = lengths_in(forest)

    def expect(count):
        rows = page.saved("clusters.csv").decode().splitlines()
        is_so([it.rsplit(",", 1)[0] for it in rows], text.decode().splitlines())
        found = [int(it.rsplit(",", 1)[1]) for it in rows]
        is_same_partition(found, clusters_of(forest, count))
        sizes = [found.count(it) for it in range(1, count + 1)]
        is_so((sorted(sizes, reverse=True), min(sizes) > 0), (sizes, True))
        is_so((page.value("cut"), page.value("clusters")), (str(min(100, count)), str(count)))
        page.expect(kept=f"{weights[300 - count - 1]:.7g}" if count < 300 else "", heaviest=f"{weights[-1]:.7g}")

    # scattered points are one cluster at first
    expect(1)
    for control, count in [("cut", 1), ("cut", 2), ("cut", 9), ("clusters", 40), ("clusters", 299), ("clusters", 300), ("cut", 100)]:
        page.set(control, count)
        expect(count)
    page.set("clusters", 1000)
    expect(300)
    # a click near the left, below the heaviest merge, leaves two clusters, on each scale
    wide = page.browser.run("return document.getElementById('dendrogram').clientWidth") - 28
    for scale, cut in [("root", weights[-1] * (1 - 2 / wide) ** 2), ("even", weights[-1] * (1 - 2 / wide)), ("log", None)]:
        page.set("scale", scale)
        page.browser.click_at("dendrogram", 16, 200)
        page.frames()
        least = next(it for it in weights if it > 0)
        expect(300 - sum(it <= (cut or least * (weights[-1] / least) ** (1 - 2 / wide)) for it in weights))
        page.keep(f"clusters_{scale}")
    # a click on the third bar cuts the first three
    step = wide / 30
    page.browser.click_at("bars", 14 + 2.5 * step, 40)
    page.frames()
    expect(4)


def drawn_marks(text):
    """The numbers of lines and of filled shapes in a saved picture, by colour."""
    paths = [it.attrib for it in xml.etree.ElementTree.fromstring(text) if "d" in it.attrib]
    count = lambda key: {it[key]: it["d"].count("M") for it in paths if key in it and it[key] != "none"}  # noqa: E731
    return count("stroke"), count("fill")


@case
def a_saved_picture(_room):
    page = clicked()
    page.set("clusters", 3)
    strokes, marks = drawn_marks(page.saved("picture.svg"))
    strokes.pop("#67635b")  # of the scale bar
    # two edges are cut; the clusters have 3, 2 and 1 points
    is_so((strokes.pop("#a9a396"), sorted(strokes.values()), sorted(marks.values())), (2, [1, 2], [1, 2, 3]))
    is_so(marks[GREY], 1)
    left = re.search(GREY + r'" d="M([0-9.]+) ([0-9.]+)', page.saved("picture.svg").decode())
    is_so((abs(float(left[1]) + 4.5 - 800) < 0.2, abs(float(left[2]) - 190) < 0.2), (True, True))


@case
def a_link_over_the_edge_of_the_map(_room):
    """The edge continues on the other side of the map: no line is longer than the edge, wherever the map is cut open."""
    page = Page.opened()
    rows = [(x, 0) for x in range(-180, 180, 20)] + [(x, 10 + abs(x) / 90) for x in range(-170, 190, 20)]
    page.drop(("globe.csv", "".join(f"{x},{y}\n" for x, y in [("lon", "lat"), *rows]).encode()))
    page.set("clusters", 1)
    paths = [it.attrib["d"] for it in xml.etree.ElementTree.fromstring(page.saved("picture.svg")) if it.attrib.get("stroke")]
    lines = [tuple(map(float, it)) for path in paths for it in re.findall(r"M([-0-9.]+) ([-0-9.]+)L([-0-9.]+) ([-0-9.]+)", path)]
    wide = page.browser.run("return import('./view.js').then(({ lens }) => lens().zoom)") * 360
    is_so((len(lines) >= 35, max(abs(it[2] - it[0]) for it in lines) < wide / 10), (True, True))


@case
def small_clusters_are_grey(_room):
    """Among 1,000 points, a cluster of nine is grey, and a cluster of ten has a colour."""
    page = Page.opened()
    rows = [(x, 0) for x in range(981)] + [(5000 + x, 0) for x in range(9)] + [(9000 + x, 0) for x in range(10)]
    page.drop(("points.csv", "".join(f"{x},{y}\n" for x, y in rows).encode()))
    page.set("clusters", 3)
    page.expect(say="3 clusters. Sizes: 981, 10, 9. 1 cluster smaller than 10 is grey.")
    _, marks = drawn_marks(page.saved("picture.svg"))
    is_so((marks.pop(GREY), sorted(marks.values())), (9, [10, 981]))


@case
def the_same_place_many_times(_room):
    page = Page.opened()
    page.drop(("points.csv", b"5,5\n" * 2000))
    page.expect(points="2,000", size="1,999", total="0", heaviest="0")
    page.drop(("one.csv", b"1,2\n"))
    page.expect(points="1", size="0", total="0", heaviest="")
    page.drop(("line.csv", b"".join(b"%d,7\n" % it for it in range(100))))
    page.expect(points="100", total="99", heaviest="1")
    is_so(page.saved("forest.gr"), forest_by_program(page.saved("links.gr")))
