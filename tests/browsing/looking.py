"""The look of the page: in small windows, while the rounds are played, with names, and with very many points."""
import re
import xml.etree.ElementTree

from browsing.page import Page, drawn_points, is_so
from browsing.points import drawn_marks
from cases.running import case

PARTS = "return ['dendrogram', 'bars', 'scale', 'smallest', 'weights', 'play', 'cut', 'clusters', 'pen', 'undo', 'redo', 'tree', 'open', 'save', 'about']"
# the elements that can't be scrolled to where nothing covers them
REACHED = """
const found = [];
for (const id of arguments[0]) {
    const it = document.getElementById(id);
    it.scrollIntoView({ block: 'center' });
    const box = it.getBoundingClientRect(), x = box.left + box.width / 2, y = box.top + box.height / 2, top = document.elementFromPoint(x, y);
    if (!top || !it.contains(top) || box.width < 30 || box.height < 30) found.push([id, top && top.id, Math.round(box.top), Math.round(box.height)]);
}
return found;
"""


@case
def all_is_reached_in_a_low_window(_room):
    """The dendrogram and all controls can be reached at 200 % zoom, and on a phone held either way."""
    for width, height in [(640, 400), (844, 390), (390, 844), (320, 568)]:
        for scheme in ("light", "dark"):
            page = Page.opened(width=width, height=height, scheme=scheme)
            is_so((width, page.browser.run(REACHED, ["play", "cut", "clusters", "pen", "tree", "open", "save", "about"])), (width, []))
            page.click("tree")
            parts = page.browser.run(PARTS)
            is_so((width, page.browser.run(REACHED, parts)), (width, []))
            page.keep(f"low_{width}_{scheme}")
            tall = page.browser.run("return document.getElementById('dendrogram').clientHeight")
            wide = page.browser.run("const it = document.getElementById('side'); return it.scrollWidth <= it.clientWidth")
            is_so((width, tall >= 140, wide), (width, True, True))
            page.click("tree")


DARKNESS = """
const light = it => { const { width, height } = it, d = it.getContext('2d').getImageData(1, 1, 1, 1).data; return d[0] + d[1] + d[2] > 384; };
return ['picture', 'dendrogram', 'bars'].map(it => light(document.getElementById(it)));
"""


@case
def the_scheme_changes_during_the_film(_room):
    """The picture, the dendrogram and the bars turn dark, also if the browser drops the event of the change. Chromium does so
    if a frame of the film has read the scheme before it; the dendrogram and the bars then stayed white."""
    for without_event in ("", "MediaQueryList.prototype.addEventListener = () => {}"):
        page = Page.opened()
        script = page.browser.devtools("Page.addScriptToEvaluateOnNewDocument", source=without_event)
        try:
            page = Page.opened()
        finally:
            page.browser.devtools("Page.removeScriptToEvaluateOnNewDocument", **script)
        page.look(motion="no-preference")
        page.browser.click("play")
        page.browser.wait("document.getElementById('play').textContent === 'Stop'", seconds=5)
        is_so(page.browser.run(DARKNESS), [True, True, True])
        page.look(motion="no-preference", scheme="dark")
        page.browser.run("return new Promise(done => setTimeout(done, 300))")
        is_so((without_event, page.text("play"), page.browser.run(DARKNESS)), (without_event, "Stop", [False, False, False]))
        page.browser.wait("document.getElementById('play').textContent === 'Play'", seconds=30)
        is_so((without_event, page.browser.run(DARKNESS)), (without_event, [False, False, False]))


@case
def no_message_covers_the_points(_room):
    """The picture also begins below the error of a rejected file."""
    tall = "x,y\n" + "".join(f"{i * 37 % 11},{10 * i}\n" for i in range(60))
    script = "return Promise.all([import('./state.js'), import('./view.js')]).then(([{ state: { shown } }, { lens }]) => [document.getElementById('error').getBoundingClientRect().bottom, lens().down(shown.points[119])])"
    for width, height in [(1280, 800), (390, 844)]:
        page = Page.opened(width=width, height=height)
        page.drop(("tall.csv", tall.encode()))
        page.drop(("bad.csv", b"x,y\n1,2\n3,4,5\n"))
        page.frames()
        bottom, highest = page.browser.run(script)
        is_so((width, page.error()[:22], 40 < bottom < highest), (width, "line 3: OtherColumns (", True))


def texts_of(svg):
    return [it.text for it in xml.etree.ElementTree.fromstring(svg).iter("{http://www.w3.org/2000/svg}text")]


def boxes_of(svg):
    """The texts of a picture, with their positions and approximate widths."""
    all_texts = xml.etree.ElementTree.fromstring(svg).iter("{http://www.w3.org/2000/svg}text")
    return [(it.text, float(it.attrib["x"]), float(it.attrib["y"]), 5 * len(it.text)) for it in all_texts]


@case
def names_and_weights_are_drawn(_room):
    """Names are drawn next to points and leaves, and weights on request. No text covers another."""
    page = Page.opened()
    page.drop(("towns.csv", b"town,x,y\nOne,0,0\nTwo & Co,30,0\nThree,30,40\nFour,0.1,0.1\n"))
    picture = page.saved("picture.svg")
    is_so([it for it in texts_of(picture) if not re.match(r"\d", it)], ["One", "Two & Co", "Three", "Four"])
    is_so(sorted(it for it in texts_of(page.saved("dendrogram.svg")) if not re.match(r"\d", it)), ["Four", "One", "Three", "Two & Co"])
    page.click("weights")
    weights = set(texts_of(page.saved("picture.svg"))) - set(texts_of(picture))
    is_so(weights, {"40", "29.9"})
    page.drop(("many.csv", ("name,x,y\n" + "".join(f"place {i},{i % 40},{i // 40 * 7 % 23}\n" for i in range(800))).encode()))
    boxes = [it for it in boxes_of(page.saved("picture.svg")) if it[0].startswith("place")]
    over = [(a[0], b[0]) for i, a in enumerate(boxes) for b in boxes[:i] if abs(a[2] - b[2]) < 9 and a[1] < b[1] + b[3] and b[1] < a[1] + a[3]]
    is_so((20 < len(boxes) < 800, over), (True, []))
    page.keep("many_names")


@case
def other_edges_are_drawn_faintly(_room):
    """The edges of a small graph that aren't in its forest are drawn, unless the user turns them off."""
    page = Page.opened()
    for name, text in [("links.csv", b"source,target,weight\na,b,1\nb,c,2\na,c,3\nc,d,1\na,d,9\nb,a,4\n"), ("graph.gr", b"p sp 4 6\na 1 2 1\na 2 3 2\na 1 3 3\na 3 4 1\na 1 4 9\na 2 2 1\n")]:
        page.drop((name, text))
        strokes, _ = drawn_marks(page.saved("picture.svg"))
        is_so((name, strokes.get("#dcd7cc"), sum(strokes.values())), (name, 2, 2 + 3))
        page.click("others")
        strokes, _ = drawn_marks(page.saved("picture.svg"))
        is_so((name, "#dcd7cc" in strokes), (name, False))
        page.click("others")


@case
def a_scale_bar(_room):
    """Its length agrees with its text: in units in the plane, in kilometres on the globe."""
    page = Page.opened()
    zoom = "return import('./view.js').then(({ lens }) => lens().zoom)"
    for name, text, unit in [("paper.csv", b"x,y\n0,0\n1000,400\n", 1), ("globe.csv", b"lon,lat\n5,50\n15,40\n", 111.1949), ("links.csv", b"source,target\na,b\n", None)]:
        page.drop((name, text))
        svg = page.saved("picture.svg").decode()
        found = re.search(r'<path fill="none" stroke="#67635b" stroke-width="1.5" d="M([\d.]+) ([\d.]+)v5h([\d.]+)v-5"/>\s*<text[^>]*>([\d,]+)( km)?</text>', svg)
        is_so((name, found is None), (name, unit is None))
        if unit:
            pixels, length = float(found[3]), float(found[4].replace(",", ""))
            is_so((name, 50 < pixels < 170, abs(pixels / page.browser.run(zoom) * unit / length - 1) < 0.01, found[5] == " km"), (name, True, True, unit > 1))


@case
def the_film_explains_itself(_room):
    """Step by step, the large counter falls to 1 and the dendrogram grows. The last step has the whole tree in one colour."""
    page = Page.opened()
    rows = [(x, y) for x in range(0, 90, 9) for y in range(0, 90, 10)]
    page.drop(("points.csv", ("x,y\n" + "".join(f"{x + y / 100},{y + x / 50}\n" for x, y in rows)).encode()))
    page.browser.run("document.getElementById('picture').focus()")
    counts, brackets, inks = [], [], []
    while True:
        page.browser.press(".")
        page.frames()
        if page.browser.run("return document.getElementById('counter').hidden"):
            break
        counts.append(int(page.text("pieces")))
        brackets.append(sum(drawn_marks(page.saved("dendrogram.svg"))[0].values()))
        inks.append(len(drawn_marks(page.saved("picture.svg"))[1]))
        page.keep(f"film_{len(counts)}")
        is_so(page.browser.run("return parseFloat(getComputedStyle(document.getElementById('pieces')).fontSize) >= 40"), True)
    is_so((counts[0], counts[-1], len(counts) > 2, all(2 * b <= a for a, b in zip(counts, counts[1:]))), (90, 1, True, True))
    is_so((brackets == sorted(brackets), brackets[0] < brackets[-1], inks[-1], inks[0] > 1), (True, True, 1, True))
    is_so(page.text("say").split(",")[0].split(".")[0][:9], "1 cluster"[:9])
    page.browser.press(",")
    page.frames()
    is_so(page.text("pieces"), "1")
    page.browser.press(",")
    page.frames()
    is_so(page.text("pieces"), str(counts[-2]))


@case
def each_file_is_played(_room):
    page = Page.opened()
    page.look(motion="no-preference")
    for name, text in [("points.csv", b"x,y\n0,0\n1,1\n5,5\n"), ("graph.gr", b"p sp 3 2\na 1 2 1\na 2 3 2\n")]:
        page.browser.run("window.played = false; new MutationObserver(() => { window.played ||= !document.getElementById('counter').hidden; }).observe(document.getElementById('counter'), { attributes: true })")
        page.drop((name, text))
        page.browser.wait("window.played", seconds=5)


@case
def the_example_is_real(_room):
    """It has about sixty towns, with lengths in kilometres, and their coast, which isn't drawn for other points."""
    page = Page.opened()
    is_so((50 <= int(page.text("points")) <= 70, page.text("total").endswith(" km")), (True, True))
    picture = page.saved("picture.svg")
    is_so(({"London", "Dublin", "Inverness", "Cork"} <= set(texts_of(picture)), picture.count(b'fill="#f1eee6"')), (True, 1))
    rows = [it.split(",") for it in page.saved("clusters.csv").decode().splitlines()[1:]]
    sides = {row[0]: row[3] for row in rows}
    is_so(({sides[it] for it in ("London", "Cardiff", "Inverness")}, {sides[it] for it in ("Dublin", "Belfast", "Cork")}), ({"1"}, {"2"}))
    # (published coordinates of four of them)
    places = {row[0]: (float(row[1]), float(row[2])) for row in rows}
    for town, east, north in [("London", -0.13, 51.51), ("Belfast", -5.93, 54.60), ("Aberdeen", -2.09, 57.15), ("Galway", -9.05, 53.27)]:
        is_so((town, abs(places[town][0] - east) < 0.05, abs(places[town][1] - north) < 0.05), (town, True, True))
    page.drop(("towns.csv", b"lon,lat\n0,50\n1,51\n"))
    is_so(page.saved("picture.svg").count(b'fill="#f1eee6"'), 0)


# the number of colours in a part of the picture, and of those with more than 30 pixels
SEEN = """
const canvas = document.getElementById('picture'), { data } = canvas.getContext('2d').getImageData(0, 100, 990, 600), colours = new Map();
for (const word of new Uint32Array(data.buffer)) colours.set(word, (colours.get(word) || 0) + 1);
return [colours.size, [...colours].filter(([, count]) => count > 30).length];
"""


@case
def many_points_are_drawn_smoothly(_room):
    """Lines have soft edges above 4,000 points too, and 300,000 points show their density."""
    page = Page.opened()
    page.drop(("points.csv", drawn_points(21, 5000)[1]))
    page.set("clusters", 1)
    colours, _ = page.browser.run(SEEN)
    is_so(colours > 100, True)
    page.keep("five_thousand")
    page.browser.run("document.getElementById('count').value = 300000; document.getElementById('random').click()")
    page.settle()
    page.set("clusters", 1)
    page.settle()
    colours, shades = page.browser.run(SEEN)
    is_so((colours > 10, shades > 5), (True, True))
    page.keep("three_hundred_thousand")
    return f"{colours} colours"
