"""Reading the picture: the rounds, zoom and pan by pointer and keys, and points under the pointer."""
import re
import time

from browsing.page import Page, drawn_points, is_so
from cases.running import case, drawn_graph

# Compares the rounds with Borůvka's rounds from all edges of the graph, for random graphs with equal weights.
ROUNDS = """
return Promise.all([import('./rounds.js'), import('./kruskal.js')]).then(([{ roundsOf }, { forestByKruskal }]) => {
    let word = 777, wrong = 0, ties = 0;
    const next = most => { word ^= word << 13; word ^= word >>> 17; word ^= word << 5; return (word >>> 0) % most; };
    const rounds = (n, links) => { // of links in their order: the round that takes each
        const up = [...Array(n + 1).keys()], root = v => { while (up[v] !== v) v = up[v]; return v; }, found = new Map();
        for (let now = 0; ; now++) {
            const picks = new Set(), first = new Map();
            for (const link of links) {
                const ends = [root(link[0]), root(link[1])];
                if (ends[0] !== ends[1]) for (const it of ends) if (!first.has(it)) { first.set(it, link); picks.add(link); }
            }
            if (!picks.size) return found;
            for (const link of picks) { found.set(link.slice(0, 3).join(), now); up[root(link[0])] = root(link[1]); }
        }
    };
    for (let turn = 0; turn < 500; turn++) {
        const n = 1 + next(30), m = next(90), rows = [];
        for (let i = 0; i < m; i++) { const u = 1 + next(n), v = 1 + next(n); if (u !== v) rows.push([Math.min(u, v), Math.max(u, v), next(6)]); }
        rows.sort((a, b) => a[2] - b[2] || a[0] - b[0] || a[1] - b[1]);
        const words = new Uint32Array(4 * rows.length);
        rows.forEach(([u, v, weight], i) => words.set([weight, 0, u, v], 4 * i));
        const forest = forestByKruskal(n, words), wanted = rounds(n, rows), found = roundsOf(n, forest);
        if (wanted.size !== forest.length / 4) wrong++;
        for (let i = 0; i < forest.length / 4; i++) if (wanted.get([forest[4 * i + 2], forest[4 * i + 3], forest[4 * i]].join()) !== found.round[i]) wrong++;
        found.labels.forEach((labels, now) => { if (new Set(labels).size !== found.counts[now]) wrong++; });
        ties += found.counts.length;
    }
    return [wrong, ties > 1000];
});
"""


@case
def rounds_of_the_forest_are_those_of_the_graph(_room):
    page = Page.opened()
    is_so(page.browser.run(ROUNDS), [0, True])


@case
def the_rounds_are_played_once(_room):
    """They take six seconds. The caption counts the pieces down to one, and then shows the clusters."""
    page, said = Page.opened(), []
    page.look(motion="no-preference")
    page.browser.open("about:blank")
    begun = time.monotonic()
    page.browser.open(page.address)
    while "clusters. Sizes: " not in (text := page.text("say")):
        if " piece" in text and text not in said:
            said.append(text)
            page.keep(f"round_{len(said)}")
        if time.monotonic() > begun + 60:
            raise AssertionError(f"it isn't done: {said}")
    counts = [[int(it.replace(",", "")) for it in re.findall(r"\d[\d,]*\d|\d", text.split(" piece")[0])] for text in said]
    last = counts[-1]
    is_so((last[0], last[-1], all(2 * b <= a for a, b in zip(last, last[1:])), "clusters. Sizes: " in page.text("say")), (67, 1, True, True))
    for shorter in counts:
        is_so(shorter, last[: len(shorter)])
    is_so(time.monotonic() - begun > 5, True)
    # the button plays them again, and stops them
    page.browser.click("play")
    page.browser.wait("document.getElementById('say').textContent.includes('pieces')")
    is_so(page.text("play"), "Stop")
    page.browser.click("play")
    page.frames()
    is_so((page.text("play"), "clusters. Sizes: " in page.text("say")), ("Play", True))
    # a user who prefers less motion sees only the end
    page = Page.opened()
    is_so("clusters. Sizes: " in page.text("say"), True)


@case
def another_picture_fades_in(_room):
    """The old picture fades away if both have few points, unless the user prefers less motion."""
    count = "window.fades = 0; const real = document.startViewTransition.bind(document); document.startViewTransition = call => { window.fades++; return real(call); }"
    many = drawn_points(7, 5000)[1]
    # (the end of the rounds fades too)
    for motion, wanted in [("no-preference", [2, 4, 5]), ("reduce", [0, 0, 0])]:
        page, found = Page.opened(), []
        page.look(motion=motion)
        page.browser.run(count)
        for name, text, points in [("square.csv", SQUARE, "4"), ("line.csv", b"0,0\n1,0\n", "2"), ("many.csv", many, "5,000")]:
            page.drop((name, text))
            page.expect(points=points)
            found.append(page.browser.run("return window.fades"))
        is_so((motion, found), (motion, wanted))


PLACES = "const { lens } = await import('./view.js'), { state } = await import('./state.js'), it = lens(); return [0, 1, 2, 3].map(v => [it.across(state.shown.places[2 * v]), it.down(state.shown.places[2 * v + 1])])"
SQUARE = b"name,x,y\n<b>one</b>,0,0\ntwo,10,0\nthree,10,10\nfour,0,30\n"


def places(page):
    page.frames()
    return page.browser.run(f"return (async () => {{ {PLACES} }})()")


def pointer(page, *actions, kind="mouse"):
    """Moves, presses and releases a pointer. An action is (x, y), `down` or `up`."""
    steps = [{"type": f"pointer{it.capitalize()}", "button": 0} if isinstance(it, str) else {"type": "pointerMove", "x": round(it[0]), "y": round(it[1]), "duration": 20} for it in actions]
    page.browser.call("POST", "/actions", {"actions": [{"type": "pointer", "id": kind, "parameters": {"pointerType": kind}, "actions": steps}]})
    page.frames()


@case
def the_picture_zooms_and_pans(_room):
    page = Page.opened()
    page.drop(("square.csv", SQUARE))
    whole = places(page)
    scroll = [{"type": "scroll", "x": round(whole[1][0]), "y": round(whole[1][1]), "deltaX": 0, "deltaY": -300, "duration": 0}]
    page.browser.call("POST", "/actions", {"actions": [{"type": "wheel", "id": "wheel", "actions": scroll}]})
    zoomed = places(page)
    # the point under the pointer stays there
    is_so((abs(zoomed[1][0] - whole[1][0]) < 1, abs(zoomed[1][1] - whole[1][1]) < 1), (True, True))
    by = (zoomed[1][0] - zoomed[0][0]) / (whole[1][0] - whole[0][0])
    is_so((by > 1.2, abs((zoomed[2][1] - zoomed[1][1]) / (whole[2][1] - whole[1][1]) - by) < 0.01), (True, True))
    pointer(page, (500, 400), "down", (520, 410), (560, 430), "up")
    panned = places(page)
    is_so([[round(b[0] - a[0]), round(b[1] - a[1])] for a, b in zip(zoomed, panned)], [[60, 30]] * 4)
    page.keep("zoomed")
    # a double click shows everything again
    pointer(page, (500, 300), "down", "up", "down", "up")
    is_so(places(page), whole)
    page.browser.run("document.getElementById('picture').focus()")
    page.browser.press("+", "\ue014", "\ue015")
    keyed = places(page)
    is_so((round((keyed[1][0] - keyed[0][0]) / (whole[1][0] - whole[0][0]), 2), keyed[0] != whole[0]), (1.25, True))
    page.browser.press("-", "0")
    is_so(places(page), whole)


@case
def two_fingers_zoom(_room):
    page = Page.opened()
    page.drop(("square.csv", SQUARE))
    whole = places(page)
    finger = lambda name, *xs: {"type": "pointer", "id": name, "parameters": {"pointerType": "touch"}, "actions": [{"type": "pointerMove", "x": xs[0], "y": 400, "duration": 0}, {"type": "pointerDown", "button": 0}, *({"type": "pointerMove", "x": it, "y": 400, "duration": 30} for it in xs[1:]), {"type": "pointerUp", "button": 0}]}  # noqa: E731
    page.browser.call("POST", "/actions", {"actions": [finger("one", 450, 430, 400), finger("two", 550, 570, 600)]})
    zoomed = places(page)
    is_so(1.9 < (zoomed[1][0] - zoomed[0][0]) / (whole[1][0] - whole[0][0]) < 2.1, True)


@case
def a_point_has_a_tooltip(_room):
    """Name, cluster and longest link; a name with markup is text."""
    page = Page.opened()
    page.drop(("square.csv", SQUARE))
    page.set("clusters", 2)
    at = places(page)
    pointer(page, at[0])
    is_so(page.text("tip"), "<b>one</b>, cluster 1, longest edge 10")
    page.keep("tip")
    pointer(page, at[3])
    is_so(page.text("tip"), "four, cluster 2, longest edge 22.36068")
    pointer(page, (at[0][0] + 90, at[0][1] - 60))
    is_so(page.browser.run("return document.getElementById('tip').hidden"), True)
    is_so(page.browser.run("return document.querySelectorAll('#tip *').length"), 0)
    # with a finger
    pointer(page, at[1], "down", "up", kind="touch")
    is_so(page.text("tip"), "two, cluster 1, longest edge 10")


@case
def the_dendrogram_cuts_and_points(_room):
    page, (_, text) = Page.opened(), drawn_points(5, 200)
    page.drop(("points.csv", text))
    left, top, wide, tall = page.browser.run("const it = document.getElementById('dendrogram').getBoundingClientRect(); return [it.left, it.top, it.width, it.height]")
    counts = []
    pointer(page, (left + 16, top + 100), "down")
    for x in (16, 60, 120, 180):
        pointer(page, (left + x, top + 100))
        counts.append(int(page.value("clusters")))
    pointer(page, "up")
    is_so((counts[0], counts == sorted(set(counts)), counts[-1] > 20), (2, True, True))
    pointer(page, (left + wide - 40, top + tall / 2))
    branch = page.browser.run("return import('./state.js').then(({ state }) => state.branch)")
    is_so(0 <= branch["begin"] < branch["end"] <= 200, True)
    page.keep("branch")
    pointer(page, (500, 300))
    is_so(page.browser.run("return import('./state.js').then(({ state }) => state.branch)"), None)


@case
def a_graph_is_pointed_at_too(_room):
    page = Page.opened()
    page.drop(("drawn.gr", drawn_graph(9, 40, 90)[0]))
    x, y = page.browser.run("return (async () => { const { lens } = await import('./view.js'), { state } = await import('./state.js'), it = lens(); return [it.across(state.shown.places[12]), it.down(state.shown.places[13])] })()")
    pointer(page, (x, y))
    is_so(page.text("tip").startswith("7, cluster "), True)
