"""Sharing: addresses and pages with points, films and prints; undo, and work by keys."""
import base64
import os
import random
import struct
import subprocess

from browsing.page import Page, drawn_points, is_so
from browsing.pages import TOWNS, address_of, packed_page
from browsing.reading import pointer
from cases.running import ROOT, case, drawn_graph

CONTROL, SHIFT = "\ue009", "\ue008"
LEFT_AS = """
return Promise.all([import('./state.js'), import('./view.js')]).then(([{ state }, { viewNow, wholeView }]) => {
    const { x, y, zoom } = viewNow(), round = value => Number(value.toPrecision(6));
    return [state.clusters.count, state.smallest, state.scale, round(x), round(y), round(zoom / wholeView().zoom)];
});
"""


def copied_link(page):
    page.click("save")
    page.click("copylink")
    page.browser.wait("document.getElementById('copied').value")
    return page.value("copied")


@case
def a_link_keeps_how_it_was_left(_room):
    """An address keeps the number of clusters, the smallest size, the view and the scale."""
    page = Page.opened()
    page.drop(("points.csv", drawn_points(11, 300)[1]))
    for name, value in [("clusters", 7), ("smallest", 12), ("scale", "log")]:
        page.set(name, value)
    page.browser.run("document.getElementById('picture').focus()")
    page.browser.press("+", "+", "\ue014", "\ue015")
    page.frames()
    left = page.browser.run(LEFT_AS)
    is_so(left[:3], [7, 12, "log"])
    link = copied_link(page)
    for width, height in [(1280, 800), (390, 844)]:
        page = Page.opened(link[len(page.address) :], width=width, height=height)
        page.expect(points="300")
        # (the view is restored after the first frames)
        for _ in range(100):
            if page.browser.run(LEFT_AS) == left:
                break
            page.frames()
        is_so((width, page.browser.run(LEFT_AS)), (width, left))
        is_so((page.value("clusters"), page.value("smallest"), page.value("scale")), ("7", "12", "log"))
    # parameters that aren't valid are ignored
    page = Page.opened(address_of(b"x,y\n0,0\n1,0\n9,9\n9,8\n") + "&k=x&s=-2&v=1,2&h=up")
    page.expect(points="4", total="13.31371")
    is_so((page.value("clusters"), page.value("smallest"), page.value("scale")), ("2", "2", "root"))


@case
def a_page_is_sent_with_its_points(room):
    """A saved page opens as it was left: a table with chosen columns, a graph with coordinates, and points of the pen."""
    page, draw = Page.opened(), random.Random(105)
    is_so(page.browser.run("return [document.getElementById('pageline').hidden, document.getElementById('linkline').hidden]"), [True, False])
    page.browser.open(f"file://{packed_page(room)}")
    page.settle()
    is_so(page.browser.run("return [document.getElementById('pageline').hidden, document.getElementById('linkline').hidden]"), [False, True])
    rows = "".join(f"s{i},{draw.random()},{draw.random()}\n" for i in range(50))
    page.ask(("stations.csv", f"what,alpha,beta\n{rows}".encode()))
    page.set("role-across", 2)
    page.set("role-up", 1)
    page.answer("columns")
    for name, value in [("clusters", 5), ("smallest", 3), ("scale", "even")]:
        page.set(name, value)
    wanted, saved = page.shown(), page.saved("clusters.csv")

    def sent(name):
        with open(f"{room}/{name}.html", "wb") as it:
            it.write(page.saved("boruvka.html"))
        page.browser.open("about:blank")
        page.browser.open(f"file://{it.name}")
        page.settle()
        page.expect()

    for turn in ("first", "again"):
        sent(turn)
        is_so((page.shown(), page.saved("clusters.csv")), (wanted, saved))
        is_so([page.value(it) for it in ("clusters", "smallest", "scale")], ["5", "3", "even"])
        is_so(page.text("by"), "proved code")
    source, forest = drawn_graph(12, 30, 70)
    places = b"p aux sp co 30\n" + b"".join(b"v %d %d %d\n" % (v, draw.randint(0, 99), draw.randint(0, 99)) for v in range(1, 31))
    page.drop(("drawn.gr", source), ("drawn.co", places))
    picture = page.saved("picture.svg")
    sent("graph")
    is_so((page.saved("forest.gr"), page.saved("picture.svg") == picture), (forest, True))
    page.click("clear")
    page.click("pen")
    for x, y in [(300, 300), (400, 300), (400, 420)]:
        page.browser.click_at("picture", x, y)
        page.settle()
    total = page.text("total")
    sent("pen")
    page.expect(points="3", total=total)


def elements(data, begin=0, end=None):
    """The elements of a Matroska file, as (identity, content)."""
    end = len(data) if end is None else end
    while begin < end:
        size = 9 - data[begin].bit_length()
        identity = int.from_bytes(data[begin : begin + size], "big")
        begin += size
        size = 9 - data[begin].bit_length()
        length = int.from_bytes(data[begin : begin + size], "big") & ((1 << 7 * size) - 1)
        begin += size
        stop = end if length == (1 << 7 * size) - 1 else begin + length
        yield identity, data[begin:stop]
        begin = stop


def times_of(film):
    """The declared length of a film and the times of its frames, in milliseconds."""
    (segment,) = [it for key, it in elements(film) if key == 0x18538067]
    parts, times = list(elements(segment)), []
    for key, cluster in parts:
        if key == 0x1F43B675:
            inside = list(elements(cluster))
            begun = int.from_bytes(dict(inside)[0xE7], "big")
            times += [begun + int.from_bytes(it[1:3], "big", signed=True) for key, it in inside if key == 0xA3]
    info = dict(elements(dict(parts)[0x1549A966]))
    return struct.unpack(">d", info[0x4489])[0], times


LAST_FRAME = """
const film = document.createElement('video'), bytes = Uint8Array.from(atob(arguments[0]), it => it.charCodeAt(0));
film.muted = true;
film.src = URL.createObjectURL(new Blob([bytes], { type: 'video/webm' }));
return new Promise((done, failed) => {
    film.onerror = () => failed(new Error(film.error.message));
    film.onloadedmetadata = () => { film.currentTime = arguments[1]; };
    film.onseeked = async () => {
        await new Promise(soon => setTimeout(soon, 700));
        const canvas = Object.assign(document.createElement('canvas'), { width: film.videoWidth, height: film.videoHeight }), pen = canvas.getContext('2d');
        pen.drawImage(film, 0, 0);
        const { data } = pen.getImageData(0, 110, canvas.width, canvas.height - 130), hues = new Map();
        for (let i = 0; i < data.length; i += 4) {
            const [r, g, b] = data.slice(i, i + 3), most = Math.max(r, g, b), by = most - Math.min(r, g, b);
            if (by < 70) continue;
            const hue = Math.round((most === r ? (g - b) / by : most === g ? 2 + (b - r) / by : 4 + (r - g) / by) * 60 + 360) % 360;
            hues.set(Math.round(hue / 20) % 18, (hues.get(Math.round(hue / 20) % 18) || 0) + 1);
        }
        const found = [...hues].filter(([, count]) => count > 60).map(([hue]) => hue);
        // (two steps beside each other may be one colour)
        done([film.duration, found.length === 2 ? found.filter(hue => !found.includes((hue + 1) % 18)) : found]);
    };
});
"""


@case
def a_film_to_its_end(_room):
    """It has its declared length, frames to its end, and the whole tree in one colour in the last frame."""
    page = Page.opened()
    for name, text in [("towns.csv", open(TOWNS, "rb").read()), ("points.csv", drawn_points(8, 5000)[1])]:
        page.drop((name, text))
        page.click("save")
        page.browser.click("save-rounds-webm")
        page.settle(300)
        film = page.browser.downloaded("rounds.webm")
        is_so((film[:4], b"webm" in film[:100], len(film) > 10_000), (b"\x1a\x45\xdf\xa3", True, True))
        length, times = times_of(film)
        is_so((length, times[0], times == sorted(times), length - times[-1] < 50, len(times) > 100), (7500.0, 0, True, True, True))
        content = base64.b64encode(film).decode()
        duration, hues = page.browser.run(LAST_FRAME, content, 7.45)
        _, before = page.browser.run(LAST_FRAME, content, 1)
        is_so((name, abs(duration - 7.5) < 0.1, len(hues), len(before) > 1), (name, True, 1, True))
    return f"{len(film):,} bytes"


@case
def a_browser_that_makes_no_film_says_so(_room):
    page = Page.opened()
    script = page.browser.devtools("Page.addScriptToEvaluateOnNewDocument", source="delete window.VideoEncoder")
    try:
        page = Page.opened()
        page.click("save")
        state = page.browser.run("const it = document.getElementById('nofilm'); return [it.textContent, it.checkVisibility(), document.getElementById('save-rounds-webm').disabled]")
        is_so(state, ["This browser can’t make a film.", True, True])
    finally:
        page.browser.devtools("Page.removeScriptToEvaluateOnNewDocument", **script)


PRINTED = """
const picture = document.getElementById('picture'), style = getComputedStyle(picture), hex = it => it.match(/\\d+/g).slice(0, 3).join();
const corner = [...picture.getContext('2d').getImageData(2, picture.height - 3, 1, 1).data].slice(0, 3).join();
const seen = ['bar', 'tip', 'counter', 'smallest', 'head', 'points'].filter(it => document.getElementById(it).checkVisibility());
return [corner, hex(getComputedStyle(document.body).backgroundColor), style.objectFit, style.position, seen];
"""


PRINTED_THEN = """
const light = (x, y) => { const [r, g, b] = document.getElementById('picture').getContext('2d').getImageData(x, y, 1, 1).data; return r + g + b > 600; };
addEventListener('beforeprint', () => { window.printed = [light(2, 2), light(3, document.getElementById('picture').height - 3)]; });
"""


@case
def a_printed_page(_room):
    """It is light, has no controls, and keeps the shape of the picture. Afterwards the page is as before."""
    for scheme in ("light", "dark"):
        page = Page.opened(scheme=scheme)
        before = page.saved("picture.png")
        page.browser.devtools("Emulation.setEmulatedMedia", media="print", features=[{"name": "prefers-color-scheme", "value": scheme}])
        page.frames()
        is_so((scheme, page.browser.run(PRINTED)), (scheme, ["251,250,247", "251,250,247", "contain", "static", ["head", "points"]]))
        page.keep(f"print_{scheme}")
        page.browser.devtools("Emulation.setEmulatedMedia", media="", features=[{"name": "prefers-color-scheme", "value": scheme}, {"name": "prefers-reduced-motion", "value": "reduce"}])
        page.frames()
        is_so((scheme, page.saved("picture.png") == before), (scheme, True))
    # the picture is drawn in light colours before the print, also for many points on a dark page
    for text in (b"x,y\n0,0\n3,4\n", drawn_points(31, 30_000)[1]):
        page.drop(("points.csv", text))
        page.browser.run(PRINTED_THEN)
        is_so(len(base64.b64decode(page.browser.devtools("Page.printToPDF", printBackground=True)["data"])) > 10_000, True)
        is_so(page.browser.run("return window.printed"), [True, True])


@case
def undo_and_redo(_room):
    """Buttons and keys undo and redo what cleared, opened or added points."""
    page, shown = Page.opened(), []
    page.drop(("square.csv", b"name,x,y\na,0,0\nb,3,4\nc,9,9\n"))
    page.set("clusters", 2)
    shown.append(page.shown())
    page.set("count", 40)
    page.click("random")
    shown.append(page.shown())
    page.click("clear")
    shown.append(page.shown())
    page.click("pen")
    page.browser.click_at("picture", 300, 300)
    page.settle()
    shown.append(page.shown())
    is_so([it[0] for it in shown], ["3", "40", "0", "1"])
    for wanted in reversed(shown[:-1]):
        page.click("undo")
        page.settle()
        is_so(page.shown(), wanted)
    page.browser.run("document.getElementById('picture').focus()")
    for wanted, keys in zip(shown[1:], [(CONTROL, SHIFT, "z"), (CONTROL, "y"), (CONTROL, SHIFT, "z")]):
        page.browser.press(keys)
        page.frames()
        is_so(page.shown(), wanted)
    is_so(page.browser.run("return [document.getElementById('undo').disabled, document.getElementById('redo').disabled]"), [False, True])
    page.browser.press((CONTROL, "z"))
    page.frames()
    is_so(page.shown(), shown[2])
    # a new action leaves nothing to redo, and undo leads back to the example
    page.drop(("two.csv", b"x,y\n0,0\n1,1\n"))
    is_so(page.browser.run("return document.getElementById('redo').disabled"), True)
    for _ in range(5):
        page.click("undo")
    is_so((page.text("points"), page.browser.run("return document.getElementById('undo').disabled")), ("67", True))


@case
def python_that_contains_its_table(room):
    """The copied program contains a table that was pasted or that came with the address."""
    library = f"{ROOT}/crates/boruvka_c/out/libboruvka.so"
    page = Page.opened(address_of('name;x;y\nÄ "b"\\n;1,5;2,5\nb;4,5;6,5\n'.encode()))
    texts = []
    for paste in (None, "name\tx\ty\n# left\nc\t0\t0\nd\t\t1\ne\t3\t4\n"):
        if paste:
            page.browser.run("document.getElementById('pasted').value = arguments[0]; document.getElementById('take').click()", paste)
            page.browser.wait("document.querySelector('dialog[open]')", seconds=10)
            page.answer("missing")
        page.expect(points="2", total="5")
        page.click("save")
        page.browser.run("document.getElementById('copied').value = ''")
        page.click("copypython")
        page.browser.wait("document.getElementById('copied').value")
        texts.append(page.value("copied"))
        page.browser.run("document.getElementById('saving').close()")
    for text in texts:
        compile(text, "copied", "exec")
        is_so((".csv" in text, "io.StringIO(" in text), (False, True))
        if os.path.exists(library):
            env = {**os.environ, "PYTHONPATH": f"{ROOT}/python", "BORUVKA_LIBRARY": library}
            ended = subprocess.run(["/usr/bin/python3", "-c", text], cwd=room, env=env, capture_output=True, text=True, check=False)
            if "No module named 'numpy'" not in ended.stderr:
                is_so((ended.returncode, ended.stderr[-300:], float(ended.stdout.split()[0])), (0, "", 5.0))


POINTED = "return [document.getElementById('tip').hidden, document.getElementById('tip').textContent.split(',')[0]]"


@case
def each_point_is_read_by_keys(_room):
    """N and P go from point to point, also to points that aren't visible. Escape hides the tooltip."""
    page = Page.opened()
    names = [f"p{i}" for i in range(9)]
    page.drop(("named.csv", ("name,x,y\n" + "".join(f"{it},{i * i},{i % 3}\n" for i, it in enumerate(names))).encode()))
    page.browser.run("document.getElementById('picture').focus()")
    page.browser.press("+", "+", "+", "+", "+", "+")
    read = []
    for _ in names:
        page.browser.press("n")
        page.frames()
        is_hidden, name = page.browser.run(POINTED)
        read.append(name)
        is_so(is_hidden, False)
        x, y = page.browser.run("return Promise.all([import('./state.js'), import('./view.js')]).then(([{ state: { shown, picked } }, { lens }]) => [lens().across(shown.places[2 * picked]), lens().down(shown.places[2 * picked + 1])])")
        is_so((name, 0 < x < 1000, 0 < y < 800), (name, True, True))
    is_so(sorted(read), names)
    page.browser.press("p")
    page.frames()
    is_so(page.browser.run(POINTED)[1], read[-2])
    is_so(page.browser.run("return document.getElementById('tip').getAttribute('role')"), "status")
    page.browser.press("\ue00c")
    page.frames()
    is_so(page.browser.run(POINTED)[0], True)


@case
def an_embedded_view(_room):
    """It has a tooltip and a replay button, and the wheel scrolls the page around it."""
    page = Page.opened("?embed" + address_of(b"name,x,y\na,0,0\nb,3,4\nc,60,0\n"))
    at = page.browser.run("return Promise.all([import('./state.js'), import('./view.js')]).then(([{ state: { shown } }, { lens }]) => [lens().across(shown.places[0]), lens().down(shown.places[1])])")
    pointer(page, at)
    is_so(page.browser.run("const it = document.getElementById('tip'); return [it.checkVisibility(), it.textContent.split(',')[0]]"), [True, "a"])
    wheel = "const event = new WheelEvent('wheel', { deltaY: 100, cancelable: true, bubbles: true, ctrlKey: arguments[0] }); document.getElementById('picture').dispatchEvent(event); return event.defaultPrevented"
    is_so([page.browser.run(wheel, False), page.browser.run(wheel, True)], [False, True])
    page.browser.click("replay")
    page.browser.wait("document.getElementById('counter').checkVisibility()", seconds=5)
    page.browser.wait("!document.getElementById('counter').checkVisibility()", seconds=20)
    is_so(Page.opened().browser.run(wheel, False), True)
