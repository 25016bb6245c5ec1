"""Hostile input: the page shows it in time or rejects it with a reason, and its thread stays responsive."""
import gzip
import os
import time

from browsing.page import Page, is_so, large
from browsing.points import drawn_marks
from cases.running import case

# drops a file that repeats a text, which needn't go through the driver
LARGE = """
const [name, head, text, times] = arguments, each = Math.max(1, Math.floor(2 ** 20 / text.length)), parts = [head];
for (let left = times; left > 0; left -= each) parts.push(text.repeat(Math.min(left, each)));
const data = new DataTransfer();
data.items.add(new File(parts, name));
window.watch?.disconnect();
window.longest = 0;
window.watch = new PerformanceObserver(list => { for (const it of list.getEntries()) window.longest = Math.max(window.longest, it.duration); });
setTimeout(() => window.watch.observe({ type: 'longtask' }));
for (const kind of ['dragover', 'drop']) document.body.dispatchEvent(new DragEvent(kind, { dataTransfer: data, bubbles: true, cancelable: true }));
"""
SECONDS = 240
# the longest task of the page's thread in milliseconds, on a machine with other work
MOST_STILL = 2500


def dropped(page, name, head, text, times):
    """Drops the file, and returns the seconds that it took."""
    begun = time.monotonic()
    page.browser.run(LARGE, name, head, text, times)
    page.settle(SECONDS)
    still = page.browser.run("return window.longest")
    is_so((name, still if still > MOST_STILL else "responsive"), (name, "responsive"))
    return time.monotonic() - begun


@case
def large_files(_room):
    """Long files are rejected in time. They must not be read as empty, take minutes, or crash the tab."""
    large()
    page, spent = Page.opened(), []
    before = page.shown()
    for name, head, text, times, error in [
        ("commas.csv", "", ",", 150_000_000, "line 1: LongRow"),
        ("letters.csv", "", "x", 100_000_000, "line 1: LongRow"),
        ("long.csv", "", "0,0\n", 5_000_000, "line 1000001: TooManyPoints"),
        ("quote.csv", 'x,y\n"', "1,2\n", 1_000_000, "line 2: OpenQuote"),
        ("lines.csv", "", "\n", 100_000_000, "line 20000001: TooManyLines"),
        ("digits.csv", "0,0\n0,", "1", 900_000, "line 2: NoNumber"),
        ("fields.csv", "x", ",y", 400_000, "line 1: TooManyColumns (400001)"),
        ("deep.json", "", "[", 30_000_000, "BadJson"),
    ]:
        spent.append(f"{name} {dropped(page, name, head, text, times):.0f} s")
        is_so((name, page.error()[: len(error)], page.shown()), (name, error, before))
    return ", ".join(spent)


@case
def a_table_longer_than_one_text(room):
    """A text of the browser has at most 536,870,888 letters."""
    large()
    path = f"{room}/long.csv"
    with open(path, "w", encoding="utf-8") as it:
        it.write("x,y,note\n")
        for x in range(200):
            it.writelines(f"{x},{y},{'n' * 2800}\n" for y in range(1000))
    is_so(os.path.getsize(path) > 536_870_888, True)
    page, begun = Page.opened(), time.monotonic()
    page.click("open")
    page.browser.write("files", path)
    page.browser.wait("document.getElementById('points').textContent === '200,000'", seconds=SECONDS)
    page.settle(SECONDS)
    page.expect(points="200,000", size="199,999", total="199,999")
    os.unlink(path)
    return f"{time.monotonic() - begun:.0f} s"


@case
def a_graph_longer_than_one_text(room):
    """The text of its forest is as long, and must not be read as empty."""
    large()
    path, n, step = f"{room}/path.gr", 14_500_000, 500_000
    with open(path, "w", encoding="utf-8") as it:
        it.write(f"p sp {n} {n - 1}\n")
        for first in range(1, n, step):
            it.write("".join(f"a {v} {v + 1} -9223372036854775807\n" for v in range(first, min(n, first + step))))
    is_so(os.path.getsize(path) > 536_870_888, True)
    page = Page.opened()
    page.click("open")
    page.browser.write("files", path)
    page.browser.wait("document.getElementById('points').textContent === '14,500,000'", seconds=SECONDS)
    page.settle(SECONDS)
    page.expect(points="14,500,000", size="14,499,999", total=f"−{9223372036854775807 * (n - 1):,}")
    os.unlink(path)


@case
def a_gzip_that_expands_without_end(_room):
    large()
    page = Page.opened()
    for name, content, error in [("bomb.csv.gz", b"0" * 300_000_000, "LongRow"), ("bomb.csv.gz", b"\n" * 300_000_000, "TooManyLines")]:
        page.drop((name, gzip.compress(content, 1)), seconds=SECONDS)
        is_so(error in page.error(), True)


@case
def large_graphs(_room):
    large()
    page = Page.opened()
    seconds = [dropped(page, "empty.gr", "p sp 67108864 0", "\n", 1)]
    page.expect(points="67,108,864", size="0", total="0", say="This graph is too large to be clustered here. You can save its forest.")
    star = "".join(f"a 1 {it} {it}\n" for it in range(2, 1_000_001))
    seconds.append(dropped(page, "star.gr", "p sp 1000000 999999\n", star, 1))
    page.expect(points="1,000,000", size="999,999", total="500,000,499,999")
    page.keep("star")
    page.browser.run("window.longest = 0")
    for count in (2, 50, 3):
        page.set("clusters", count)
    page.browser.run("document.getElementById('picture').dispatchEvent(new WheelEvent('wheel', { deltaY: -300, clientX: 500, clientY: 300, cancelable: true }))")
    page.settle(SECONDS)
    is_so(page.browser.run("return window.longest") < MOST_STILL, True)
    return ", ".join(f"{it:.0f} s" for it in seconds)


@case
def a_million_points(_room):
    """Points in clouds, in a line, or all equal are shown, with a progress bar and a stop, and no frame takes long."""
    large()
    page, spent = Page.opened(), []
    for name, line, total in [("line.csv", "{0},7\n", "999,999"), ("equal.csv", "3,3\n", "0"), ("hundred.csv", "{1},{2}\n", "99")]:
        text = "".join(line.format(it, it * 7919 % 10, it * 104729 // 10 % 10) for it in range(10**6))
        spent.append(f"{name} {dropped(page, name, '', text, 1):.0f} s")
        page.expect(points="1,000,000", size="999,999", total=total)
    begun = time.monotonic()
    page.browser.run("document.getElementById('count').value = 1000000; document.getElementById('random').click()")
    page.browser.wait("document.getElementById('stop').checkVisibility()")
    page.settle(SECONDS)
    page.expect(points="1,000,000", size="999,999")
    page.keep("million")
    spent.append(f"clouds {time.monotonic() - begun:.0f} s")
    return ", ".join(spent)


MARKUP = [b"<img src=x onerror=alert(1)>", b"<script>alert(1)</script>", b"]]>&amp;'\"", "\u202e\u0007"[:1].encode(), b"javascript:alert(1)"]


@case
def names_with_markup(_room):
    """Names are shown and saved as plain text."""
    page = Page.opened()
    rows = b"".join(b'"%s",%d,%d\n' % (it.replace(b'"', b'""'), i, i * i) for i, it in enumerate(MARKUP))
    page.drop(("</script><b>.csv", b"name,x,y\n" + rows))
    page.expect(points="5")
    drawn_marks(page.saved("picture.svg"))
    drawn_marks(page.saved("dendrogram.svg"))
    saved = page.saved("clusters.csv").decode()
    is_so(all(it.decode().replace('"', '""') in saved for it in MARKUP), True)
    page.drop(("<b>.csv", b"<i>\n"))
    is_so((page.text("error")[:9], page.error()[:17], page.browser.run("return document.querySelectorAll('#error *, #notes *, b, i, img').length")), ("<b>.csv: ", "line 1: OneColumn", 0))
    is_so(page.browser.complaints(), [])


# points and edges with the smallest and the largest doubles, or with extreme whole numbers of 64 bits
EXTREMES = [
    ("small.csv", b"0,0\n5e-324,0\n1e-323,0\n"),
    ("smaller.csv", b"1e-310,1e-310\n2e-310,1e-310\n1e-310,9e-310\n"),
    ("large.csv", b"1e308,0\n0.9e308,0\n0,0\n"),
    ("both.csv", b"0,0\n1e-100,0\n1,1\n"),
    ("far.csv", b"1e15,1e15\n1000000000000001,1e15\n1e15,1000000000000001\n"),
    ("links.csv", b"source,target,weight\na,b,-1.7e308\nb,c,1.7e308\nc,d,5e-324\n"),
    ("less.csv", b"source,target,weight\na,b,-5e-324\nb,c,-1e-300\n"),
    ("graph.gr", b"p sp 3 2\na 1 2 -9223372036854775808\na 2 3 9223372036854775807\n"),
    ("poles.csv", b"lon,lat\n0,90\n180,90\n0,-90\n360,0\n-360,0\n"),
]
LOOKED_AT = """
const frame = () => new Promise(done => requestAnimationFrame(() => requestAnimationFrame(done)));
const at = (name, kind, part, more) => {
    const it = document.getElementById(name), box = it.getBoundingClientRect();
    it.dispatchEvent(new (kind === 'wheel' ? WheelEvent : PointerEvent)(kind, { clientX: box.left + part * box.width, clientY: box.top + box.height / 2, cancelable: true, pointerType: 'mouse', ...more }));
};
return (async () => {
    for (const scale of ['even', 'log', 'root']) {
        document.getElementById('scale').value = scale;
        document.getElementById('scale').dispatchEvent(new Event('change'));
        await frame();
        for (const part of [0, 0.5, 1]) at('dendrogram', 'pointermove', part);
        await frame();
    }
    for (const deltaY of [-90000, 90000, 90000, -90000]) {
        at('picture', 'wheel', 0.4, { deltaY });
        at('picture', 'pointermove', 0.3);
        await frame();
    }
    document.getElementById('picture').dispatchEvent(new MouseEvent('dblclick'));
    await frame();
})();
"""


@case
def extreme_numbers(_room):
    """They are shown without an error, on each scale and from near and far."""
    page = Page.opened()
    for name, text in EXTREMES:
        page.drop((name, text))
        is_so((name, page.text("error")), (name, ""))
        page.browser.run(LOOKED_AT)
        page.settle()
        is_so((name, page.browser.complaints()), (name, []))
        drawn_marks(page.saved("picture.svg"))
        is_so((name, b"NaN" in page.saved("picture.svg"), b"NaN" in page.saved("dendrogram.svg")), (name, False, False))


@case
def bytes_at_random(_room):
    """Random bytes are rejected, and the page works afterwards."""
    page = Page.opened()
    for turn in range(40):
        content = os.urandom(1 + 37 * turn)
        for name in ("random.csv", "random.gr", "random.co", "random.json", "random.csv.gz"):
            page.drop((name, (b"\x1f\x8b" if turn % 2 else b"") + content))
            page.browser.run("for (const it of document.querySelectorAll('dialog')) it.close()")
            page.settle()
            is_so((page.text("error").startswith(f"{name}: "), "Broken" in page.error()), (True, False))
    page.drop(("points.csv", b"0,0\n3,4\n"))
    page.expect(total="5")
