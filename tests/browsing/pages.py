"""How the page begins, from a server and from a file, and the data that it and its address contain."""
import base64
import gzip
import hashlib
import json
import os
import re
import subprocess
import sys
import zlib

from browsing.page import Page, forest_by_program, is_so
from cases.running import ROOT, SMALL_FOREST, SMALL_NET, Skipped, case

MOST_BYTES = 200_000
# the system's Python may have numpy
PYTHON = "/usr/bin/python3" if os.path.exists("/usr/bin/python3") else sys.executable
TOWNS = f"{ROOT}/python/examples/towns.csv"


def packed_page(room, name="boruvka.html", data=None):
    """Writes the packed page, optionally with a file's name and bytes inside."""
    path = f"{room}/a folder/{name}"
    subprocess.run([sys.executable, f"{ROOT}/tools/page.py", Page.module, path], check=True)
    if data:
        inside = json.dumps({"name": data[0], "base64": base64.b64encode(data[1]).decode()}).replace("<", "\\u003c")
        with open(path, encoding="utf-8") as it:
            text = it.read()
        empty = '<script type="application/json" id="data">'
        is_so(text.count(empty + "</script>"), 1)
        with open(path, "w", encoding="utf-8") as it:
            it.write(text.replace(empty, empty + inside))
    return path


def address_of(text):
    """The end of an address that contains this table."""
    packer = zlib.compressobj(9, zlib.DEFLATED, -15)
    return "#d=" + base64.urlsafe_b64encode(packer.compress(text) + packer.flush()).decode().rstrip("=")


@case
def the_page_begins_with_an_example(_room):
    for width, height in [(1280, 800), (390, 844)]:
        for scheme in ("light", "dark"):
            page = Page.opened(width=width, height=height, scheme=scheme)
            page.expect(points="67", size="66")
            page.keep(f"begin_{width}_{scheme}")
            is_so(page.browser.run("return [document.documentElement.scrollHeight, document.documentElement.scrollWidth]"), [height, width])
    page = Page.opened()
    is_so(page.saved("forest.gr"), forest_by_program(page.saved("links.gr")))


@case
def a_reload_begins_again(_room):
    page = Page.opened()
    before = page.shown()
    page.set("count", 50)
    page.click("random")
    page.set("cut", 5)
    is_so(page.text("points"), "50")
    page.browser.call("POST", "/refresh")
    page.settle()
    page.expect()
    is_so(page.shown(), before)


FETCHED = """
const urls = ['http://127.0.0.1:1/x', 'https://example.org/x'], tried = urls.map(it => fetch(it).then(() => 'fetched', () => 'refused'));
for (const it of urls) {
    const picture = new Image();
    tried.push(new Promise(done => { picture.onload = () => done('loaded'); picture.onerror = () => done('refused'); picture.src = it; }));
}
const broken = [];
document.addEventListener('securitypolicyviolation', event => broken.push(event.effectiveDirective));
const script = document.createElement('script');
script.textContent = 'window.ran = true';
document.body.append(script);
return Promise.all(tried).then(all => [all, window.ran === true, broken.sort()]);
"""


@case
def nothing_comes_from_elsewhere(room):
    """The page makes no request to other hosts, and its policy blocks them."""
    page = Page.opened()
    page.click("random")
    found = page.browser.run("return performance.getEntriesByType('resource').map(it => it.name)")
    here = page.address.rsplit("/", 1)[0]
    is_so({it for it in found if not it.startswith((f"{here}/", "blob:", "data:"))}, set())
    is_so({f"{here}/page.js", f"{here}/worker.js", f"{here}/boruvka.wasm"} <= set(found), True)
    wanted = ["connect-src", "connect-src", "img-src", "img-src", "script-src-elem"]
    is_so(page.browser.run(FETCHED), [["refused"] * 4, False, wanted])
    page.browser.open(f"file://{packed_page(room)}")
    page.settle()
    is_so(page.browser.run(FETCHED), [["refused"] * 4, False, wanted])
    page.browser.complaints()


@case
def the_packed_page_works_from_a_file(room):
    page = Page.opened()
    before, packed = page.shown(), packed_page(room)
    with open(packed, "rb") as one, open(packed_page(room, "again.html"), "rb") as other:
        content = one.read()
        is_so((content == other.read(), len(content) < MOST_BYTES), (True, True))
    page.browser.open(f"file://{packed}")
    page.settle()
    page.expect()
    is_so(page.shown(), before)
    is_so(page.saved("forest.gr"), forest_by_program(page.saved("links.gr")))
    page.drop(("small.gr", SMALL_NET))
    is_so(page.saved("forest.gr"), SMALL_FOREST)
    page.expect(points="6", total="13")
    return f"{len(content):,} bytes"


@case
def the_card_names_what_runs(room):
    """The card has the checksums of the parts of the packed page. A changed part has another checksum."""
    sum_of, page, path = lambda it: hashlib.sha256(it).hexdigest(), Page.opened(), packed_page(room)
    with open(Page.module, "rb") as it:
        module = sum_of(it.read())
    names = ["sum-module", "sum-scripts", "sum-worker", "sum-style"]
    is_so(page.shown(*names), [module, "", "", ""])
    with open(path, encoding="utf-8") as it:
        text = it.read()
    parts = [r'<script type="module">(.*?)</script>', r'<script type="text/plain" id="packed-worker">(.*?)</script>', r"<style>(.*?)</style>"]
    sums = [module, *(sum_of(re.search(it, text, re.S)[1].encode()) for it in parts)]
    page.browser.open(f"file://{path}")
    page.settle()
    is_so(page.shown(*names), sums)
    page.click("about")
    page.keep("card")
    with open(path, "w", encoding="utf-8") as it:
        it.write(text.replace("<style>", "<style>/* another */", 1))
    page.browser.open(f"file://{path}")
    page.settle()
    is_so([one == other for one, other in zip(page.shown(*names), sums)], [True, True, True, False])
    page.browser.complaints()


@case
def data_inside_of_the_page(room):
    page = Page.opened()
    with open(TOWNS, "rb") as it:
        towns = it.read()
    for name, content in [("towns.csv", towns), ("</script><b>.csv.gz", gzip.compress(towns))]:
        page.browser.open(f"file://{packed_page(room, data=(name, content))}")
        page.settle()
        page.expect(points="22", size="21", total="4,501.454 km")


@case
def points_that_python_shows(room):
    """The Python package writes the page with points and names. On the globe, latitudes come first and lengths are kilometres."""
    page, packed = Page.opened(), packed_page(room)
    for more, total in [({}, "12.81025"), ({"globe": True}, "1,422.158 km")]:
        given = {"points": [[0, 0], [3, 4], [9, 9]], "names": ["</script>", "b", 'c"']}
        script = "import json, sys; sys.path.insert(0, sys.argv[1]); import boruvka; boruvka.show(**json.load(sys.stdin))"
        words = json.dumps({**given, **more, "into": f"{room}/shown.html", "page": packed})
        library = f"{ROOT}/crates/boruvka_c/out/libboruvka.so"
        if not os.path.exists(library):
            raise Skipped("the library isn't built: `make lib` does")
        variables = {**os.environ, "BORUVKA_LIBRARY": library}
        ended = subprocess.run([PYTHON, "-c", script, f"{ROOT}/python"], input=words, capture_output=True, text=True, check=False, env=variables)
        if "No module named 'numpy'" in ended.stderr:
            raise Skipped("there is no numpy")
        is_so((ended.returncode, ended.stderr), (0, ""))
        page.browser.open(f"file://{room}/shown.html")
        page.settle()
        page.expect(points="3", total=total)


@case
def data_in_the_address(_room):
    page = Page.opened(address_of(b"name,x,y\none,0,0\ntwo,3,4\n"))
    page.expect(points="2", total="5")
    page.click("save")
    page.click("copylink")
    page.browser.wait("document.getElementById('copied').value")
    link = page.value("copied")
    is_so(link.startswith(f"{page.address}#d="), True)
    page = Page.opened(link[len(page.address) :])
    page.expect(points="2", total="5")
    is_so(page.saved("clusters.csv"), b"name,x,y,cluster\none,0,0,1\ntwo,3,4,1\n")
    # the double 2^60 is read again exactly
    page.click("save")
    page.click("copylink")
    page.browser.wait("document.getElementById('copied').checkVisibility()")
    page.drop(("large.csv", b"x,y\n1152921504606846976,0\n0,0\n"))
    page.click("save")
    is_so(page.browser.run("return document.getElementById('copied').checkVisibility()"), False)
    page.click("copylink")
    page.browser.wait("document.getElementById('copied').checkVisibility()")
    page = Page.opened(page.value("copied")[len(page.address) :])
    page.expect(points="2", total="1.152922E18")


@case
def the_address_has_what_is_shown(room):
    """When other points are opened, the address loses its points, so that nobody shares or reloads the wrong ones."""
    more = address_of(b"x,y\n0,0\n3,4\n")
    for begin in (None, f"file://{packed_page(room)}"):
        page = Page.opened(more if begin is None else "")
        if begin:
            page.browser.open(begin + more)
            page.settle()
        page.set("clusters", 2)
        page.drop(("bad.csv", b"1\n"))
        is_so((page.text("points"), page.browser.run("return location.hash")), ("2", more))
        page.drop(("other.csv", b"0,0\n6,8\n9,9\n"))
        page.expect(points="3")
        is_so(page.browser.run("return location.hash"), "")
        page.browser.run("location.hash = arguments[0]", more)
        page.browser.wait("document.getElementById('points').textContent === '2'", seconds=5)
        page.settle()
        is_so(page.browser.run("return location.hash"), more)
        page.click("clear")
        is_so((page.text("points"), page.browser.run("return location.hash")), ("0", ""))


@case
def data_too_long_for_the_address(_room):
    """The page copies no address that it would reject, as for 5,000 points with long names."""
    page = Page.opened()
    for name in (lambda v: hashlib.sha512(b"%d" % v).hexdigest(), lambda v: f"{v}" + "ツ" * 190):
        page.drop(("named.csv", "".join(["name,x,y\n", *(f"{name(v)},{v},{v % 7}\n" for v in range(5000))]).encode()))
        page.expect(points="5,000")
        page.click("save")
        page.click("copylink")
        page.browser.wait("document.getElementById('error').textContent")
        is_so((page.error(), page.value("copied")), ("LongAddress", ""))
        # no dialog covers the error
        is_so(page.browser.run("return document.getElementById('saving').open"), False)
        # the next success hides the error
        page.saved("forest.csv")
        is_so(page.text("error"), "")


@case
def bad_addresses(_room):
    for more, error in [
        ("#d=%%%", "BadAddress"),
        ("#d=AAAA", "BadAddress"),
        (address_of(b"1,2\n")[:-3], "BadAddress"),
        (address_of(b"0" * 50_000_000), "LongAddress"),
        ("#d=" + "A" * 500_000, "LongAddress"),
        (address_of(b"<script>alert(1)</script>"), "line 1: OneColumn"),
        (address_of(b"x,y\n"), "NoPoint"),
    ]:
        page = Page.opened(more)
        is_so((page.error()[: len(error)], page.text("points")), (error, "0"))
    page.browser.complaints()
    # while the page is open
    page = Page.opened()
    page.browser.run("location.hash = '#d=AAAA'")
    page.browser.wait("document.getElementById('error').dataset.kind === 'BadAddress'", seconds=5)
    is_so((page.text("points"), page.browser.complaints()), ("67", []))


@case
def an_embedded_page_has_no_controls(_room):
    page = Page.opened("?embed" + address_of(b"x,y\n0,0\n3,4\n6,0\n"))
    shown = "return ['head', 'side', 'bar'].filter(it => document.getElementById(it).checkVisibility())"
    is_so((page.browser.run(shown), page.text("points")), ([], "3"))
    page.keep("embed")
    # but it shows errors
    page = Page.opened("?embed#d=AAAA")
    is_so((page.browser.run(shown), page.error()), (["head"], "BadAddress"))


@case
def a_browser_without_memory64(_room):
    """JavaScript computes the same forests and merges, and the page says that it isn't proved."""
    page = Page.opened()
    is_so((page.text("by"), page.browser.run("return document.getElementById('unproved').hidden")), ("proved code", True))
    wanted = page.shown(), page.saved("forest.gr"), page.saved("linkage.csv")
    script = page.browser.devtools("Page.addScriptToEvaluateOnNewDocument", source="WebAssembly.validate = () => false")
    try:
        page = Page.opened()
        is_so((page.shown(), page.saved("forest.gr"), page.saved("linkage.csv")), wanted)
        is_so((page.text("by"), page.browser.run("return document.getElementById('unproved').checkVisibility()")), ("JavaScript, not proved", True))
        page.keep("without_memory64")
        page.drop(("small.gr", SMALL_NET))
        is_so(page.saved("forest.gr"), SMALL_FOREST)
        page.expect(points="6", total="13")
    finally:
        page.browser.devtools("Page.removeScriptToEvaluateOnNewDocument", **script)


@case
def a_page_without_its_module_says_so(_room):
    page = Page.opened()
    module = f"{page.folder}/web/boruvka.wasm"
    os.rename(module, f"{module}.away")
    try:
        page.browser.open(page.address)
        page.browser.wait("document.body?.ariaBusy === 'false'")
        is_so(page.text("error"), "The file boruvka.wasm is missing. It belongs next to this page.")
    finally:
        os.rename(f"{module}.away", module)
        page.browser.complaints()
