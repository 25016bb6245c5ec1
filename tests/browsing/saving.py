"""Saved files, each read by the kind of program that it is for."""
import csv
import gzip
import io
import json
import math
import os
import subprocess
import sys
import xml.etree.ElementTree

from browsing.page import Page, drawn_points, is_same_partition, is_so
from browsing.points import lengths_in
from cases.running import ROOT, SMALL_NET, Skipped, case

TOWNS = f"{ROOT}/python/examples/towns.csv"


def opened_towns():
    page = Page.opened()
    with open(TOWNS, "rb") as it:
        page.drop(("towns.csv", it.read()))
    return page


@case
def pictures_of_both(_room):
    page = opened_towns()
    for name in ("picture", "dendrogram"):
        is_so(page.saved(f"{name}.png")[:8], b"\x89PNG\r\n\x1a\n")
        root = xml.etree.ElementTree.fromstring(page.saved(f"{name}.svg"))
        is_so((root.tag, len(root) > 3), ("{http://www.w3.org/2000/svg}svg", True))


@case
def a_picture_that_is_being_drawn(_room):
    """The file is saved after the picture is done, so that it has all points and the current colours."""
    page = Page.opened()
    page.drop(("points.csv", drawn_points(6, 60_000)[1]))
    zoom = "document.getElementById('picture').dispatchEvent(new WheelEvent('wheel', { deltaY: -100 }))"
    for more in ("", "const cut = document.getElementById('cut'); cut.value = 40; cut.dispatchEvent(new Event('input'));"):
        page.browser.run(f"{more} {zoom}; document.getElementById('save-picture-png').click()")
        soon = page.browser.downloaded("picture.png")
        page.settle()
        is_so((more, page.saved("picture.png") == soon), (more, True))


@case
def the_forest_as_csv_and_geojson(_room):
    page = opened_towns()
    with open(TOWNS, encoding="utf-8") as it:
        places = {row["town"]: [float(row["longitude"]), float(row["latitude"])] for row in csv.DictReader(it)}
    rows = list(csv.DictReader(io.StringIO(page.saved("forest.csv").decode())))
    lengths = [float(it["length"]) for it in rows]
    is_so((len(rows), lengths, {it for row in rows for it in (row["from"], row["to"])}), (21, lengths_in(page.saved("forest.gr")), set(places)))
    features = json.loads(page.saved("forest.geojson"))["features"]
    for row, it in zip(rows, features, strict=True):
        is_so(it["properties"], {"from": row["from"], "to": row["to"], "kilometres": float(row["length"])})
        is_so(it["geometry"], {"type": "LineString", "coordinates": [places[row["from"]], places[row["to"]]]})
    page.drop(("small.gr", SMALL_NET))
    is_so(page.saved("forest.csv"), b"from,to,weight\n2,5,0\n3,4,0\n3,5,0\n4,6,3\n1,3,10\n")


@case
def a_forest_over_the_edge_of_the_map(_room):
    """An edge over the border of the map is split in two, as RFC 7946, section 3.1.9, requires, for all forms of longitude."""
    page = Page.opened()
    cut = ("MultiLineString", [[[170, 45], [180, 45]], [[-180, 45], [-170, 45]]])
    for rows, wanted in [
        ("170,45\n-170,45\n", cut),
        ("190,45\n170,45\n", cut),
        ("-175,0\n170,45\n", ("MultiLineString", [[[170, 45], [180, 15]], [[-180, 15], [-175, 0]]])),
        ("170,45\n180,45\n", ("MultiLineString", [[[170, 45], [180, 45]]])),
        ("180,45\n-170,45\n", ("LineString", [[-180, 45], [-170, 45]])),
        ("350,45\n10,45\n", ("LineString", [[-10, 45], [10, 45]])),
        ("-180,1\n180,2\n", ("LineString", [[-180, 1], [-180, 2]])),
    ]:
        page.drop(("globe.csv", f"lon,lat\n{rows}".encode()))
        (link,) = json.loads(page.saved("forest.geojson"))["features"]
        geometry = link["geometry"]
        is_so((rows, geometry["type"], geometry["coordinates"]), (rows, *wanted))


@case
def doubles_beyond_whole_numbers(_room):
    """A weight of 2^60 is saved in a form that is read again exactly, and isn't saved as another whole number."""
    page = Page.opened()
    page.drop(("links.csv", b"source,target,weight\na,b,1152921504606846976\nb,c,1\n"))
    forest, merges = page.saved("forest.csv").decode().splitlines(), page.saved("linkage.csv").decode().splitlines()
    for written in (forest[2].split(",")[2], merges[1].split(",")[2]):
        is_so((float(written), written.isdigit() and int(written) != 2**60), (2.0**60, False))
    page.drop(("again.csv", "\n".join(forest).encode()))
    page.expect(points="3", total="1.152922E18")


@case
def points_of_one_feature_have_different_names(_room):
    """The saved forest is read again as the same forest."""
    page = Page.opened()
    named = {"type": "Feature", "properties": {"name": "A"}, "geometry": {"type": "MultiPoint", "coordinates": [[0, 0], [0, 1]]}}
    for given, names in [
        ({"type": "MultiPoint", "coordinates": [[0, 0], [0, 1], [0, 3]]}, {"1.1", "1.2", "1.3"}),
        ([named, {"type": "Point", "coordinates": [0, 3]}], {"A.1", "A.2", "2"}),
    ]:
        page.drop(("points.geojson", json.dumps(given).encode()))
        forest = page.saved("forest.csv")
        is_so({it for row in csv.DictReader(io.StringIO(forest.decode())) for it in (row["from"], row["to"])}, names)
        page.drop(("forest.csv", forest))
        page.expect(points="3", size="2", total=f"{math.radians(3) * 6371:.7g}")


@case
def points_with_equal_names_are_distinguished(_room):
    """The saved forest is read again as the same forest, although one name looks like a number that was added."""
    page = Page.opened()
    page.drop(("towns.csv", b"name,x,y\nA,0,0\nA,3,4\nA.2,9,12\nB,0,1\n"))
    page.expect(points="4", total="15.24264")
    forest = page.saved("forest.csv")
    is_so({it for row in csv.DictReader(io.StringIO(forest.decode())) for it in (row["from"], row["to"])}, {"A.1", "A.2.", "A.2", "B"})
    page.drop(("forest.csv", forest))
    page.expect(points="4", size="3", total="15.24264")
    # names that are equal after they were shortened
    page.drop(("links.csv", b"source,target,weight\n%bx,%by,1\n%by,b,2\n" % ((b"a" * 200,) * 3)))
    page.drop(("forest.csv", page.saved("forest.csv")))
    page.expect(points="3", size="2", total="3")


@case
def names_that_are_formulas(_room):
    """A name that a spreadsheet would run as a formula gets an apostrophe, and a separator gets quotes."""
    page = Page.opened()
    page.drop(("links.csv", b'source,target,weight\n=1+1,"a,b",1\n"a,b",@x,2\n-1,@x,3\n'))
    is_so(page.saved("forest.csv"), b"from,to,length\n\"'=1+1\",\"a,b\",1\n\"'@x\",\"a,b\",2\n-1,\"'@x\",3\n")


@case
def names_that_begin_with_a_minus(_room):
    """An attack by CSV that OWASP describes doesn't become a formula. Numbers, and addresses of the page, keep the name."""
    page, names = Page.opened(), ["-2+3+cmd|' /C calc'!A0", "-1.5e3", "=1", "@x", "  both ends "]
    rows = "".join(f'"{name}",{i},0\n' for i, name in enumerate(names))
    page.drop(("points.csv", f"name,x,y\n{rows}".encode()))
    texts = [row[:2] for row in csv.reader(io.StringIO(page.saved("forest.csv").decode()))][1:]
    is_so({it for row in texts for it in row}, {"'-2+3+cmd|' /C calc'!A0", "-1.5e3", "'=1", "'@x", "  both ends "})
    page.click("save")
    page.click("copylink")
    page.browser.wait("document.getElementById('copied').value")
    page = Page.opened(page.value("copied")[len(page.address) :])
    page.expect(points="5")
    found = page.browser.run("return Promise.all([import('./state.js'), import('./names.js')]).then(([{ state }, { nameAt }]) => [0, 1, 2, 3, 4].map(v => nameAt(state.shown.names, v)))")
    is_so(found, names)


@case
def merges_agree_with_scipy(_room):
    page, (points, text) = Page.opened(), drawn_points(4, 300)
    page.drop(("points.csv", text))
    rows = [[float(it) for it in row.split(",")] for row in page.saved("linkage.csv").decode().splitlines()]
    script = "import json, sys; from scipy.cluster.hierarchy import fcluster, is_valid_linkage, linkage; import numpy as np; p, z = map(np.array, json.load(sys.stdin)); print(json.dumps([bool(is_valid_linkage(z)), linkage(p, 'single')[:, 2].tolist(), fcluster(z, 7, 'maxclust').tolist(), fcluster(linkage(p, 'single'), 7, 'maxclust').tolist()]))"
    python = "/usr/bin/python3" if os.path.exists("/usr/bin/python3") else sys.executable
    ended = subprocess.run([python, "-c", script], input=json.dumps([points, rows]), capture_output=True, text=True, check=False)
    if "No module named" in ended.stderr:
        raise Skipped("there is no scipy")
    is_valid, heights, ours, scipys = json.loads(ended.stdout)
    is_so((is_valid, all(math.isclose(a[2], b, rel_tol=1e-12) for a, b in zip(rows, heights, strict=True))), (True, True))
    is_same_partition(ours, scipys)


@case
def python_that_does_the_same(room):
    """The copied program runs with the package of this repository, and prints the same total."""
    library = f"{ROOT}/crates/boruvka_c/out/libboruvka.so"
    page, made = opened_towns(), []
    for name, content, total in [
        ("towns.csv", open(TOWNS, "rb").read(), 4501.454),
        ("points.csv", b"x;y\n1,5;2,5\n4,5;6,5\n", 5),
        ("links.csv", b"source,target,weight\na,b,1.5\nb,c,2\nc,a,-1\n", 0.5),
        ("packed.csv.gz", gzip.compress(b"x,y\n0,0\n3,4\n"), 5),
        # quotes after a space, and an empty row
        ("spaced.csv", b'source, target, weight\na, "b", 1\n  \nb, c, 2\nc, "b, or d", 4\n"b, or d", a, 8\n', 7),
    ]:
        page.drop((name, content))
        page.click("save")
        page.click("copypython")
        page.browser.wait("document.getElementById('copied').value")
        text = page.value("copied")
        page.browser.run("document.getElementById('saving').close(); document.getElementById('copied').value = ''")
        compile(text, name, "exec")
        with open(f"{room}/{name}", "wb") as it:
            it.write(content)
        made.append((text, total))
    if not os.path.exists(library):
        raise Skipped("the Python package has no library: `make lib` builds it")
    for text, total in made:
        env = {**os.environ, "PYTHONPATH": f"{ROOT}/python", "BORUVKA_LIBRARY": library}
        ended = subprocess.run(["/usr/bin/python3", "-c", text], cwd=room, env=env, capture_output=True, text=True, check=False)
        is_so((ended.returncode, ended.stderr[-300:]), (0, ""))
        is_so(abs(float(ended.stdout.split()[0]) / total - 1) < 1e-6, True)


@case
def python_that_runs_the_program(room):
    """The copied program decompresses the graph for `boruvka`, and fails if `boruvka` fails."""
    page = Page.opened()
    page.drop(("small.gr.gz", gzip.compress(SMALL_NET)))
    page.click("save")
    page.click("copypython")
    page.browser.wait("document.getElementById('copied').value")
    with open(f"{room}/small.gr.gz", "wb") as it:
        it.write(gzip.compress(SMALL_NET))
    for stand_in, is_well, output in [("cat", True, SMALL_NET), ("exit 3", False, b"")]:
        with open(f"{room}/boruvka", "w", encoding="utf-8") as it:
            it.write(f"#!/bin/sh\n{stand_in}\n")
        os.chmod(it.name, 0o755)
        env = {**os.environ, "PATH": f"{room}:{os.environ['PATH']}"}
        ended = subprocess.run([sys.executable, "-c", page.value("copied")], cwd=room, env=env, capture_output=True, check=False)
        is_so((stand_in, ended.returncode == 0, ended.stdout), (stand_in, is_well, output))


@case
def the_picture_of_the_rounds(room):
    """docs/rounds.svg is the output of its script. Each round at least halves the pieces, and the last leaves one."""
    subprocess.run([sys.executable, f"{ROOT}/tools/rounds.py", f"{room}/rounds.svg"], check=True)
    with open(f"{room}/rounds.svg", "rb") as one, open(f"{ROOT}/docs/rounds.svg", "rb") as other:
        text = one.read()
        is_so(text == other.read(), True)
    texts = [it.text for it in xml.etree.ElementTree.fromstring(text).iter("{http://www.w3.org/2000/svg}text")]
    counts = [int(it.split()[-2]) for it in texts]
    is_so((counts[0], counts[-1], all(2 * b <= a for a, b in zip(counts, counts[1:]))), (180, 1, True))
