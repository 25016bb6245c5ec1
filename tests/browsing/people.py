"""Real data: points with noise, headers of all kinds, and files of other programs. The order of rows doesn't matter."""
import collections
import csv
import io
import json
import math
import random
import shutil
import subprocess

from browsing.exact import modules
from browsing.page import Page, clusters_of, is_same_partition, is_so
from cases.running import Components, Skipped, case

CHECKED = "return document.getElementById('header').checked"


def table_of(points):
    return ("x,y\n" + "".join(f"{x!r},{y!r}\n" for x, y in points)).encode()


def blob(draw, x, y, size, n):
    return [(draw.gauss(x, size), draw.gauss(y, size)) for _ in range(n)]


def anywhere(draw, n, most):
    return [(draw.uniform(0, most), draw.uniform(0, most)) for _ in range(n)]


def on_a_ring(draw, radius, n):
    turns = [2 * math.pi * (i + draw.random() / 2) / n for i in range(n)]
    return [(radius * math.cos(it) + draw.gauss(0, 0.1), radius * math.sin(it) + draw.gauss(0, 0.1)) for it in turns]


def on_a_moon(draw, x, y, begin, n):
    turns = [begin + math.pi * draw.random() for _ in range(n)]
    return [(x + 10 * math.cos(it) + draw.gauss(0, 0.3), y + 10 * math.sin(it) + draw.gauss(0, 0.3)) for it in turns]


def sets(draw):
    """Eight sets of points, each with the number of clusters that a person sees."""
    three = [it for x, y in [(0, 0), (40, 5), (20, 40)] for it in blob(draw, x, y, 2, 300)]
    four = [it for x, y in [(0, 0), (100, 0), (0, 100), (110, 120)] for it in blob(draw, x, y, 6, 5000)]
    nine = [it for x in (0, 60, 120) for y in (0, 60, 120) for it in blob(draw, x, y, 3, 150)]
    moons = on_a_moon(draw, 0, 0, 0, 600) + on_a_moon(draw, 10, 4, math.pi, 600)
    return [
        ("three blobs", three, 3),
        ("three blobs and one point far off", [*three, (900, 700)], 3),
        ("four clouds and three points far off", [*four, (400, 50), (50, -300), (-250, 60)], 4),
        ("nine clouds and points between them", nine + [(30, 30), (90, 30), (30, 90), (95, 92), (200, 30), (-60, 60)], 9),
        ("two moons with noise", moons + [(-25, 12), (30, -14), (28, 14), (-18, -16), (5, 22)], 2),
        ("two rings", on_a_ring(draw, 10, 400) + on_a_ring(draw, 30, 900), 2),
        ("points anywhere", anywhere(draw, 1000, 100), 1),
        ("two lines", [(x / 10, y) for x in range(500) for y in (0, 6)], 2),
    ]


@case
def clusters_that_a_person_sees(_room):
    """At first, the page shows the clusters that a person sees. Single points far away, or scattered points, aren't clusters."""
    page, found = Page.opened(), []
    for name, points, _ in sets(random.Random(102)):
        page.drop(("points.csv", table_of(points)))
        page.expect(points=f"{len(points):,}")
        numbers = [row.rsplit(",", 1)[1] for row in page.saved("clusters.csv").decode().splitlines()[1:]]
        sizes = collections.Counter(numbers).values()
        found.append((name, sum(it >= len(points) / 100 for it in sizes)))
    is_so(found, [(name, wanted) for name, _, wanted in sets(random.Random(102))])


# a table with an unknown header; the choice that the dialog presets; and the number of points and the total for it
ASKED = [
    (b"lat_deg,lon_deg\n0,179.5\n0,-179.5\n", "globe", {"across": 1, "up": 0}, "2", "111.1949 km"),
    ("Breite;Länge\n0;179,5\n0;-179,5\n".encode(), "globe", {"across": 1, "up": 0}, "2", "111.1949 km"),
    (b"Latitude (deg),Longitude (deg)\n0,179.5\n0,-179.5\n", "globe", {"across": 1, "up": 0}, "2", "111.1949 km"),
    (b"src,dst\n1,2\n2,3\n", "links", {"from": 0, "to": 1, "weight": -1}, "3", "2"),
    (b"node1,node2\n1,2\n2,3\n", "links", {"from": 0, "to": 1}, "3", "2"),
    (b"# Directed graph\n# Nodes: 3 Edges: 2\n# FromNodeId\tToNodeId\n0\t1\n1\t2\n", "links", {"from": 0, "to": 1}, "3", "2"),
    (b"source,target,value\na,b,5\nb,c,7\na,c,9\n", "links", {"from": 0, "to": 1, "weight": 2}, "3", "12"),
    (b"source,target,km\na,b,5\nb,c,7\na,c,9\n", "links", {"from": 0, "to": 1, "weight": 2}, "3", "12"),
    ("−5,−3\n0,0\n3,4\n".encode(), "plane", {"across": 0, "up": 1}, "2", "5"),
    (b"foo,bar\n0,0\n3,4\n", "plane", {"across": 0, "up": 1}, "2", "5"),
]


@case
def headers_that_are_asked_about(_room):
    """The dialog asks about columns with unknown names, and shows nothing until somebody answers."""
    page = Page.opened()
    for text, kind, roles, points, total in ASKED:
        page.drop(("square.csv", b"0,0\n1,0\n"))
        page.ask(("table.csv", text))
        is_so((text, page.value("kind"), page.browser.run(CHECKED)), (text, kind, True))
        is_so((text, {it: int(page.value(f"role-{it}")) for it in roles}), (text, roles))
        is_so(page.text("points"), "2")
        page.answer("columns")
        is_so((text, page.text("error")), (text, ""))
        page.expect(points=points, total=total)


NAMED = [
    ("nom,x,y\nLyon,0,0\nParis,3,4\n", ["Lyon", "Paris"]),
    ("Ort,x,y\nUlm,0,0\nBonn,3,4\n", ["Ulm", "Bonn"]),
    ("x,y,store\n0,0,one\n3,4,two\n", ["one", "two"]),
    ("שם,lon,lat\nאילת,34.95,29.56\nחיפה,34.99,32.79\n", ["אילת", "חיפה"]),
    ("id,station_name,x,y\n1,Bern,0,0\n2,Rom,3,4\n", ["Bern", "Rom"]),
    ("country,city,x,y\nCH,Bern,0,0\nIT,Rom,3,4\n", ["Bern", "Rom"]),
    ("id,x,y\n7,0,0\n9,3,4\n", ["7", "9"]),
]
NAMES = "return Promise.all([import('./state.js'), import('./names.js')]).then(([{ state: { shown } }, { nameAt }]) => Array.from({ length: shown.n }, (_, v) => nameAt(shown.names, v)))"


@case
def names_below_any_header(_room):
    page = Page.opened()
    for text, names in NAMED:
        page.drop(("named.csv", text.encode()))
        is_so((text, page.text("error"), page.browser.run(NAMES)), (text, "", names))


@case
def rows_without_a_value(_room):
    """The dialog offers to leave them out. The saved table has all rows and columns."""
    page, text = Page.opened(), b"name,x,y\nA,0,0\nB,,\nC,3,4\nD,NA,7\n"
    page.ask(("towns.csv", text))
    is_so(page.text("missingtext"), "2 of 4 rows have no value. The first is in line 3, which has nothing there.")
    page.keep("missing")
    page.answer("missing", "")
    is_so((page.text("error"), page.text("points")), ("towns.csv: No rows were left out.", "67"))
    page.ask(("towns.csv", text))
    page.answer("missing")
    page.expect(points="2", total="5", notes="2 of 4 rows are left out: they have no value. The first is in line 3.")
    is_so(page.saved("clusters.csv"), b"name,x,y,cluster\nA,0,0,1\nB,,,\nC,3,4,1\nD,NA,7,\n")
    page.ask(("links.csv", b"source,target,weight\na,b,1\nb,c,\nc,d,2\n"))
    is_so(page.text("missingtext"), "1 of 3 rows has no value. It is in line 3, which has nothing there.")
    page.answer("missing")
    page.expect(points="4", size="2", total="3")
    # NA is a name, but an empty field isn't
    page.drop(("links.csv", b"source,target,weight\nNA,b,1\nb,-,3\n"))
    page.expect(points="3", total="4")


GPX = b"""<?xml version="1.0" encoding="UTF-8"?>
<gpx version="1.1" creator="x"><!-- <wpt lat="0" lon="0"/> --><metadata><name>trip</name></metadata>
<wpt lat="0" lon="179.5"><ele>3</ele><name>A &amp; &#66;</name></wpt>
<wpt lon='-179.5' lat='0'/><trk><trkseg><trkpt lat="1" lon="1"/></trkseg></trk></gpx>"""
KML = b"""<kml xmlns="http://www.opengis.net/kml/2.2"><Document><name>all</name>
<Placemark><name><![CDATA[<b>one</b>]]></name><Point><coordinates> 179.5,0,12 </coordinates></Point></Placemark>
<Placemark><name>two</name><Point><coordinates>-179.5,0</coordinates></Point></Placemark></Document></kml>"""
# a file of another program; the number of points, the total, the note and the first name that the page shows
OTHERS = [
    ("excel.csv", b"sep=;\nname;x;y\na;0;0\nb;3;4\n", "2", "5", "", "a"),
    ("comments.csv", b"# made today\n# by hand\nname,x,y\na,0,0\nb,3,4\n", "2", "5", "", "a"),
    ("comments.csv", b"name,x,y\na,0,0\n# half\nb,3,4\n", "2", "5", "Comments (#) between the rows are left out: 1.", "a"),
    ("marked.csv", b"name,x,y\n#a,0,0\n#b,3,4\n", "2", "5", "Rows that begin with # are read like the others: 2.", "#a"),
    ("bars.csv", b"name|x|y\na|0|0\nb|3|4\n", "2", "5", "", "a"),
    ("windows.csv", "name,x,y\nZürich,0,0\nŒuvre €,3,4\n".encode("cp1252"), "2", "5", "The file is read as Windows-1252: ‘Zürich’.", "Zürich"),
    ("trip.gpx", GPX, "2", "111.1949 km", "Left out: 1 of the points of tracks.", "A & B"),
    ("places.kml", KML, "2", "111.1949 km", "", "<b>one</b>"),
]


@case
def files_of_other_programs(_room):
    page = Page.opened()
    for name, text, points, total, note, first in OTHERS:
        page.drop((name, text))
        is_so((name, page.text("error"), page.text("points"), page.text("total"), page.text("notes")), (name, "", points, total, note))
        is_so((name, page.browser.run(NAMES)[0]), (name, first))
    page.drop(("windows.csv", "name,x,y\nZürich,0,0\nB,3,4\n".encode("cp1252")))
    is_so(page.saved("clusters.csv").decode(), "name,x,y,cluster\nZürich,0,0,1\nB,3,4,1\n")
    for name, text, note in [
        ("bad.kml", b"<kml><Placemark><LineString><coordinates>1,2 3,4</coordinates></LineString></Placemark></kml>", "NoGeoPoint (place 1: LineString)"),
        ("bad.gpx", b"<gpx><wpt lat='1' lon='x'/></gpx>", "NoGeoPoint (point 1: no two numbers)"),
        ("bad.gpx", b"<gpx><wpt lat='1' lon='2'><name>a</wpt></gpx>", "BadXml (<name>)"),
        ("bad.gpx", b"<gpx><wpt lat='95' lon='2'/></gpx>", "NoLatitude (95)"),
        ("empty.gpx", b"<gpx></gpx>", "NoPoint"),
        ("other.xml", b"<?xml version='1.0'?><rss><channel/></rss>", "OtherXml (rss)"),
        ("page.html", b"<!DOCTYPE html><table><tr><td>1</table>", "WebPage"),
        ("page.csv", b"<html><table><tr><td>1</table>", "WebPage"),
    ]:
        page.drop((name, text))
        is_so((name, page.error()), (name, note))


# This script reads a table of edges on each line, and prints its forest: the names of both endpoints, and the weight.
TABLES = """
import { readFileSync } from 'node:fs';
import { Source } from './sources.js';
import { readTable } from './tables.js';
import { forestByKruskal } from './kruskal.js';
import { nameAt } from './names.js';
import { putWeights, weightsOf } from './weights.js';
for (const line of readFileSync(0, 'utf8').split('\\n').filter(Boolean)) {
    const content = new TextEncoder().encode(JSON.parse(line)), { endpoints, weights, names } = await readTable(await Source.of({ name: 'links.csv', content }));
    const links = new Uint32Array(4 * weights.length);
    for (let i = 0; i < weights.length; i++) links.set([Math.min(endpoints[2 * i], endpoints[2 * i + 1]) + 1, Math.max(endpoints[2 * i], endpoints[2 * i + 1]) + 1], 4 * i + 2);
    putWeights(links, weights);
    const forest = forestByKruskal(names.ends.length - 1, links), heights = weightsOf(forest, false);
    console.log(JSON.stringify(Array.from(heights, (height, i) => [nameAt(names, forest[4 * i + 2] - 1), nameAt(names, forest[4 * i + 3] - 1), height])));
}
"""


def rank(name):
    """A key for sorting names: numbers first, by value, then texts by their UTF-16 code units."""
    try:
        return (0, float(name), name.encode("utf-16-be"))
    except ValueError:
        return (1, 0.0, name.encode("utf-16-be"))


def forest_by_names(links):
    """The forest of edges (name, name, weight), ordered by weight, then by the lower name, then by the higher one."""
    names = sorted({it for u, v, _ in links for it in (u, v)}, key=rank)
    place = {name: i + 1 for i, name in enumerate(names)}
    components, found = Components(len(names)), []
    for weight, low, high in sorted((w, *sorted((place[u], place[v]))) for u, v, w in links if u != v):
        if components.join(low, high):
            found.append([names[low - 1], names[high - 1], weight])
    return found


@case
def the_order_of_rows_changes_no_forest(room):
    """200 random tables with equal weights, each in three orders with swapped endpoints, have one forest each, as in Python."""
    node = shutil.which("node")
    if not node:
        raise Skipped("there is no node")
    draw, tables, wanted = random.Random(103), [], []
    pool = ["10", "9", "2.5", "-1", "007", "7", "1e2", "a", "B", "b", "ä", "Zug", "\U0001f600", "\uffee", "a b", "10a", "x10", "x9", "_", "NA"]
    for _ in range(200):
        names = draw.sample(pool, draw.randint(2, len(pool)))
        links = [(draw.choice(names), draw.choice(names), draw.randint(0, 3)) for _ in range(draw.randint(1, 60))]
        for _ in range(3):
            draw.shuffle(links)
            rows = [(u, v, w) if draw.random() < 0.5 else (v, u, w) for u, v, w in links]
            tables.append("source,target,weight\n" + "".join(f"{u},{v},{w}\n" for u, v, w in rows))
            wanted.append(forest_by_names(links))
    with open(f"{modules(room)}/tables_run.js", "w", encoding="utf-8") as it:
        it.write(TABLES)
    ended = subprocess.run([node, it.name], input="\n".join(map(json.dumps, tables)), capture_output=True, text=True, timeout=300, check=False)
    is_so((ended.returncode, ended.stderr[-800:]), (0, ""))
    for text, line, forest in zip(tables, ended.stdout.splitlines(), wanted, strict=True):
        is_so((text, json.loads(line)), (text, forest))
    return f"{len(tables)} tables"


@case
def the_smallest_cluster_is_chosen(_room):
    """The user chooses the size below which clusters are grey."""
    page = Page.opened()
    rows = [(x, 0) for x in range(981)] + [(5000 + x, 0) for x in range(9)] + [(9000 + x, 0) for x in range(10)]
    page.drop(("points.csv", table_of(rows)))
    page.set("clusters", 3)
    is_so((page.value("smallest"), page.text("say")), ("10", "3 clusters. Sizes: 981, 10, 9. 1 cluster smaller than 10 is grey."))
    for size, note in [(9, "3 clusters. Sizes: 981, 10, 9."), (11, "3 clusters. Sizes: 981, 10, 9. 2 clusters smaller than 11 are grey."), (1, "3 clusters. Sizes: 981, 10, 9.")]:
        page.set("smallest", size)
        is_so((page.value("smallest"), page.text("say")), (str(size), note))
    page.set("smallest", "")
    is_so(page.text("say"), "3 clusters. Sizes: 981, 10, 9. 1 cluster smaller than 10 is grey.")


@case
def properties_of_a_geojson_stay(_room):
    """Saved files contain all properties and the same points."""
    page, draw = Page.opened(), random.Random(104)
    features = [
        {"type": "Feature", "properties": {"name": f"P{i}", "people": i * 1000, "tags": ["a", {"b": i}], "cluster": "mine", **({"note": 'x,"y"'} if i % 2 else {})},
         "geometry": {"type": "Point", "coordinates": [round(draw.uniform(-9, 9), 3), round(draw.uniform(40, 50), 3)]}}
        for i in range(6)
    ]
    page.drop(("places.geojson", json.dumps({"type": "FeatureCollection", "features": features}).encode()))
    page.set("clusters", 3)
    saved = json.loads(page.saved("clusters.geojson"))["features"]
    is_so([{key: value for key, value in it["properties"].items() if key != "cluster_"} for it in saved], [it["properties"] for it in features])
    is_so([it["geometry"] for it in saved], [it["geometry"] for it in features])
    numbers = [it["properties"]["cluster_"] for it in saved]
    is_same_partition(numbers, clusters_of(page.saved("forest.gr"), 3))
    rows = list(csv.DictReader(io.StringIO(page.saved("clusters.csv").decode())))
    is_so([(it["name"], it["people"], json.loads(it["tags"]), it["cluster"], it["note"], it["cluster_"]) for it in rows],
          [(it["properties"]["name"], str(it["properties"]["people"]), it["properties"]["tags"], "mine", it["properties"].get("note", ""), str(number)) for it, number in zip(features, numbers)])
    is_so([[float(it["longitude"]), float(it["latitude"])] for it in rows], [it["geometry"]["coordinates"] for it in features])
