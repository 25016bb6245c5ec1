"""Files that the page opens: graphs, coordinates, tables, GeoJSON; and files that it rejects."""
import base64
import gzip
import random
import re

from browsing.page import DROP as DROP_SOON, Page, clusters_of, forest_by_program, is_same_partition, is_so
from cases.running import ROOT, SMALL_FOREST, SMALL_NET, case, drawn_graph, file_of, forest_of

ENTER, ESCAPE = "\ue007", "\ue00c"
PLACES = b"c places\np aux sp co 6\n" + b"".join(b"v %d %d %d\n" % (v, 10 * v, v * v) for v in range(1, 7))


@case
def a_dropped_graph(_room):
    page = Page.opened()
    page.drop(("small.gr", SMALL_NET))
    page.expect(points="6", size="5", total="13", heaviest="10")
    is_so(page.saved("forest.gr"), SMALL_FOREST)
    is_so(page.text("pointsword"), "Vertices")
    page.set("cut", 3)
    page.expect(kept="0", say="3 clusters. Sizes: 4, 1, 1. 2 clusters smaller than 2 are grey.")
    is_so(page.saved("clusters.csv"), b"vertex,cluster\n1,2\n2,1\n3,1\n4,1\n5,1\n6,3\n")
    with open(f"{ROOT}/examples/roads.gr", "rb") as it:
        roads = it.read()
    page.drop(("roads.gr", roads))
    page.expect(points="10", size="8", total="40", heaviest="11")
    is_so(page.saved("forest.gr"), forest_by_program(roads))
    page.keep("roads")
    page.click("pen")
    page.browser.click_at("picture", 300, 300)
    page.frames()
    is_so((page.text("error"), page.text("points")), ("These points come from a file. Clear them to add points with the pen.", "10"))


@case
def files_that_are_chosen(room):
    page = Page.opened()
    for name, text in [("small.gr", SMALL_NET), ("places.co", PLACES)]:
        with open(f"{room}/{name}", "wb") as it:
            it.write(text)
    page.click("open")
    page.browser.write("files", f"{room}/places.co\n{room}/small.gr")
    page.browser.wait("document.getElementById('points').textContent === '6'")
    page.settle()
    page.expect(total="13")
    is_so(page.saved("forest.gr"), SMALL_FOREST)


@case
def weights_of_64_bits(_room):
    page, draw = Page.opened(), random.Random(5)
    ends = [-(2**63), 1 - 2**63, -1, 0, 2**53, 2**53 + 1, 2**63 - 2, 2**63 - 1]
    rows = [(draw.randint(1, 40), draw.randint(1, 40), draw.choice(ends)) for _ in range(300)]
    source, forest = file_of(40, rows), forest_of(40, rows)
    page.drop(("wide.gr", source))
    total = sum(it[0] for it in forest)
    page.expect(total=f"{total:,}".replace("-", "−"), heaviest=f"{forest[-1][0]:,}".replace("-", "−"))
    is_so(page.saved("forest.gr"), forest_by_program(source))


@case
def graphs_of_many_parts(_room):
    page = Page.opened()
    for seed, n, m in [(1, 1, 0), (2, 50, 0), (3, 2000, 1500), (4, 20000, 60000)]:
        source, forest = drawn_graph(seed, n, m, 10**6)
        page.drop(("drawn.gr", source))
        trees = n - forest.count(b"\na ")
        page.expect(points=f"{n:,}", size=f"{n - trees:,}")
        is_so((page.saved("forest.gr") == forest, forest_by_program(source) == forest), (True, True))
        is_so(page.browser.run("return document.getElementById('cut').min"), str(trees))
        page.keep(f"graph_{n}")
        page.set("clusters", min(n, trees + 5))
        rows = page.saved("clusters.csv").decode().splitlines()[1:]
        is_same_partition([int(it.split(",")[1]) for it in rows], clusters_of(forest, min(n, trees + 5)))


@case
def a_graph_that_is_too_large_to_be_drawn(_room):
    page = Page.opened()
    page.drop(("large.gr", b"p sp 1500000 2\na 1 1500000 7\na 7 1 -3\n"))
    page.set("clusters", 1)
    page.expect(points="1,500,000", size="2", total="4", heaviest="7", say="1,499,998 clusters. Sizes: 3, 1, 1, 1, 1, 1 and 1,499,992 more. 1,499,998 clusters smaller than 15,000 are grey.")
    is_so(page.saved("forest.gr"), b"p sp 1500000 2\na 1 7 -3\na 1 1500000 7\n")


@case
def places_of_a_graph(_room):
    page = Page.opened()
    page.drop(("places.co", PLACES), ("small.gr", SMALL_NET))
    page.expect(points="6", total="13")
    together = page.saved("picture.svg")
    page.drop(("small.gr", SMALL_NET))
    is_so(page.saved("picture.svg") == together, False)
    page.drop(("places.co", PLACES))
    page.expect(points="6", total="13", size="5")
    page.keep("places")
    is_so(page.saved("picture.svg"), together)
    # y grows upwards, so vertex 6 is the uppermost and the rightmost
    numbers = re.findall(r'<text x="([0-9.]+)" y="([0-9.]+)"', together.decode())
    x, y = zip(*((float(one), float(other)) for one, other in numbers))
    is_so((len(x), sorted(x), sorted(y, reverse=True)), (6, list(x), list(y)))
    # without a graph, coordinates are points
    page.click("clear")
    page.drop(("places.co", PLACES))
    page.expect(points="6", size="5")


def points_of(text):
    """The x and y of each point of a saved table without names."""
    return [tuple(map(float, it.split(",")[:2])) for it in text.decode().splitlines()[1:]]


TOWNS = f"{ROOT}/python/examples/towns.csv"
FEATURES = b"""{"type": "FeatureCollection", "features": [
 {"type": "Feature", "properties": {"name": "Horta"}, "geometry": {"type": "Point", "coordinates": [-28.63, 38.53]}},
 {"type": "Feature", "properties": {}, "geometry": {"type": "MultiPoint", "coordinates": [[-25.67, 37.74], [-27.22, 38.66]]}}]}"""

# a file's name and content; the number of points and the total that the page shows for it
TAKEN = [
    ("crlf.csv", b"x,y\r\n0,0\r\n3,4\r\n\r\n", "2", "5"),
    ("cr.csv", b"0,0\r3,4\r3,5", "3", "6"),
    ("cr.csv", b"0,0\r3,4\r", "2", "5"),
    ("id.csv", b"id,x,y\n100,0,0\n900,3,4\n", "2", "5"),
    ("turned.csv", b"Y,name,X\n4,a,3\n0,b,0\n", "2", "5"),
    ("quotes.csv", b'name,x,y\n"a, ""b""\nc",0,0\n"",3,4\n', "2", "5"),
    # quotation marks that hide no separator are letters, as in Python's csv
    ("marks.csv", b'name,x,y\na "b" c,0,0\n5" by 6",3,4\n', "2", "5"),
    ("semicolons.csv", b"1,5;2,5\n4,5;6,5\n", "2", "5"),
    ("semicolons.csv", b"x;y\n1.5;2.5\n4.5;6.5\n", "2", "5"),
    ("quoted.csv", b'"0","0"\n"3","4"\n', "2", "5"),
    ("tabs.txt", b"0\t0\n3\t4\n", "2", "5"),
    ("spaces.txt", b"  0   0\n 3 4\n", "2", "5"),
    ("bom.csv", b"\xef\xbb\xbfx,y\n0,0\n3,4\n", "2", "5"),
    ("utf16.txt", "x\ty\n0\t0\n3\t4\n".encode("utf-16"), "2", "5"),
    ("signs.csv", b"+1e0,-.5\n1.,-1.5E0\n", "2", "1"),
    ("packed.csv.gz", gzip.compress(b"0,0\n3,4\n"), "2", "5"),
    ("packed.gr.gz", gzip.compress(SMALL_NET), "6", "13"),
    ("unnamed", SMALL_NET, "6", "13"),
    ("links.csv", b"source,target,weight\na,b,1.5\nb,c,2\nc,a,-1\nc,c,5\n", "3", "0.5"),
    ("links.csv", b"From;To\na;b\nb;c\n", "3", "2"),
    # a whole number is exact to its last digit
    ("links.csv", b"source,target,weight\na,b,123456789\nb,c,9007199130284201\n", "3", "9,007,199,253,740,990"),
    ("links.csv", b"source,target,weight\na,b,12345678.25\nb,c,0.5\n", "3", "12,345,679"),
    # as math.fsum computes it
    ("links.csv", b"source,target,weight\na,b,1e16\nb,c,1\nc,d,-1e16\n", "4", "1"),
    # by the haversine formula in Python's floats, with 6371 km
    ("globe.csv", b"Longitude,LATITUDE\n0,0\n90,0\n0,90\n", "3", "20,015.09 km"),
    ("globe.csv", b"lat,lon\n0,179.5\n0,-179.5\n", "2", "111.1949 km"),
    ("points.geojson", FEATURES, "3", "293.1188 km"),
    ("point.json", b'{"type": "Point", "coordinates": [1, 2, 3]}', "1", "0 km"),
]


@case
def files_that_are_accepted(_room):
    page = Page.opened()
    for name, text, points, total in TAKEN:
        page.drop((name, text))
        is_so((name, text[:60], page.text("error"), page.text("points"), page.text("total")), (name, text[:60], "", points, total))
    page.drop(("semicolons.csv", b"1,5;2,5\n4,5;6,5\n"))
    is_so(page.text("notes"), "A comma is read as the decimal point: 1,5 is 1.5.")
    # notes stay as long as their points are shown
    page.drop(("bad.csv", b"1\n"))
    is_so((page.text("points"), page.text("notes")), ("2", "A comma is read as the decimal point: 1,5 is 1.5."))
    page.drop(("links.csv", b"source,target\nc,c\na,b\n"), ("places.co", b"p aux sp co 3\nv 1 0 0\nv 2 3 4\nv 3 5 5\n"))
    is_so(page.text("notes"), "Edges from a name to itself are left out: 1. No column is a weight, so each edge has the weight 1.")
    page.click("clear")
    is_so(page.text("notes"), "")
    page.drop(("none.gr", b"p sp 0 0\n"))
    page.expect(points="0", size="0", say="0 clusters.")
    page.drop(("long.csv", b"name,x,y\n%s,0,0\n%s,3,4\nc,3,4\n" % (b"a" * 200, b"b" * 201)))
    is_so(page.text("notes"), "Names longer than 200 characters were shortened: 1.")
    page.expect(points="3", total="5")


# notes on a first row that may be data, and on a column that is ignored
HEADS = [
    ("−5,−3\n0,0\n3,4\n", "The first row is read as column names: ‘−5’, ‘−3’. If it is data, add a row of names above it."),
    ("NA;NA\n0;0\n3;4\n", "The first row is read as column names: ‘NA’, ‘NA’. If it is data, add a row of names above it."),
    ("x,y,z\n0,0,0\n3,4,9\n", "The column z is ignored, because the points are in a plane."),
    ("x,y,note\n0,0,0\n3,4,9\n", ""),
    ("0,0\n3,4\n", ""),
]


@case
def a_saved_table_is_read_again(_room):
    """The new column has the separator of the table, even if that is a space."""
    page = Page.opened()
    for text, saved in [(b"x y\n 0   0\n3 4\n", b"x y cluster\n 0   0 1\n3 4 1\n"), (b"x\ty\n0\t0\n3\t4\n", b"x\ty\tcluster\n0\t0\t1\n3\t4\t1\n")]:
        page.drop(("points.txt", text))
        is_so(page.saved("clusters.csv"), saved)
        page.drop(("again.csv", saved))
        page.expect(points="2", total="5")


@case
def notes_cover_no_points(_room):
    """The picture begins below the last line of the notes."""
    tall = "x;y\n" + "".join(f"{i * 37 % 11},5;{10 * i}\n" for i in range(60))
    script = "return Promise.all([import('./state.js'), import('./view.js')]).then(([{ state: { shown } }, { lens }]) => [document.getElementById('notes').getBoundingClientRect().bottom, lens().down(shown.points[119])])"
    for width, height in [(1280, 800), (390, 844)]:
        page = Page.opened(width=width, height=height)
        page.drop(("tall.csv", tall.encode()))
        page.expect(points="60", notes="A comma is read as the decimal point: 0,5 is 0.5.")
        bottom, highest = page.browser.run(script)
        is_so((width, 40 < bottom < highest < bottom + 60), (width, True))


@case
def first_rows_that_are_guessed(_room):
    page = Page.opened()
    for text, note in HEADS:
        if note.startswith("The first row"):
            page.ask(("points.csv", text.encode()))
            page.answer("columns")
        else:
            page.drop(("points.csv", text.encode()))
        is_so((text, page.text("notes")), (text, note))
        page.expect(points="2", total="5")
    # degrees in columns with other names
    for text, is_note in [("X,Y\n7.4474,46.9480\n8.5417,47.3769\n", True), ("7.4474,46.9480\n8.5417,47.3769\n", True), ("x;y\n7,4474;46,9480\n8,5417;47,3769\n", True),
                          ("x,y\n0.4474,0.9480\n0.5417,0.3769\n", False), ("x,y\n7.44,46.94\n8.54,47.37\n", False), ("x,y\n7.4474,460.9480\n8.5417,47.3769\n", False)]:
        page.drop(("points.csv", text.encode()))
        is_so((text, "If these are degrees, name the columns lon and lat." in page.text("notes")), (text, is_note))
    # edges between names, where the first row may be a header
    page.browser.run(DROP_SOON, [("links.csv", base64.b64encode(b"Bern,Rome\nRome,Oslo\n").decode())])
    page.browser.wait("document.getElementById('columns').open")
    page.answer("columns")
    is_so(page.text("notes").split(" If ")[0], "The first row is read as column names: ‘Bern’, ‘Rome’.")


@case
def the_towns_of_the_repository(_room):
    """The header decides the columns, lengths are kilometres, and the clusters are those of the Python example."""
    page = Page.opened()
    with open(TOWNS, "rb") as it:
        towns = it.read()
    page.drop(("towns.csv", towns))
    page.expect(points="22", size="21", total="4,501.454 km")
    page.set("clusters", 4)
    page.keep("towns")
    rows = [it.rsplit(",", 2) for it in page.saved("clusters.csv").decode().splitlines()]
    is_so([",".join(it[:2]) for it in rows], towns.decode().splitlines())
    is_so(rows[0][2], "cluster")
    is_so(len({(it[1], it[2]) for it in rows[1:]}), 4)


@case
def columns_that_are_chosen(_room):
    """The dialog asks about a table whose header doesn't decide its columns. It works by keys too."""
    page = Page.opened()
    page.browser.run(DROP_SOON, [("table.csv", base64.b64encode(b"a,b,c\n7,0,0\n8,3,4\n").decode())])
    page.browser.wait("document.getElementById('columns').open")
    page.keep("columns")
    page.set("role-across", 1)
    page.set("role-up", 2)
    page.browser.run("document.querySelector('#columns button[value=take]').focus()")
    page.browser.press(ENTER)
    page.browser.wait("!document.getElementById('columns').open")
    page.frames()
    page.expect(points="2", total="5")
    page.browser.run(DROP_SOON, [("table.csv", base64.b64encode(b"a b 2\nb c 3\n").decode())])
    page.browser.wait("document.getElementById('columns').open")
    page.answer("columns")
    page.expect(points="3", size="2", total="5")
    # a header that fits two kinds, or two columns of one role
    for text, points, total in [(b"x,y,lon,lat\n0,0,0,0\n3,4,1,0\n", "2", "111.1949 km"), (b"x,y,X\n0,0,9\n3,4,9\n9,4,1\n", "3", "11")]:
        page.browser.run(DROP_SOON, [("table.csv", base64.b64encode(text).decode())])
        page.browser.wait("document.getElementById('columns').open")
        page.answer("columns")
        page.expect(points=points, total=total)
    # edges with a column of numbers whose name is unknown
    page.browser.run(DROP_SOON, [("table.csv", base64.b64encode(b"from,to,cost\na,b,5\nb,c,6\na,c,1\n").decode())])
    page.browser.wait("document.getElementById('columns').open", seconds=5)
    page.set("role-weight", 2)
    page.answer("columns")
    page.expect(points="3", total="6")
    # a header of years isn't a point, and a row of names may be an edge
    for text, is_header, points, total in [(b"town,2020,2021\na,0,0\nb,3,4\n", True, "2", "5"), (b"Bern,Rome\nRome,Oslo\n", False, "3", "2")]:
        page.browser.run(DROP_SOON, [("table.csv", base64.b64encode(text).decode())])
        page.browser.wait("document.getElementById('columns').open")
        is_so(page.browser.run("return document.getElementById('header').checked"), not is_header)
        page.browser.run("document.getElementById('header').click()")
        page.keep("header")
        page.answer("columns")
        page.expect(points=points, total=total)
    page.browser.run(DROP_SOON, [("table.csv", base64.b64encode(b"1,2,3\n").decode())])
    page.browser.wait("document.getElementById('columns').open")
    page.browser.press(ESCAPE)
    page.browser.wait("!document.getElementById('columns').open")
    page.frames()
    is_so((page.text("error"), page.text("points")), ("table.csv: No columns were chosen.", "3"))


@case
def a_table_that_is_pasted(_room):
    page = Page.opened()
    paste = "const data = new DataTransfer(); data.setData('text/plain', arguments[0]); document.body.dispatchEvent(new ClipboardEvent('paste', { clipboardData: data, bubbles: true }))"
    page.browser.run(paste, "x\ty\n0\t0\n3\t4")
    page.settle()
    page.expect(points="2", total="5")
    page.click("open")
    page.keep("open")
    page.browser.write("pasted", "0,0\n1,0\n2,0\n")
    page.browser.click("take")
    page.settle()
    page.expect(points="3", total="2")
    # a dropped text
    drop = "const data = new DataTransfer(); data.setData('text/plain', arguments[0]); document.body.dispatchEvent(new DragEvent('drop', { dataTransfer: data, bubbles: true, cancelable: true }))"
    page.browser.run(drop, "0 0\n5 12\n")
    page.settle()
    page.expect(points="2", total="13")
    # cells of a spreadsheet come with a picture of them; a picture alone is rejected
    picture = "data.items.add(new File([Uint8Array.of(137, 80, 78, 71)], 'image.png', { type: 'image/png' }))"
    cells = paste.replace("document.body.", f"{picture}; document.body.")
    page.browser.run(cells, "x\ty\n0\t0\n8\t6")
    page.settle()
    page.expect(points="2", total="10")
    page.browser.run(cells.replace("data.setData('text/plain', arguments[0]);", ""))
    page.settle()
    is_so(page.error(), "NoText (a PNG picture)")
    page.browser.run(paste, "nothing")
    page.settle()
    is_so(page.error(), "line 1: OneColumn (‘nothing’)")


REJECTED = [
    ("bad.gr", b"p sp 2 1\nx\n", "line 2: UnknownLine"),
    ("bad.gr", b"a 1 2 3\n", "line 1: NoProblemYet"),
    ("bad.gr", b"p sp 2 0\np sp 2 0\n", "line 2: SecondProblem"),
    ("bad.gr", b"p edge 2 1\n", "line 1: BadProblem"),
    ("bad.gr", b"p sp 67108865 1\n", "line 1: TooLarge"),
    ("bad.gr", b"p sp 2 1\na 1 2 3\na 1 2 4\n", "line 3: TooManyArcs"),
    ("bad.gr", b"p sp 2 1\na 1 2 0.5\n", "line 2: BadArc"),
    ("bad.gr", b"c one\np sp 2 1\na 1 3 4\n", "line 3: EndOutOfRange"),
    ("bad.gr", b"p sp 2 1\na 1 2 9223372036854775808\n", "line 2: WeightOutOfRange"),
    ("bad.gr", b"", "line 1: MissingProblem"),
    ("bad.gr", b"p sp 2 2\na 1 2 3\n", "line 3: MissingArcs"),
    ("bad.csv", b"1,2\nthree,4\n", "line 2: NoNumber (‘three’)"),
    ("bad.csv", b"x,y\nx,y\n", "line 2: NoNumber (‘x’)"),
    ("bad.csv", b"x,y\n\n3,\n", "line 3: NoNumber (‘’)"),
    ("bad.csv", b"1\n", "line 1: OneColumn (‘1’)"),
    ("bad.csv", b"1,inf\n2,3\n", "line 1: NoNumber (‘inf’)"),
    ("bad.csv", b"x,y\n1,NaN\n", "line 2: NoNumber (‘NaN’)"),
    ("bad.csv", b"x,y\n1,1e400\n", "line 2: NoNumber (‘1e400’)"),
    ("bad.csv", b"x,y\n1,0x10\n", "line 2: NoNumber (‘0x10’)"),
    ("bad.csv", b"x,y\n1,2,3\n", "line 2: OtherColumns (3 instead of 2)"),
    ("bad.csv", b"x,y\n" + b"1,2\n" * 9 + b"1\n", "line 11: OtherColumns (1 instead of 2)"),
    ("bad.csv", b"1,5;2\n1.5;2\n", "line 2: PointAndComma (‘1.5’)"),
    ("bad.csv", b'x,y\n"1,2\n3,4\n', "line 2: OpenQuote"),
    ("bad.csv", b'name,x,y\n5" pipe,0,0\n6" pipe,3,4\n7 pipe,1,1\n', "line 2: StrayQuote (‘5\" pipe,0,0’)"),
    ("bad.csv", b'from,to\na 5",b 6"\n', "line 2: StrayQuote (‘a 5\",b 6\"’)"),
    ("bad.txt", b'name x y\n5" 0 0\n6" 3 4\n', "line 2: StrayQuote (‘5\" 0 0’)"),
    ("bad.csv", b"x,y\n1,\x81\n", "NoUtf8"),
    ("bad.csv", b"x,y\n1,\xe4\n", "line 2: NoNumber (‘ä’)"),
    ("bad.csv", "1,2\n3,4\n".encode("utf-16")[:-1], "NoUtf16"),
    ("bad.csv", b"\xfe\xff\0001\0,\0002\0\n\xd8\0", "NoUtf16"),
    ("bad.csv", b"x,y\n1,2\0\n", "line 2: NoText"),
    ("bad.csv", b"x,y\r\n1,2\r\n" + b"3,4\r\n" * 50_000 + b"\x1a", "line 50003: NoText"),
    ("bad.csv", b"", "NoPoint"),
    ("bad.csv", b"\n \n\r\n", "NoPoint"),
    ("bad.csv", b"x,y\n", "NoPoint"),
    ("bad.csv", b"lon,lat\n0,91\n", "line 2: NoLatitude (91)"),
    ("bad.csv", b"lon,lat\n400,0\n", "line 2: NoLongitude (400)"),
    ("bad.csv", b"source,target\n", "NoLink"),
    ("bad.csv", b"source,target\na,\n", "line 2: NoName"),
    ("bad.csv", b"source,target,weight\na,b,9007199254740993\n", "line 2: LongWeight (9007199254740993)"),
    ("bad.csv", b"0,0\n9007199254740993,0\n", "line 2: LongPlace (9007199254740993)"),
    ("bad.csv", b"source,target,weight\na,b,\n", "line 2: NoNumber (‘’)"),
    ("bad.csv", b"0,0\n" * 1000001, "line 1000001: TooManyPoints"),
    ("bad.png", b"\x89PNG\r\n\x1a\n\0\0", "NoText (a PNG picture)"),
    ("bad.xlsx", b"PK\x03\x04\0\0", "NoText (a ZIP, KMZ or Excel file)"),
    ("bad.csv.gz", gzip.compress(b"1,2\n" * 9999)[:-40], "BadGzip"),
    ("bad.csv.gz", b"\x1f\x8bnothing", "BadGzip"),
    ("bad.geojson", b"{", "BadJson"),
    ("bad.geojson", b'{"type": "FeatureCollection", "features": []}', "NoPoint"),
    ("bad.geojson", b'{"type": "Polygon", "coordinates": []}', "NoGeoPoint (feature 1: Polygon)"),
    ("bad.geojson", b'[{"type": "Point", "coordinates": [1, 2]}, {"type": "Point", "coordinates": ["1", 2]}]', "NoGeoPoint (feature 2: no two numbers)"),
    ("bad.geojson", b'{"type": "Point", "coordinates": [1, 200]}', "NoLatitude (200)"),
    ("bad.geojson", b"null", "NoGeoPoint (feature 1: nothing)"),
    ("bad.geojson", b'{"type": "Feature", "properties": {"name": "\xe4"}, "geometry": {"type": "Point", "coordinates": [1, 2]}}', "NoUtf8"),
    ("far.csv", b"0,0\n1e308,1e308\n-1e308,0\n", "TooFarApart"),
    ("bad.co", b"v 1 2 3\n", "line 1: NoProblemYet"),
    ("bad.co", b"p aux sp co 1\np aux sp co 1\n", "line 2: SecondProblem"),
    ("bad.co", b"p sp 2 1\n", "line 1: BadProblem"),
    ("bad.co", b"p aux sp co 1000001\n", "line 1: TooLarge"),
    ("bad.co", b"p aux sp co 2\nv 1 2\n", "line 2: BadPlace"),
    ("bad.co", b"p aux sp co 1\nv 0x1 2 3\n", "line 2: BadPlace"),
    ("bad.co", b"p aux sp co 1\nv 1 0B10 3\n", "line 2: BadPlace"),
    ("bad.co", b"p aux sp co 2\nv 3 1 1\n", "line 2: EndOutOfRange"),
    ("bad.co", b"p aux sp co 2\nv 1 9007199254740992 0\nv 2 9007199254740993 0\n", "line 3: LongPlace"),
    ("bad.co", b"p aux sp co 2\nv 1 1 1\nv 1 1 1\n", "line 3: SecondPlace"),
    ("bad.co", b"p aux sp co 2\nv 1 1 1\n", "line 3: MissingPlaces"),
    ("bad.co", b"p aux sp co 2\nx\n", "line 2: UnknownLine"),
    ("bad.co", b"c nothing\n", "line 2: MissingProblem"),
    ("other.co", b"p aux sp co 1\nv 1 1 1\n", "PlacesDiffer"),
]


@case
def files_that_are_rejected(_room):
    """The error has the line and the kind, and the page shows the same points as before."""
    page = Page.opened()
    page.drop(("small.gr", SMALL_NET))
    page.set("cut", 2)
    before, picture = page.shown(), page.saved("picture.svg")
    for name, text, note in REJECTED:
        page.drop((name, text))
        found = page.text("error")
        is_so((name, text[:60], page.error()[: len(note)]), (name, text[:60], note))
        is_so((found[: len(name) + 2], found.endswith((".", "?")), "{}" in found), (f"{name}: ", True, False))
        is_so(page.shown(), before)
    # (the error moves the picture, and disappears with the next action)
    page.saved("forest.gr")
    page.frames()
    is_so(page.saved("picture.svg"), picture)
    page.keep("rejected")
    is_so(page.browser.complaints(), [])
    page.drop(("small.gr", SMALL_NET))
    page.expect(points="6", total="13")


@case
def several_files(_room):
    """Several graphs or tables at once are rejected."""
    page = Page.opened()
    before = page.shown()
    for names in (["a.csv", "b.csv"], ["a.gr", "b.gr", "b.co"], ["a.co", "b.co"]):
        page.drop(*((name, SMALL_NET if name.endswith(".gr") else PLACES if name.endswith(".co") else b"0,0\n3,4\n") for name in names))
        is_so((page.error(), page.shown()), (f"SeveralFiles ({len(names)})", before))
    # points already have coordinates, so the points stay and the other file is rejected
    page.drop(("a.csv", b"0,0\n3,4\n"), ("a.co", b"p aux sp co 3\nv 1 0 0\nv 2 1 0\nv 3 2 0\n"))
    is_so((page.error(), page.text("points"), page.text("total")), ("SeveralFiles (2)", "2", "5"))


@case
def a_file_that_is_rejected_during_another_task(_room):
    """The file ends the task that was going on, and the earlier points stay."""
    page = Page.opened()
    before = page.text("points")
    page.set("count", 40000)
    page.browser.run("document.getElementById('random').click()")
    page.drop(("bad.csv", b"1\n"))
    is_so(page.error(), "line 1: OneColumn (‘1’)")
    is_so(page.text("points"), before)
