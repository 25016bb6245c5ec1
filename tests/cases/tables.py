"""The recipes of docs/RECIPES.md that read tables and databases: each script as it is shown, with the package and the
built library.

The ids that they print are compared with a forest that is computed here. A recipe is skipped if a package of Python or
a server that it needs isn't installed. Spark, which Debian doesn't have, is replaced.
"""
import contextlib
import glob
import os
import pwd
import random
import re
import shutil
import sqlite3
import subprocess
import tempfile

from cases.documents import text_of
from cases.embedding import libraries
from cases.running import ROOT, Skipped, case, expect, forest_of, run, written

PYTHONS = ("/usr/bin/python3", "/usr/local/bin/python3", shutil.which("python3"))


def python(*modules):
    """A Python that has these modules."""
    found = {it: [] for it in modules}
    for path in filter(None, PYTHONS):
        has = [it for it in modules if os.path.exists(path) and not run([path, "-c", f"import {it}"])[0]]
        if len(has) == len(modules):
            return path
        for it in has:
            found[it].append(path)
    raise Skipped(f"no Python has {' and '.join(it for it in modules if not found[it]) or ' and '.join(modules)}")


def script(room, name):
    """The path of the recipe's script."""
    [code] = re.findall(rf"^### {name}\n.*?^```python\n(.*?)^```$", text_of("docs/RECIPES.md"), re.M | re.S)
    return written(f"{room}/recipe.py", code.encode())


def ran_by(path, *arguments, **more):
    """Status, standard output and standard error of Python with these arguments."""
    env = {**os.environ, "PYTHONPATH": f"{ROOT}/python", "BORUVKA_LIBRARY": libraries()[1], "PYTHONDONTWRITEBYTECODE": "1"}
    return run([path, "-W", "error", *arguments], env=env, **more)


def expect_error(found, message):
    """It fails, and its last line says this."""
    status, output, errors = found
    if not status or output or not re.search(message.encode(), errors.splitlines()[-1]):
        raise AssertionError(f"wanted an error {message}, found {found!r:.900}")


def ids_of(rows):
    """The ids of the forest of rows (id, endpoint, endpoint, cost), lightest first, where endpoints are ranked by their
    order.

    Among equal edges the least id counts.
    """
    rank = {it: at for at, it in enumerate(sorted({it for _, u, v, _ in rows for it in (u, v)}), 1)}
    least = {}
    for id_, u, v, cost in rows:
        link = (cost, *sorted((rank[u], rank[v])))
        least[link] = min(least.get(link, id_), id_)
    return [least[it] for it in forest_of(len(rank), [(low, high, cost) for cost, low, high in least])]


def lines(ids):
    return "".join(f"{it}\n" for it in ids).encode()


def drawn(seed, endpoints, costs, count=400):
    """Rows in a drawn order, many of equal cost, with loops and parallel edges."""
    draw = random.Random(seed)
    rows = [(at, draw.choice(endpoints), draw.choice(endpoints), draw.choice(costs)) for at in range(-9, count)]
    draw.shuffle(rows)
    return rows


@case
def the_recipe_of_sqlite(room):
    path, recipe = python("numpy"), script(room, "SQLite")

    def found(rows, table="roads"):
        with contextlib.suppress(FileNotFoundError):
            os.remove(f"{room}/roads.db")
        with contextlib.closing(sqlite3.connect(f"{room}/roads.db")) as database, database:
            database.execute(f"CREATE TABLE {table} (id INTEGER, source, target, cost)")
            database.executemany(f"INSERT INTO {table} VALUES (?, ?, ?, ?)", rows)
        return ran_by(path, recipe, f"{room}/roads.db")

    names = [f"{it}{at}" for at in range(30) for it in ("Zürich ", "a", "Ž", "'")]
    for rows in [drawn(1, names, [0, 1, 2, 0.5]), drawn(2, range(60), [-1.5, 1e300, 0.1, -0.0]), drawn(3, range(9), [2**62, -(2**63), 0])]:
        expect(found(rows), 0, lines(ids_of(rows)), b"")
    # two costs that are equal as doubles
    expect(found([(1, "a", "b", 2**53 + 1), (2, "b", "c", 2**53 + 1), (3, "c", "a", 2**53)]), 0, b"3\n1\n", b"")
    for rows, message in [
        ([], "^roads has no rows$"), ([(1, "a", "b", None)], "^a field is NULL$"), ([(1, None, "b", 1)], "^a field is NULL$"),
        ([(1, "a", 7, 1)], "not supported between"), ([(1, "a", "b", "1")], "Error: "), ([(1, "a", "b", 2**53 + 1), (2, "b", "c", 0.5)], "Error: "),
    ]:
        expect_error(found(rows), message)
    expect_error(found([], table="streets"), "no such table: roads")
    os.remove(f"{room}/roads.db")
    expect_error(ran_by(path, recipe, f"{room}/roads.db"), "unable to open")
    expect((os.path.exists(f"{room}/roads.db"), b"", b""), False, b"", b"")


@contextlib.contextmanager
def postgres():
    """A server of its own, as the arguments with which psycopg2 connects."""
    tools = max(glob.glob("/usr/lib/postgresql/*/bin"), default="", key=lambda it: int(it.split("/")[-2]))
    if not os.path.exists(f"{tools}/initdb"):
        raise Skipped("there is no PostgreSQL server")
    by = []
    if os.geteuid() == 0:
        # (it doesn't run as root)
        if not shutil.which("runuser") or "postgres" not in [it.pw_name for it in pwd.getpwall()]:
            raise Skipped("root can't start a PostgreSQL server here, and there is no user postgres")
        by = ["runuser", "-u", "postgres", "--"]
    with tempfile.TemporaryDirectory(prefix="boruvka-postgres-") as folder:
        if by:
            shutil.chown(folder, "postgres")
        control = [*by, f"{tools}/pg_ctl", "-D", f"{folder}/data", "-l", f"{folder}/log", "-w"]
        expect((run([*by, f"{tools}/initdb", "-N", "-A", "trust", "-U", "postgres", "-E", "UTF8", f"{folder}/data"], cwd=folder)[0], b"", b""), 0, b"", b"")
        expect((run([*control, "-o", f"-k {folder} -c listen_addresses='' -c fsync=off", "start"], output=subprocess.DEVNULL, cwd=folder)[0], b"", b""), 0, b"", b"")
        try:
            yield f"host={folder} user=postgres dbname=postgres"
        finally:
            run([*control, "-m", "immediate", "stop"], output=subprocess.DEVNULL, cwd=folder)


@case
def the_recipe_of_postgresql(room):
    path, recipe = python("numpy", "psycopg2"), script(room, "PostgreSQL and PostGIS")
    make = """import sys, psycopg2
database = psycopg2.connect(sys.argv[1])
cursor = database.cursor()
cursor.execute("DROP TABLE IF EXISTS roads")
cursor.execute(f"CREATE TABLE roads (id integer, source bigint, target bigint, cost {sys.argv[2]})")
for row in eval(sys.stdin.read()):
    cursor.execute("INSERT INTO roads VALUES (%s, %s, %s, %s)", row)
database.commit()
"""
    with postgres() as where:

        def found(rows, kind):
            expect(ran_by(path, "-c", make, where, kind, source=repr(rows).encode()), 0, b"", b"")
            return ran_by(path, recipe, where)

        endpoints = [-(2**63), -1, 0, *range(5, 60), 2**63 - 1]
        for rows, kind in [(drawn(4, endpoints, [0.0, 0.5, -0.25, 1e300]), "double precision"), (drawn(5, endpoints, [2**53, 2**53 + 1, -(2**63)]), "bigint"), ([], "bigint")]:
            expect(found(rows, kind), 0, lines(ids_of(rows)), b"")
        # so many NULLs that the number of bytes would fit rows without them
        rows = [(at, at, at + 1, None) for at in range(25)]
        for some in (rows, rows[:1], [(at, None, 1, 2) for at in range(100)], [(None, 1, 2, 3), (1, 1, 2, 3)]):
            expect_error(found(some, "bigint"), "^a field is NULL$")
        expect_error(found([(1, 2, 3, "NaN")], "double precision"), "Error: ")
        for kind in ("integer", "numeric", "real", "text"):
            expect_error(found([(1, 2, 3, 4)], kind), "^the cost has to be bigint or double precision")


@case
def the_recipe_of_a_geopackage(room):
    path, recipe = python("numpy", "osgeo"), script(room, "GeoPackage")
    make = """import sys
from osgeo import ogr
ogr.UseExceptions()
source = ogr.GetDriverByName("GPKG").CreateDataSource(sys.argv[1])
layer = source.CreateLayer("roads", options=["FID=number", "GEOMETRY_NAME=way"])
layer.CreateField(ogr.FieldDefn("cost", {"whole": ogr.OFTInteger64, "real": ogr.OFTReal}[sys.argv[2]]))
for fid, shape, cost in eval(sys.stdin.read()):
    feature = ogr.Feature(layer.GetLayerDefn())
    feature.SetFID(fid)
    if shape is not None:
        feature.SetGeometry(ogr.CreateGeometryFromWkt(shape))
    if cost is not None:
        feature.SetField("cost", cost)
    layer.CreateFeature(feature)
"""

    def found(rows, kind="real"):
        with contextlib.suppress(FileNotFoundError):
            os.remove(f"{room}/roads.gpkg")
        expect((ran_by(path, "-W", "ignore", "-c", make, f"{room}/roads.gpkg", kind, source=repr(rows).encode())[0], b"", b""), 0, b"", b"")
        return ran_by(path, "-W", "ignore", recipe, f"{room}/roads.gpkg")

    def drawn_lines(seed, costs):
        """Lines with points between their endpoints, and the rows that they stand for."""
        draw = random.Random(seed)
        places = [(x / 4, y / 4) for x in range(-4, 5) for y in range(-4, 5)]
        rows = [(id_ + 20, u, v, cost) for id_, u, v, cost in drawn(seed, places, costs)]
        shapes = []
        for id_, u, v, cost in rows:
            # (a zero may have either sign)
            endpoints = [" ".join(f"-{it}" if it == 0 and draw.random() < 0.5 else str(it) for it in end) for end in (u, v)]
            shapes.append((id_, f"LINESTRING({endpoints[0]},{'7 7,' * draw.randint(0, 3)}{endpoints[1]})", cost))
        return rows, shapes

    for seed, kind, costs in [(6, "real", [0.0, 1.5, -2.25]), (7, "whole", [2**53, 2**53 + 1, 0])]:
        rows, shapes = drawn_lines(seed, costs)
        expect(found(shapes, kind), 0, lines(ids_of(rows)), b"")
    line = (4, "LINESTRING(0 0,1 1)", 1)
    for shape, cost in [
        (None, 1), ("LINESTRING(1 1,2 2)", None), ("LINESTRING EMPTY", 1), ("POINT(1 2)", 1), ("LINESTRING Z(0 0 5,1 1 6)", 1),
        ("MULTILINESTRING((0 0,1 1))", 1), ("LINESTRING M(0 0 5,1 1 6)", 1), ("CIRCULARSTRING(0 0,1 1,2 0)", 1), ("POLYGON((0 0,1 1,2 0,0 0))", 1),
    ]:
        for kind in ("real", "whole"):
            expect_error(found([line, (9, shape, cost)], kind), r"^feature 9: it needs a cost, and one line of x and y \(ogr2ogr -explodecollections -dim XY\)$")
    expect_error(found([]), "^the layer has no features$")
    expect_error(found([line, (9, "LINESTRING(1 1,1e400 2)", 1)]), "^a coordinate isn't finite$")


REPLACEMENT = """import pathlib, random, sys, pandas

class Frame:
    schema = "any"

    def __init__(self, parts):
        self.parts = parts

    def mapInPandas(self, function, schema):
        assert schema == self.schema
        return Frame([list(function(iter(it))) for it in self.parts])

    def coalesce(self, count):
        return Frame([sum(self.parts[at::count], []) for at in range(count)])

draw = random.Random(int(sys.argv[2]))
n, partitions, rows = eval(sys.stdin.read())
all_rows = pandas.DataFrame(rows, columns=["id", "u", "v", "w"])
all_rows["name"] = [f"road {it}" for it in all_rows["id"]]
parts = [[] for _ in range(partitions)]
for begin in range(0, len(rows), 37):
    parts[draw.randrange(partitions)].append(all_rows.iloc[begin : begin + 37])
exec(pathlib.Path(sys.argv[1]).read_text())
[found] = spark_forest(Frame(parts), n, partitions).parts
found = pandas.concat(found) if found else all_rows
assert list(found.columns) == list(all_rows.columns)
of_id = {id_: row for id_, *row in rows}
for row in found.itertuples():
    assert row.name == f"road {row.id}" and of_id[row.id] == [row.u, row.v, row.w]
print(*sorted(found["id"]))
"""


@case
def the_recipe_of_spark(room):
    """Any partitions give the ids of the whole, also if some are empty, or one has all rows."""
    path, recipe = python("numpy", "pandas"), script(room, "Spark")
    for seed, n, count, costs in [(8, 50, 900, [0.0, 0.25, 1.5]), (9, 40, 300, [2**53, 2**53 + 1]), (10, 5, 0, [1])]:
        rows = drawn(seed, range(n), costs, count) if count else []
        ids = " ".join(map(str, sorted(ids_of(rows)))) + "\n"
        for partitions in (1, 3, 16, 40):
            expect(ran_by(path, "-c", REPLACEMENT, recipe, str(partitions), source=repr((n, partitions, rows)).encode()), 0, ids.encode(), b"")
