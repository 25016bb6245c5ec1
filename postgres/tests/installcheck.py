#!/usr/bin/env python3
"""The tests of `make installcheck`, on a temporary server: pg_regress over sql/, random tables, and trouble.

usage: tests/installcheck.py

Random tables are tested with the extension as it was built, and with a build whose batches of edges are small. If the
environment variable NAMES is set, only the steps that it names run. The last line is `N passed, M failed`, and the exit status
is 0 only if no step failed.
"""
import os
import re
import shutil
import subprocess
import sys
import tempfile
import time

sys.dont_write_bytecode = True

import drawn
import pgrouting
import trouble
from server import HERE, Server, configured

REGRESS = ["aggregate", "parallel", "functions", "errors", "upgrade"]


def built(folder, **variables):
    """Builds a copy of the extension in a folder, with other variables of make."""
    shutil.copytree(HERE, folder, ignore=shutil.ignore_patterns("*.o", "*.so", "tests"))
    base = os.path.dirname(HERE)
    found = {"LIBBORUVKA": os.environ.get("LIBBORUVKA", f"{base}/crates/boruvka_c/out/libboruvka.a"), "HEADERS": os.environ.get("HEADERS", f"{base}/include"),
             "PG_CONFIG": os.environ.get("PG_CONFIG", "pg_config"), **variables}
    env = {it: word for it, word in os.environ.items() if it not in ("MAKEFLAGS", "MAKELEVEL", "MFLAGS")}
    ended = subprocess.run(["make", "-s", "-C", folder, *(f"{name}={it}" for name, it in found.items())], env=env, capture_output=True, text=True, check=False)
    if ended.returncode:
        raise AssertionError(ended.stdout + ended.stderr)
    return f"{folder}/boruvka.so"


def regress(server, room):
    program = os.path.normpath(f"{os.path.dirname(configured('pgxs'))}/../test/regress/pg_regress")
    words = [program, f"--inputdir={HERE}", f"--outputdir={room}", f"--bindir={server.bin}", f"--host={server.folder}/socket", "--user=tester",
             "--use-existing", "--dbname=trial", *REGRESS]
    ended = subprocess.run(words, capture_output=True, text=True, check=False)
    if ended.returncode:
        differences = f"{room}/regression.diffs"
        text = open(differences, encoding="utf-8").read() if os.path.exists(differences) else ended.stderr
        raise AssertionError(f"{ended.stdout[-1500:]}{ended.stderr[-1500:]}\n{text[:6000]}")


def with_small_batches(server, room):
    server.use(built(f"{room}/small", COPT="-DBATCH_EDGES=5 -DMAX_VERTICES=100"))
    try:
        drawn.expect_drawn(server, first=drawn.TABLES, count=100)
        trouble.expect_too_many_vertices(server, 100)
    finally:
        server.use(f"{HERE}/boruvka.so")


def readme(server, room):
    """Runs the queries of README.md in order, and compares the results that it shows."""
    with open(f"{HERE}/README.md", encoding="utf-8") as it:
        blocks = re.findall(r"^```(sql|text)\n(.*?)^```$", it.read(), re.M | re.S)
    server.expect("CREATE DATABASE page")
    has_postgis = server.expect("SELECT name FROM pg_available_extensions WHERE name = 'postgis'")
    shown = None
    for language, block in blocks:
        if language == "text":
            drawn.is_so([it.rstrip() for it in shown.splitlines() if it and not it.startswith("(")], block.splitlines())
            continue
        if "geom" in block:
            if not has_postgis:
                continue
            server.expect("CREATE EXTENSION postgis; CREATE TABLE points AS SELECT i AS id, ST_Point(i % 30 * 100 + i / 450 * 9000, i / 30 * 100) AS geom FROM generate_series(0, 899) i", "page")
        shown = server.expect(f"\\pset format aligned\n\\pset tuples_only off\n{block}", "page")
        if "geom" in block:
            drawn.is_so(re.sub(r"\s+", " ", shown).strip(), "cluster | count ---------+------- 0 | 450 450 | 450 (2 rows)")


STEPS = {
    "pg_regress": regress,
    "README": readme,
    "drawn tables": lambda server, room: drawn.expect_drawn(server),
    "drawn tables in small batches": with_small_batches,
    "pgRouting": lambda server, room: pgrouting.expect_as_pgrouting(server),
    **{it.__name__.replace("_", " "): lambda server, room, it=it: it(server) for it in trouble.SHORT},
}


def main():
    names = os.environ.get("NAMES", "")
    passed = failed = 0
    with tempfile.TemporaryDirectory(prefix="boruvka-check-") as room, Server() as server:
        for name, step in STEPS.items():
            if names and name not in names:
                continue
            begun = time.monotonic()
            try:
                why = step(server, room)
                passed += not why
                print(f"postgres: {name}: {f'skipped: {why}' if why else f'ok, {time.monotonic() - begun:.1f} s'}", flush=True)
            except (AssertionError, OSError, RuntimeError, subprocess.SubprocessError) as error:
                failed += 1
                print(f"postgres: {name}: FAILED: {error}", flush=True)
    print(f"{passed} passed, {failed} failed")
    return 1 if failed or not passed else 0


if __name__ == "__main__":
    sys.exit(main())
