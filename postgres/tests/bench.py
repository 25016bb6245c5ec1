#!/usr/bin/env python3
"""Times the extension and pgRouting on three tables, in turn, and prints the least times and the highest peaks.

usage: tests/bench.py [TURNS [TABLE..]]

Each call has its own session, which has read a row of the table before. Processor time and peak memory are those of the
session's process: the workers of a parallel plan are not included, and neither are shared pages. Without arguments, each call
runs 3 times on each table.
"""
import re
import sys

sys.dont_write_bytecode = True

from server import Server

SIDE = 708
TABLES = {
    "random": "SELECT i AS id, (random() * 200000)::bigint AS source, (random() * 200000)::bigint AS target, random() AS cost FROM generate_series(1::bigint, 1000000) i",
    "grid": f"""SELECT row_number() OVER () AS id, y * {SIDE} + x AS source, CASE WHEN down THEN (y + 1) * {SIDE} + x ELSE y * {SIDE} + x + 1 END AS target,
        (50 + floor(random() * 100)) / 10 AS cost FROM generate_series(0::bigint, {SIDE - 1}) y, generate_series(0::bigint, {SIDE - 1}) x, (VALUES (false), (true)) it (down)
        WHERE CASE WHEN down THEN y ELSE x END < {SIDE - 1}""",
    "dense": "SELECT i AS id, (random() * 20000)::bigint AS source, (random() * 20000)::bigint AS target, random() AS cost FROM generate_series(1::bigint, 4000000) i",
}
CALLS = {
    "scan alone": (0, "SELECT count(*), sum(cost), sum(source), sum(target) FROM {}"),
    "pgr_kruskal": (0, "SELECT count(*), sum(cost)::numeric(20, 3) FROM pgr_kruskal('SELECT id, source, target, cost FROM {}')"),
    "boruvka_kruskal": (0, "SELECT count(*), sum(cost)::numeric(20, 3) FROM boruvka_kruskal('SELECT id, source, target, cost FROM {}')"),
    "boruvka_forest": (0, "SELECT cardinality(boruvka_forest(id, source, target, cost)) FROM {}"),
    "boruvka_forest, 2 workers": (2, "SELECT cardinality(boruvka_forest(id, source, target, cost)) FROM {}"),
}
# Milliseconds of processor time and kB of memory so far.
USED = """SELECT (split_part(stat, ' ', 14)::int + split_part(stat, ' ', 15)::int) * 10,
    substring(status FROM 'VmHWM:\\s+(\\d+)')::int - substring(status FROM 'RssShmem:\\s+(\\d+)')::int
    FROM pg_read_file('/proc/self/stat') stat, pg_read_file('/proc/self/status') status"""


def measured(server, table, workers, call):
    """Milliseconds of elapsed time, milliseconds of processor time, megabytes, and what the call returned."""
    script = f"SET max_parallel_workers_per_gather = {workers};\nSELECT 1 FROM {table} LIMIT 1;\n{USED};\n\\timing on\n{call.format(table)};\n\\timing off\n{USED};\n"
    _, before, answer, time, after = server.expect(script, seconds=3600).splitlines()
    (began, _), (ended, peak) = (map(int, it.split("|")) for it in (before, after))
    return float(re.match(r"Time: ([\d.]+) ms", time)[1]), ended - began, peak / 1024, answer


def main(arguments):
    turns = int(arguments[0]) if arguments else 3
    with Server(settings=["shared_buffers=512MB", "autovacuum=off", "max_parallel_workers=8", "work_mem=4MB"]) as server:
        server.expect("CREATE EXTENSION pgrouting CASCADE")
        for table in arguments[1:] or TABLES:
            server.expect(f"SELECT setseed(0.5); CREATE TABLE {table} AS {TABLES[table]}; VACUUM ANALYZE {table}", seconds=3600)
            found = {name: [] for name in CALLS}
            for _ in range(turns):
                for name, (workers, call) in CALLS.items():
                    found[name].append(measured(server, table, workers, call))
            best = {name: (min(it[0] for it in turns), min(it[1] for it in turns), max(it[2] for it in turns)) for name, turns in found.items()}
            for name, (elapsed, used, peak) in best.items():
                parts = [mine / theirs for mine, theirs in zip((elapsed, used, peak), best["pgr_kruskal"], strict=True)]
                print(f"{table}: {name}: {elapsed:.0f} ms, {parts[0]:.3f} of pgr_kruskal's; {used} ms of processor time, {parts[1]:.3f}; "
                      f"{peak:.0f} MB, {parts[2]:.3f}; {found[name][0][3]}", flush=True)


if __name__ == "__main__":
    main(sys.argv[1:])
