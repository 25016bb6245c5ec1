#!/usr/bin/env python3
"""Tests that take too long for `make installcheck`: clang-tidy, a server with little memory, each function under valgrind and
with gcc's checks of undefined behaviour, and timeouts of each function over ten million edges.

usage: tests/stress.py [WORD..]

Without arguments all steps run, otherwise those whose names contain one of these words. The last line is `N passed, M failed`.
"""
import os
import re
import subprocess
import sys
import tempfile
import time

sys.dont_write_bytecode = True

import drawn
import trouble
from installcheck import built
from server import HERE, Server, configured

TEN_MILLION = 10_000_000
FRACTIONS = [0.2, 0.35, 0.5, 0.65, 0.8, 0.9]  # of the time that a call takes without a timeout
SHAPES = {
    "sparse": "SELECT i AS id, (i * 7919) % 5000011 AS source, (i * 104729 + i / 3) % 5000011 AS target, ((i * 2654435761) % 1000003)::float8 AS cost FROM generate_series(1::bigint, {}) i",
    "dense": "SELECT i AS id, (i * 7919) % 30011 AS source, (i * 104729 + i / 3) % 30011 AS target, ((i * 2654435761) % 1000003)::float8 AS cost FROM generate_series(1::bigint, {}) i",
    "line": "SELECT i AS id, i AS source, i + 1 AS target, 1::float8 AS cost FROM generate_series(1::bigint, {}) i",
}


def timeouts(shape, name):
    """Each timeout ends a call in time. A process notices a cancel and a timeout at the same points of its code."""
    with Server(settings=["shared_buffers=256MB", "max_wal_size=8GB"]) as server:
        server.expect(f"CREATE UNLOGGED TABLE strip AS {SHAPES[shape].format(TEN_MILLION)}", seconds=3600)
        late, whole, ends = trouble.expect_timeouts(server, "strip", [name], FRACTIONS, trouble.LATE)[name]
        print(f"stress: the latest of {ends} ends was {late} s after the timeout; the whole call takes {whole} s", flush=True)


def little_address_space(room):
    """Queries that run out of memory fail with an error, and the server goes on."""
    with Server(limits="-v 600000") as server:
        server.expect(f"CREATE UNLOGGED TABLE strip_3000000 AS {SHAPES['sparse'].format(3_000_000)}")
        found = {}
        for name, call in trouble.calls("strip_3000000"):
            status, _, errors = server.psql(f"\\set VERBOSITY verbose\n{call}")
            if status and not re.search(r"ERROR:  53200: out of memory", errors):
                raise AssertionError(f"{name}: {errors}")
            found[name] = "out of memory" if status else "ended"
        if "out of memory" not in found.values():
            raise AssertionError(f"no call ran out of memory: {found}")
        server.expect("SELECT 1")


def every_function(server):
    drawn.expect_drawn(server, first=1000, count=30)
    for _, call in trouble.calls(f"({trouble.STRIP.format(3000)}) it"):
        server.expect(call)
    server.psql("SELECT * FROM boruvka_kruskal('SELECT 1 AS id, 2 AS source, 3 AS target, ''NaN''::float8 AS cost')")


def under_valgrind(room):
    os.chmod(room, 0o777)
    words = ["valgrind", "--quiet", "--trace-children=yes", f"--log-file={room}/valgrind.%p", "--num-callers=20"]
    with Server(library=built(f"{room}/small", COPT="-g -DBATCH_EDGES=50"), wrapper=words) as server:
        every_function(server)
    reports = []
    for name in os.listdir(room):
        if name.startswith("valgrind."):
            with open(f"{room}/{name}", encoding="utf-8", errors="replace") as it:
                reports += [block for block in re.split(r"\n==\d+== \n", it.read()) if "boruvka.so" in block or re.search(r"\((graph|aggregate|query|clusters|tree|cost)\.c:", block)]
    if reports:
        raise AssertionError("\n".join(reports[:5]))


def under_a_sanitizer(room):
    """Undefined behaviour in the extension's C ends the server's process."""
    with Server(library=built(f"{room}/sanitized", COPT="-g -DBATCH_EDGES=50 -fsanitize=undefined -fno-sanitize-recover=all")) as server:
        every_function(server)
        if "runtime error" in server.logged():
            raise AssertionError(server.logged()[-3000:])


# (the server requires the name _PG_init, and the ids of an edge are all numbers)
CHECKS = "-*,clang-*,bugprone-*,cert-*,concurrency-*,misc-*,performance-*,portability-*," \
    "-bugprone-reserved-identifier,-cert-dcl37-c,-cert-dcl51-cpp,-bugprone-easily-swappable-parameters"


def clang_tidy(_room):
    base = os.environ.get("HEADERS", f"{os.path.dirname(HERE)}/include")
    words = ["clang-tidy", "--quiet", "--warnings-as-errors=*", f"--checks={CHECKS}", *(it for it in os.listdir(HERE) if it.endswith(".c"))]
    words += ["--", "-std=gnu11", "-Wall", "-Wextra", "-isystem", configured("includedir-server"), f"-I{base}"]
    ended = subprocess.run(words, cwd=HERE, capture_output=True, text=True, check=False)
    if ended.returncode:
        raise AssertionError(ended.stdout[-3000:])


STEPS = {
    "clang-tidy": clang_tidy,
    "little address space": little_address_space,
    "valgrind": under_valgrind,
    "sanitizer": under_a_sanitizer,
    **{f"timeouts, {shape}, {name}": lambda room, it=(shape, name): timeouts(*it) for shape in SHAPES for name in trouble.FUNCTIONS},
}


def main(words):
    passed = failed = 0
    for name, step in STEPS.items():
        if words and not any(it in name for it in words):
            continue
        begun = time.monotonic()
        try:
            with tempfile.TemporaryDirectory(prefix="boruvka-stress-") as room:
                step(room)
            passed += 1
            print(f"stress: {name}: ok, {time.monotonic() - begun:.0f} s", flush=True)
        except (AssertionError, OSError, RuntimeError, subprocess.SubprocessError) as error:
            failed += 1
            print(f"stress: {name}: FAILED: {error}", flush=True)
    print(f"{passed} passed, {failed} failed")
    return 1 if failed or not passed else 0


if __name__ == "__main__":
    sys.exit(main(sys.argv[1:]))
