#!/usr/bin/env python3
"""Tests the built program: arguments, files, streams, exit statuses, failing system calls, and failed allocations.

usage: tests/program.py [PROGRAM]

The default PROGRAM is crates/boruvka/out/boruvka. The cases are in tests/cases, by subject; running.py there explains how
they run the program. Small preloaded libraries make allocations and system calls fail (tests/refusing.c and
tests/failing.c, built by cc into a temporary folder). The commands that README.md, docs/RECIPES.md and the manual page show
are run as they are; a picture is drawn only if `dot` is installed. A case for a shell, another command, PostgreSQL, or a
Python package is skipped if that isn't installed. The last cases test tests/wrong_bodies.py, tests/gate.py and
tools/prove.py, with stand-ins for what these run. Everything else needs only Python's standard library, make, a shell with
its usual tools, and a C compiler.

The last line is `N passed, M failed`, without the skipped cases. The exit status is 0 only if no case failed.
"""
import os
import subprocess
import sys
import tempfile
import time

sys.dont_write_bytecode = True

from cases import words, progress, streams, threads, workers, sockets, calls, memory, joined, keeping, embedding, within, regions, release, python, peers, postgres, documents, tables, headline, machinery  # noqa: F401, I001 (they run in this order)
from cases.running import CASES, Program, Skipped


def main(arguments):
    Program.path = os.path.realpath(arguments[0] if arguments else Program.path)
    if len(arguments) > 1 or not os.access(Program.path, os.X_OK):
        print(f"tests/program.py: there is no program {Program.path}: `make run` builds it", file=sys.stderr)
        print(f"0 passed, {len(CASES)} failed")
        return 1
    failed = skipped = 0
    with tempfile.TemporaryDirectory(prefix="boruvka-program-") as folder:
        for number, function in enumerate(CASES):
            name = function.__name__.replace("_", " ")
            room = f"{folder}/{number}"
            os.mkdir(room)
            begun = time.monotonic()
            try:
                function(room)
                print(f"program: {name}: ok, {time.monotonic() - begun:.1f} s", flush=True)
            except Skipped as why:
                skipped += 1
                print(f"program: {name}: skipped: {why}", flush=True)
            except (AssertionError, OSError, subprocess.SubprocessError) as error:
                failed += 1
                print(f"program: {name}: FAILED: {error}", flush=True)
    print(f"{len(CASES) - failed - skipped} passed, {failed} failed")
    return 1 if failed else 0


if __name__ == "__main__":
    sys.exit(main(sys.argv[1:]))
