#!/usr/bin/env python3
"""Tests the page of web/ in Chromium, Firefox and WebKit, and its module in Node.

usage: tests/web.py [--strict] [--module FILE] [--program FILE] [--pictures FOLDER] [CASE..]

The two FILEs are boruvka.wasm and the program, by default those that `make` builds. Screenshots of the page are written
to FOLDER. Only the cases whose names contain a CASE are run, or all cases if none is given. Forests are compared with the
program's, or with those of Kruskal's algorithm in Python if the program isn't built. Cases are skipped if a browser, its
driver or Node is missing. With --strict, a skipped case fails, a time over its limit fails, and large inputs are tested
too. The last line is `N passed, M failed`, without the skipped cases, and the status is 0 if no case failed.
"""
import argparse
import os
import sys
import tempfile
import time

sys.dont_write_bytecode = True

from browsing import code, exact, pages, points, files, people, looking, reading, saving, sending, hostile, reach, node, merging, engines  # noqa: F401, I001 (they run in this order)
from browsing.page import Page
from cases.running import CASES, Program, Skipped


def tried(chosen, strict):
    """Runs these cases, and returns how many failed and how many were skipped."""
    failed = skipped = 0
    with tempfile.TemporaryDirectory(prefix="boruvka-web-") as folder:
        for number, function in enumerate(chosen):
            name = function.__name__.replace("_", " ")
            room = f"{folder}/{number}"
            os.mkdir(room)
            begun = time.monotonic()
            try:
                note = function(room)
                print(f"web: {name}: ok, {time.monotonic() - begun:.1f} s{f': {note}' if note else ''}", flush=True)
            except Skipped as why:
                failed, skipped = failed + strict, skipped + (not strict)
                print(f"web: {name}: skipped: {why}", flush=True)
            except Exception as error:  # noqa: BLE001 (the case has failed, and the others are run)
                failed += 1
                kind = "" if isinstance(error, AssertionError) else f"{type(error).__name__}: "
                print(f"web: {name}: FAILED: {kind}{error}", flush=True)
    return failed, skipped


def main():
    words = argparse.ArgumentParser(usage=__doc__.split("\n\n")[1].removeprefix("usage: "))
    words.add_argument("--strict", action="store_true")
    words.add_argument("--module", default=Page.module)
    words.add_argument("--program", default=Program.path)
    words.add_argument("--pictures")
    words.add_argument("cases", nargs="*")
    given = words.parse_args()
    for word in given.cases:
        if not any(word in it.__name__ for it in CASES):
            words.error(f"no case has {word} in its name")
    Page.module, Program.path, Page.pictures = os.path.realpath(given.module), os.path.realpath(given.program), given.pictures
    Page.strict = given.strict
    chosen = [it for it in CASES if not given.cases or any(word in it.__name__ for word in given.cases)]
    try:
        failed, skipped = tried(chosen, given.strict)
    finally:
        Page.end()
    print(f"{len(chosen) - failed - skipped} passed, {failed} failed")
    return 1 if failed else 0


if __name__ == "__main__":
    sys.exit(main())
