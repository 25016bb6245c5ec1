#!/usr/bin/env python3
"""Compares the package for Python with references in python/tests on random cases, for some minutes.

usage: tests/soak_python.py [--minutes M] [--seed N] [--sort NAME --case I] [--drawn FOLDER] [LIBRARY]

The sorts of cases are the functions in `SORTS` of the files drawn_*.py in python/tests. Each draws a case with a generator of
numpy, and raises an error if the package is wrong.

  --minutes M     run for M minutes, which may be a fraction (default: 5)
  --seed N        draw the cases with this seed (default: random, and printed first)
  --sort NAME     run only this sort, and with --case I only that case, which depends only on the seed, the sort and I
  --drawn FOLDER  another folder with such files

The default LIBRARY is crates/boruvka_c/out/libboruvka.so. For each mismatch the script prints the error and the command that
repeats it. The last line is `N cases, M mismatches`, and the exit status is 0 only if M is 0. If no Python has numpy, nothing
is tested, and a line says so.
"""
import argparse
import glob
import importlib
import os
import random
import sys
import time
import traceback
import zlib

TESTS = os.path.dirname(os.path.realpath(__file__))
ROOT = os.path.dirname(TESTS)
INSIDE = "BORUVKA_SOAK"
sys.dont_write_bytecode = True


def sorts(folders):
    """Maps the names of all sorts to their functions."""
    sys.path[:0] = folders
    found = {}
    for path in sorted(it for folder in folders for it in glob.glob(f"{glob.escape(folder)}/drawn_*.py")):
        found.update(importlib.import_module(os.path.basename(path).removesuffix(".py")).SORTS)
    return found


def what_is_wrong(function, seed, name, number):
    """Returns what is wrong with a case, or an empty text."""
    import numpy

    try:
        function(numpy.random.default_rng([seed, zlib.crc32(name.encode()), number]))
    except Exception:
        return traceback.format_exc(limit=-2)
    return ""


def tried(given, seed):
    """Runs cases of all sorts in turn, prints the mismatches, and returns how many cases and mismatches there were."""
    found = {name: it for name, it in sorts([f"{ROOT}/python/tests", *given.drawn]).items() if given.sort in (None, name)}
    if not found:
        raise SystemExit(f"there is no sort {given.sort!r}")
    end, counts, mismatches, number = time.monotonic() + 60 * given.minutes, dict.fromkeys(found, 0), 0, given.case or 0
    while True:
        for name, function in found.items():
            why = what_is_wrong(function, seed, name, number)
            counts[name] += 1
            mismatches += bool(why)
            if why:
                print(f"soak: --seed {seed} --sort '{name}' --case {number}\n{why}", flush=True)
        number += 1
        if given.case is not None or time.monotonic() >= end:
            print(", ".join(f"{count} {name}" for name, count in counts.items()))
            return sum(counts.values()), mismatches


def main():
    parser = argparse.ArgumentParser(usage=__doc__, add_help=False)
    parser.add_argument("--minutes", type=float, default=5)
    parser.add_argument("--seed", type=int)
    parser.add_argument("--sort")
    parser.add_argument("--case", type=int)
    parser.add_argument("--drawn", action="append", default=[])
    parser.add_argument("library", nargs="?", default=f"{ROOT}/crates/boruvka_c/out/libboruvka.so")
    given = parser.parse_args()
    if INSIDE not in os.environ:
        from cases.python import python
        from cases.running import Skipped

        try:
            found = python()
        except Skipped as why:
            print(f"soak: the package for Python: skipped: {why}")
            return 0
        path = os.pathsep.join([f"{ROOT}/python", *filter(None, [os.environ.get("PYTHONPATH")])])
        env = {**os.environ, "PYTHONPATH": path, "BORUVKA_LIBRARY": os.path.realpath(given.library), INSIDE: "1"}
        os.execve(found, [found, *sys.argv], env)
    seed = random.randrange(2**32) if given.seed is None else given.seed
    print(f"seed {seed}", flush=True)
    cases, mismatches = tried(given, seed)
    print(f"{cases} cases, {mismatches} mismatches")
    return 1 if mismatches else 0


if __name__ == "__main__":
    sys.exit(main())
