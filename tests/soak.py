#!/usr/bin/env python3
"""Compares the built program with a reference on random cases, for some minutes.

usage: tests/soak.py [--minutes M] [--seed N] [--case I] [--jobs J] [--self-test] [PROGRAM]

A case is a graph, a text that describes it, the program's arguments, and what fails in the run. There are six sorts:

    plain           one thread: expects the forest's text, status 0, and the report if it was asked for
    workers         over workers: expects the same, the report's equations and rounds, and no worker lost; then one thread
    failing         calls fail (tests/failing.c). If they are calls of sockets and threads, only the report changes. A
                    failed read is reported with its line, and a failed write with the bytes that were written, which are
                    a prefix of the forest's text
    out of memory   allocations fail (tests/refusing.c): expects the right output, or status 4 with its line and no output
    malformed       a valid text with bytes, fields, numbers or lines changed: expects its first error, or its forest if it
                    is still valid
    several files   a graph's arcs in two to ten files, one thread or more: expects the forest of all, or the error of the
                    first file that has one (malformed, another number of vertices, missing)

Forests are computed by Kruskal's algorithm over Python's own sort (tests/cases/running.py), and errors by a judge that was
written from docs/GR_FORMAT.md alone. A run of more than 60 s is a mismatch.

  --minutes M   run for M minutes, which may be a fraction (default: 5)
  --seed N      draw the cases with this seed (default: random, and printed first)
  --case I      run only case I, which depends only on the seed and I
  --jobs J      run J processes in parallel (default: the number of processors)
  --self-test   plant wrong outputs, each of which has to be reported as a mismatch

The default PROGRAM is crates/boruvka/out/boruvka. For each mismatch the script prints its number, what was expected, and the
folder with its arguments and files. The last line is `N cases, M mismatches`, after a line with the number of cases of each
sort. The exit status is 0 only if M is 0. A C compiler builds the two libraries.
"""
import contextlib
import io
import multiprocessing
import os
import random
import re
import shutil
import signal
import sys
import tempfile
import time
from collections import Counter

sys.dont_write_bytecode = True

from cases.running import SECONDS, Program, built, written
from soaking.comparing import Limits, expect_right, files_written, found_by, runs_of, what_is_wrong_with
from soaking.drawing import SORTS, drawn_case
from soaking.planting import PLANTS


def kept(folder, seed, number, why, case, found):
    """Writes what is known about a mismatch into a folder, and returns the folder."""
    room = f"{folder}/case-{number}"
    os.makedirs(room, exist_ok=True)
    written(f"{room}/graph.gr", case.text)
    if case.files:
        files_written(f"{room}/files", case.files)
    written(f"{room}/words", f"{case.shown()}\n--seed {seed} --case {number}\n{why}\n".encode())
    for name, text in vars(found).items() if found else ():
        written(f"{room}/{name}", text if isinstance(text, bytes) else b"%d\n" % text)
    return room


def tried(room, folder, seed, number):
    """Runs a case, reports a mismatch, and returns the case's sort and whether it was a mismatch."""
    case = drawn_case(seed, number)
    wrong = what_is_wrong_with(room, case)
    if wrong:
        place = kept(folder, seed, number, *wrong)
        print(f"soak: case {number}: {case.sort}: {wrong[1].shown()}\n    {wrong[0]}\n    kept in {place}", flush=True)
    return case.sort, bool(wrong)


def tried_until(end, folder, kept_in, seed, job, jobs):
    """Runs every `jobs`th case from `job` on, until that time. Returns the number of cases of each sort, and of mismatches."""
    signal.signal(signal.SIGINT, signal.default_int_handler)
    room = f"{folder}/{job}"
    os.makedirs(room, exist_ok=True)
    counts, mismatches, number = Counter(), 0, job
    try:
        while time.monotonic() < end:
            sort, is_wrong = tried(room, kept_in, seed, number)
            counts[sort] += 1
            mismatches += is_wrong
            number += jobs
    except KeyboardInterrupt:
        pass
    return counts, mismatches


def is_told(case, found):
    try:
        expect_right(case, found)
    except AssertionError:
        return True
    return False


def reported_plants(room, seed, times=5, most=5000):
    """Returns for each plant how often it was reported and how often planted, and how many right outputs were reported."""
    told, planted, wrongly = Counter(), Counter(), 0
    for number in range(most):
        for case in runs_of(drawn_case(seed, number)):
            found = found_by(room, case)
            wrongly += is_told(case, found)
            for name, function in PLANTS.items():
                false = function(case, found) if planted[name] < times else None
                if false:
                    planted[name] += 1
                    told[name] += is_told(case, false)
        if all(planted[name] == times for name in PLANTS):
            break
    return told, planted, wrongly


def reported_programs(room, seed):
    """Returns for each false program whether a case was reported and kept with its arguments: one hangs, others are wrong."""
    told, right, Limits.seconds = {}, Program.path, 2
    false = {"a hang": "exec sleep 30", "an end without an answer": "exit 0", "a silent failure": "exit 3"}
    for name, line in false.items():
        Program.path, printed = written(f"{room}/false", f"#!/bin/sh\n{line}\n".encode()), io.StringIO()
        os.chmod(Program.path, 0o755)
        with contextlib.redirect_stdout(printed):
            _, is_wrong = tried(room, f"{room}/kept", seed, 0)
        place = f"{room}/kept/case-0"
        told[name] = is_wrong and f"kept in {place}\n" in printed.getvalue() and os.path.exists(f"{place}/words")
        shutil.rmtree(place, ignore_errors=True)
    Program.path, Limits.seconds = right, SECONDS
    return told


def self_test(room, seed):
    """Plants wrong outputs, prints for each whether it was reported, and returns the exit status."""
    told, planted, wrongly = reported_plants(room, seed)
    of_programs = reported_programs(room, seed)
    for name in PLANTS:
        print(f"soak: {name}: reported {told[name]} of {planted[name]}")
    for name, is_wrong in of_programs.items():
        print(f"soak: {name}: {'reported' if is_wrong else 'NOT REPORTED'}")
    failed = sum(told[name] < max(1, planted[name]) for name in PLANTS) + list(of_programs.values()).count(False)
    print(f"{wrongly} right outputs were reported as wrong")
    print(f"{len(PLANTS) + len(of_programs) - failed} plants reported, {failed} not reported")
    return 1 if failed or wrongly else 0


def settings_of(words):
    """Returns what the arguments set, or None if they are invalid."""
    found = {"minutes": 5.0, "seed": None, "case": None, "jobs": os.cpu_count() or 1, "self-test": False}
    words, named = list(words), []
    while words:
        word = words.pop(0)
        number = words[0] if words and re.fullmatch(r"\d+(\.\d+)?", words[0]) else ""
        if word == "--minutes" and number:
            found["minutes"] = float(words.pop(0))
        elif word in ("--seed", "--case", "--jobs") and number.isdigit():
            found[word[2:]] = int(words.pop(0))
        elif word == "--self-test":
            found["self-test"] = True
        elif word.startswith("-"):
            return None
        else:
            named.append(word)
    if len(named) > 1 or not found["jobs"]:
        return None
    return {**found, "program": os.path.realpath(named[0] if named else Program.path)}


def soaked(settings, seed, folder):
    """Runs cases in parallel, prints their numbers, and returns the exit status."""
    kept_in = tempfile.mkdtemp(prefix="boruvka-soak-kept-")
    if settings["case"] is not None:
        sort, is_wrong = tried(f"{folder}/0", kept_in, seed, settings["case"])
        results = [(Counter([sort]), int(is_wrong))]
    else:
        end, jobs = time.monotonic() + 60 * settings["minutes"], settings["jobs"]
        signal.signal(signal.SIGINT, signal.SIG_IGN)  # the other processes end then, and report what they have
        with multiprocessing.Pool(jobs) as pool:
            results = pool.starmap(tried_until, [(end, folder, kept_in, seed, job, jobs) for job in range(jobs)], 1)
    counts, mismatches = sum((it for it, _ in results), Counter()), sum(it for _, it in results)
    if not os.listdir(kept_in):
        os.rmdir(kept_in)
    print(", ".join(f"{counts[sort]} {sort}" for sort in SORTS))
    print(f"{sum(counts.values())} cases, {mismatches} mismatches")
    return 1 if mismatches else 0


def main(words):
    settings = settings_of(words)
    if not settings:
        print(__doc__, end="", file=sys.stderr)
        return 2
    Program.path = settings["program"]
    if not os.access(Program.path, os.X_OK):
        print(f"tests/soak.py: there is no program {Program.path}: `make run` builds it", file=sys.stderr)
        return 2
    seed = random.randrange(2**32) if settings["seed"] is None else settings["seed"]
    print(f"seed {seed}", flush=True)
    with tempfile.TemporaryDirectory(prefix="boruvka-soak-") as folder:
        room = f"{folder}/0"
        os.mkdir(room)
        for name in ["failing", "refusing"]:
            built(room, name)
        return self_test(room, seed) if settings["self-test"] else soaked(settings, seed, folder)


if __name__ == "__main__":
    sys.exit(main(sys.argv[1:]))
