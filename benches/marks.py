#!/usr/bin/env python3
"""Compares `boruvka` with other programs on generated graphs, interleaved, and prints tables in Markdown.

    marks.py PROGRAM BENCH [PLAIN_TIMES [WORKERS_TIMES [EARLIER]]]

PROGRAM is `boruvka`, and BENCH is `bench`, which reports how long the steps of a plain run take. `--plain` is compared with
tuned.cpp, a tuned program with one thread. Runs over workers are compared with `--plain`, with kruskal.cpp (std::sort and
union-find in one thread), and with EARLIER, another `boruvka`, if it is given. Each time is the least of PLAIN_TIMES runs
(default: 9); for runs over workers and for kruskal.cpp, of WORKERS_TIMES runs (default: 9). The programs take turns. All
outputs must be equal, and no worker may have failed.

The script needs Linux, Python 3 and a C++17 compiler (c++, or $CXX). Times are in milliseconds.
"""
import os
import re
import subprocess
import sys
import tempfile

# write no folder of compiled modules here
sys.dont_write_bytecode = True

from run import GRAPHS, HERE, bytes_of, least, parts_of, run

# workers and shards of each run over workers; the second is the default
SETTINGS = [(2, 2), (2, 64), (4, 4)]


def built(folder, name, *words):
    """Compiles one of the sources in this folder, and returns the program."""
    path = os.path.join(folder, name)
    command = [os.environ.get("CXX", "c++"), "-O2", "-std=c++17", *words, "-o", path, os.path.join(HERE, f"{name}.cpp")]
    subprocess.run(command, check=True)
    return path


def looped():
    """Returns how many bytes the loopback device has received."""
    with open("/proc/net/dev", encoding="ascii") as lines:
        return next(int(line.split()[1]) for line in lines if line.split()[0] == "lo:")


class Programs:
    def __init__(self, folder, program, bench, earlier):
        self.program, self.bench, self.earlier = program, bench, earlier
        self.tuned, self.kruskal = built(folder, "tuned", "-static"), built(folder, "kruskal")


class Measured:
    """A graph, its forest, and the least times so far, in milliseconds."""

    def __init__(self, folder, kind, n, programs):
        self.name, self.programs = f"{kind}, {n:,}", programs
        self.graph, self.answer = (os.path.join(folder, f"{kind}_{n}_{name}") for name in ("graph", "answer"))
        with open(self.graph, "wb") as out:
            subprocess.run([sys.executable, os.path.join(HERE, "generate.py"), kind, str(n)], stdout=out, check=True)
        with open(self.graph, "rb") as text:
            self.arcs = int(text.readline().split()[3])
        self.whole, self.parts = {}, {}
        # one default run, for the bytes that it sends, and for the output that all others have to have
        before = looped()
        _, told = run([programs.program, "--report"], self.graph, self.answer)
        self.bytes, self.rounds = looped() - before, int(re.search(r"rounds=(\d+)", told)[1]) + 1

    def time(self, what, command):
        """Runs a command on the graph, keeps its time if it is the least, and returns what it wrote to standard error."""
        answer = self.answer + "_now"
        took, told = run(command, self.graph, answer)
        if bytes_of(answer) != bytes_of(self.answer):
            sys.exit(f"{self.name}, {' '.join(command)}: the outputs differ")
        self.whole[what] = min(took, self.whole.get(what, took))
        return told

    def keep_parts(self, what, parts):
        self.parts[what] = least(parts, self.parts.get(what, parts))

    def take_plain_turn(self):
        self.time("plain", [self.programs.program, "--plain"])
        told = self.time("steps", [self.programs.bench])
        self.keep_parts("plain", [part / 1000 for part in parts_of(told)])
        self.keep_parts("tuned", parts_of(self.time("tuned", [self.programs.tuned, "--times"])))

    def take_workers_turn(self):
        self.time("kruskal", [self.programs.kruskal])
        for setting in SETTINGS:
            self.time_workers(setting, setting, self.programs.program)
            if self.programs.earlier:
                self.time_workers(("earlier", *setting), setting, self.programs.earlier)

    def time_workers(self, what, setting, program):
        workers, shards = setting
        told = self.time(what, [program, "--workers", str(workers), "--shards", str(shards), "--report"])
        if " alone=0 closed=0 " not in told:
            sys.exit(f"{self.name}, {named(setting)}: a worker failed")


def shown(milliseconds):
    """Formats milliseconds, with one decimal if they are few."""
    return f"{milliseconds:,.1f}" if milliseconds < 10 else f"{milliseconds:,.0f}"


def print_row(*cells):
    print("| " + " | ".join(cells) + " |")


def print_head(*cells):
    print_row(*cells)
    print("|" + "---|" * len(cells))


def with_ratio(ours, mark):
    """Formats two times and their ratio."""
    return f"{shown(ours)}, {shown(mark)}: {ours / mark:.2f}"


def print_plain(graphs):
    print_head("Graph", "Whole: `--plain`, tuned, ratio", "Reading", "Solving", "Writing")
    for graph in graphs:
        parts = [with_ratio(ours, mark) for ours, mark in zip(graph.parts["plain"], graph.parts["tuned"])]
        print_row(graph.name, with_ratio(graph.whole["plain"], graph.whole["tuned"]), *parts)


def named(setting):
    workers, shards = setting
    return f"{workers} workers, {shards} shards"


def print_settings(graphs, earlier):
    """Formats the runs over workers, each with its ratio to `--plain`, kruskal.cpp and the earlier program."""
    marks = "`--plain`, C++" + (", earlier" if earlier else "")
    settings = [f"{named(setting)}; times {marks}" for setting in SETTINGS]
    print_head("Graph", "`--plain`", "C++", *settings, "Rounds", "MB sent by default")
    for graph in graphs:
        cells = [shown(graph.whole[each]) for each in ("plain", "kruskal")]
        for setting in SETTINGS:
            ours, others = graph.whole[setting], [graph.whole["plain"], graph.whole["kruskal"]]
            others += [graph.whole["earlier", *setting]] if earlier else []
            cells.append(f"{shown(ours)}; " + ", ".join(f"{ours / other:.2f}" for other in others))
        print_row(graph.name, *cells, str(graph.rounds), f"{graph.bytes / 1e6:,.1f}")


def print_growth(graphs):
    settings = {"plain": "`--plain`", "tuned": "tuned", **{setting: named(setting) for setting in SETTINGS}}
    print_head("Time per arc, from the graph of 10^5 to that of 10^6", *settings.values())
    for kind in ("grid", "random"):
        small, large = graphs[kind, 10**5], graphs[kind, 10**6]
        growths = (large.whole[each] / large.arcs / (small.whole[each] / small.arcs) for each in settings)
        print_row(kind, *(f"{growth:.2f}" for growth in growths))


def main():
    program, bench = (os.path.abspath(path) for path in sys.argv[1:3])
    plain_times = int(sys.argv[3]) if len(sys.argv) > 3 else 9
    workers_times = int(sys.argv[4]) if len(sys.argv) > 4 else 9
    earlier = os.path.abspath(sys.argv[5]) if len(sys.argv) > 5 else None
    before = os.getloadavg()[0]
    with tempfile.TemporaryDirectory() as folder:
        programs = Programs(folder, program, bench, earlier)
        graphs = {(kind, n): Measured(folder, kind, n, programs) for kind, n in GRAPHS}
        # All graphs in each turn, so that a slow minute of the machine affects all of them.
        for turn in range(max(plain_times, workers_times)):
            for graph in graphs.values():
                if turn < plain_times:
                    graph.take_plain_turn()
                if turn < workers_times:
                    graph.take_workers_turn()
    print_plain(graphs.values())
    print()
    print_settings(graphs.values(), earlier)
    print()
    print_growth(graphs)
    print(f"\nLoad {before:.1f} before and {os.getloadavg()[0]:.1f} after, on {os.cpu_count()} processors.")


if __name__ == "__main__":
    main()
