#!/usr/bin/env python3
"""Compares the times of `boruvka --plain`, with one thread and several, with those of the C++ program on generated graphs.
The runs are interleaved, and the script prints the least times.

    run.py PROGRAM BENCH [TIMES]

PROGRAM is `boruvka`, and BENCH is `bench`, which does the same and reports how long reading, solving and writing take. The
script needs Python 3, a C++17 compiler (c++, or $CXX) and GNU time. The outputs of all programs must be equal.
"""
import os
import re
import subprocess
import sys
import tempfile
import time

GRAPHS = [("grid", 10**5), ("grid", 10**6), ("grid", 4 * 10**6), ("random", 10**5), ("random", 10**6), ("dense", 10**6), ("scale-free", 2 * 10**6), ("path", 10**6)]
THREADS = (2, 4)
HERE = os.path.dirname(os.path.abspath(__file__))


def run(command, graph, answer):
    """Returns the milliseconds that a run took, and what it wrote to standard error."""
    with open(graph, "rb") as given, open(answer, "wb") as taken:
        start = time.perf_counter()
        ended = subprocess.run(command, stdin=given, stdout=taken, stderr=subprocess.PIPE, check=True)
        return (time.perf_counter() - start) * 1000, ended.stderr.decode()


def peak_of(command, graph, answer):
    """Returns the peak memory of a run in KiB."""
    _, told = run(["/usr/bin/time", "-f", "%M", *command], graph, answer)
    return int(told.split()[-1])


def bytes_of(path):
    with open(path, "rb") as file:
        return file.read()


def parts_of(told):
    return [float(number) for number in re.findall(r"[\d.]+", told)]


def least(before, now):
    return [min(a, b) for a, b in zip(before, now)]


def shown(parts):
    return "read {:.0f}, solve {:.0f}, write {:.0f}".format(*parts)


class Measured:
    """A graph, its forest, and the least times so far."""

    def __init__(self, folder, kind, n, programs):
        self.kind, self.n, self.programs = kind, n, programs
        names = ("graph", "ours", "stepped", "theirs", "counted")
        self.graph, self.ours, self.stepped, self.theirs, self.counted = (
            os.path.join(folder, f"{kind}_{n}_{name}") for name in names
        )
        with open(self.graph, "wb") as out:
            subprocess.run([sys.executable, os.path.join(HERE, "generate.py"), kind, str(n)], stdout=out, check=True)
        with open(self.graph, "rb") as text:
            self.arcs = int(text.readline().split()[3])
        program, _, kruskal = programs
        self.peak, self.peak_cpp = peak_of([program, "--plain"], self.graph, self.ours), peak_of([kruskal], self.graph, self.theirs)
        self.whole, self.whole_cpp, self.count = 1e9, 1e9, 1e9
        self.parts, self.parts_cpp = [1e9] * 3, [1e9] * 3
        self.by_threads = dict.fromkeys(THREADS, 1e9)

    def take_turn(self):
        program, bench, kruskal = self.programs
        self.whole = min(self.whole, run([program, "--plain"], self.graph, self.ours)[0])
        took, told = run([kruskal], self.graph, self.theirs)
        self.whole_cpp, self.parts_cpp = min(self.whole_cpp, took), least(self.parts_cpp, parts_of(told))
        _, told = run([bench], self.graph, self.stepped)
        self.parts = least(self.parts, [part / 1000 for part in parts_of(told)])
        self.count = min(self.count, run(["wc", "-l"], self.graph, self.counted)[0])
        for threads, before in self.by_threads.items():
            took, _ = run([program, "--plain", "--threads", str(threads)], self.graph, self.counted)
            self.by_threads[threads] = min(before, took)
            if not bytes_of(self.counted) == bytes_of(self.ours):
                sys.exit(f"{self.kind} {self.n}: the output by {threads} threads differs")
        if not bytes_of(self.ours) == bytes_of(self.stepped) == bytes_of(self.theirs):
            sys.exit(f"{self.kind} {self.n}: the outputs differ")

    def print_results(self):
        size, size_out = os.path.getsize(self.graph) / 1e6, os.path.getsize(self.ours) / 1e6
        read, solve, write = self.parts
        print(f"{self.kind} {self.n}: {self.arcs} arcs, {size:.1f} MB in, {size_out:.1f} MB out")
        print(f"    boruvka {self.whole:.0f} ms ({shown(self.parts)}), {self.peak} KiB; reads {size / read * 1000:.0f} MB/s, writes {size_out / write * 1000:.0f} MB/s")
        told = [f"{threads} threads {took:.0f} ms ({took / self.whole:.2f})" for threads, took in self.by_threads.items()]
        print(f"    by {', '.join(told)}")
        print(f"    C++     {self.whole_cpp:.0f} ms ({shown(self.parts_cpp)}), {self.peak_cpp} KiB")
        print(f"    ratio   {self.whole / self.whole_cpp:.2f}, of solving {solve / self.parts_cpp[1]:.2f}; wc -l {self.count:.1f} ms")


def main():
    program, bench = (os.path.abspath(path) for path in sys.argv[1:3])
    times = int(sys.argv[3]) if len(sys.argv) > 3 else 9
    with tempfile.TemporaryDirectory() as folder:
        kruskal = os.path.join(folder, "kruskal")
        source = os.path.join(HERE, "kruskal.cpp")
        subprocess.run([os.environ.get("CXX", "c++"), "-O2", "-std=c++17", "-o", kruskal, source], check=True)
        graphs = {(kind, n): Measured(folder, kind, n, (program, bench, kruskal)) for kind, n in GRAPHS}
        # All graphs in each turn, so that a slow minute of the machine affects all of them.
        for _ in range(times):
            for graph in graphs.values():
                graph.take_turn()
        for graph in graphs.values():
            graph.print_results()
    for kind in ("grid", "random"):
        small, large = graphs[kind, 10**5], graphs[kind, 10**6]
        growth, growth_cpp = (
            after / large.arcs / (before / small.arcs)
            for before, after in ((small.whole, large.whole), (small.whole_cpp, large.whole_cpp))
        )
        print(f"{kind}: time per arc grows {growth:.2f} times, C++ {growth_cpp:.2f} times, ratio {growth / growth_cpp:.2f}")


if __name__ == "__main__":
    main()
