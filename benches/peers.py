#!/usr/bin/env python3
"""Compares `boruvka --plain` with LEMON and igraph on generated graphs, interleaved, and prints the least times.

    peers.py PROGRAM [TIMES]

LEMON reads, solves and writes the file as the program does (benches/lemon.cpp). igraph only solves: its time is that of
`spanning_tree` on a graph that is already in memory. It needs Python 3, a C++17 compiler (c++, or $CXX), LEMON's headers,
and python3-igraph. What is missing is left out. All total weights have to be equal.
"""
import importlib.util
import os
import re
import subprocess
import sys
import tempfile
import time

GRAPHS = [("grid", 10**5), ("grid", 10**6), ("random", 10**6), ("dense", 10**6), ("scale-free", 10**6)]
HERE = os.path.dirname(os.path.abspath(__file__))


def seconds(command, graph):
    """Returns the time of a whole run, and what it wrote to standard error."""
    with open(graph, "rb") as given:
        begun = time.perf_counter()
        ended = subprocess.run(command, stdin=given, stdout=subprocess.DEVNULL, stderr=subprocess.PIPE, check=True)
        return time.perf_counter() - begun, ended.stderr.decode()


def lemon(folder):
    """Returns the program over LEMON, or None if it can't be built."""
    path = os.path.join(folder, "lemon")
    words = [os.environ.get("CXX", "c++"), "-O3", "-std=c++17", "-o", path, os.path.join(HERE, "lemon.cpp")]
    return path if subprocess.run(words, stderr=subprocess.DEVNULL, check=False).returncode == 0 else None


def igraph_of(path):
    """Returns the graph of a file for igraph, and its weights."""
    import igraph

    edges, weights, n = [], [], 0
    with open(path, encoding="ascii") as lines:
        for line in lines:
            fields = line.split()
            if fields[0] == "p":
                n = int(fields[2])
            elif fields[0] == "a" and fields[1] != fields[2]:
                edges.append((int(fields[1]) - 1, int(fields[2]) - 1))
                weights.append(int(fields[3]))
    return igraph.Graph(n=n, edges=edges), weights


def total_of(told):
    return int(re.search(r"total=(-?\d+)", told)[1])


def main():
    program, times = sys.argv[1], int(sys.argv[2]) if len(sys.argv) > 2 else 9
    with tempfile.TemporaryDirectory() as folder:
        peer, has_igraph = lemon(folder), importlib.util.find_spec("igraph") is not None
        for kind, n in GRAPHS:
            path = os.path.join(folder, "graph")
            with open(path, "wb") as into:
                subprocess.run([sys.executable, os.path.join(HERE, "generate.py"), kind, str(n)], stdout=into, check=True)
            graph, weights = igraph_of(path) if has_igraph else (None, None)
            ours, theirs, third, totals = [], [], [], set()
            for _ in range(times):
                took, told = seconds([program, "--plain", "--report"], path)
                ours.append(took)
                totals.add(total_of(told))
                if peer:
                    took, told = seconds([peer], path)
                    theirs.append(took)
                    totals.add(total_of(told))
                if graph:
                    begun = time.perf_counter()
                    tree = graph.spanning_tree(weights, return_tree=False)
                    third.append(time.perf_counter() - begun)
                    totals.add(sum(weights[it] for it in tree))
            if len(totals) != 1:
                raise SystemExit(f"{kind} {n}: the totals differ: {totals}")
            line = f"{kind} {n}: --plain {1000 * min(ours):.0f} ms"
            for name, found in [("LEMON", theirs), ("igraph, solving alone", third)]:
                if found:
                    line += f"; {name} {1000 * min(found):.0f} ms, ratio {min(ours) / min(found):.2f}"
            print(line, flush=True)


if __name__ == "__main__":
    main()
