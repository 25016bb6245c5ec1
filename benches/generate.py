#!/usr/bin/env python3
"""Writes a graph for benchmarks as .gr text to standard output. The same arguments give the same graph.

    generate.py grid N [SEED]      like a road network: a grid of about N vertices without a tenth of its edges. The
                                   vertices are numbered at random in blocks of 64, and both directions of an edge are
                                   next to each other.
    generate.py random N [SEED]    4 N arcs between random vertices
    generate.py dense N [SEED]     16 N arcs between random vertices
    generate.py scale-free N [SEED]  four arcs from each vertex except the first to earlier ones, which are drawn in
                                   proportion to their arcs so far: few vertices have most of the arcs
    generate.py path N [SEED]      N arcs, each from a vertex to the next, so that all are in the forest
"""
import random
import sys
from array import array


def grid(n, rng):
    side = max(1, int(n**0.5))
    n = side * side
    blocks = [list(range(at, min(at + 64, n))) for at in range(0, n, 64)]
    rng.shuffle(blocks)
    number = [0] * n
    for place, v in enumerate(v for block in blocks for v in block):
        number[v] = place + 1
    arcs = []
    for v in range(n):
        neighbours = ([v + 1] if v % side + 1 < side else []) + ([v + side] if v + side < n else [])
        for w in neighbours:
            if rng.random() < 0.9:
                weight = rng.randint(1, 10000)
                arcs.append((number[v], number[w], weight))
                arcs.append((number[w], number[v], weight))
    return n, len(arcs), arcs


def at_random(n, rng, each=4):
    return n, each * n, ((rng.randint(1, n), rng.randint(1, n), rng.randint(1, 10**6)) for _ in range(each * n))


def dense(n, rng):
    return at_random(n, rng, 16)


def scale_free(n, rng):
    def arcs():
        ends = array("I", [1])
        for v in range(2, n + 1):
            for u in [ends[rng.randrange(len(ends))] for _ in range(4)]:
                ends.extend((u, v))
                yield v, u, rng.randint(1, 10**6)

    return n, 4 * max(0, n - 1), arcs()


def path(n, rng):
    return n + 1, n, ((v, v + 1, rng.randint(-10**9, 10**9)) for v in range(1, n + 1))


def main():
    kind, n = sys.argv[1], int(sys.argv[2])
    seed = int(sys.argv[3]) if len(sys.argv) > 3 else 1
    kinds = {"grid": grid, "random": at_random, "dense": dense, "scale-free": scale_free, "path": path}
    n, count, arcs = kinds[kind](n, random.Random(seed))
    write = sys.stdout.write
    write(f"p sp {n} {count}\n")
    for u, v, weight in arcs:
        write(f"a {u} {v} {weight}\n")


main()
