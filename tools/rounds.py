#!/usr/bin/env python3
"""Draws Borůvka's rounds over points in nine clouds: docs/rounds.svg, by default.

usage: tools/rounds.py [INTO]

Each panel is a round. A strong line joins each component to its nearest neighbour, and the components so merged have one
colour. The same version of this file gives the same bytes.
"""
import math
import os
import sys

sys.dont_write_bytecode = True

ROOT = os.path.dirname(os.path.dirname(os.path.realpath(__file__)))
POINTS, CLOUDS = 180, 9
SIDE, GAP, FOOT, COLUMNS = 230, 18, 22, 3
HUES = 12
GOLDEN = 137.508
# colours of components, new edges and text: on light paper, and on dark
LOOKS = [("", "oklch(55% .15 {})", "#1c1b19", "#67635b"), ("@media (prefers-color-scheme: dark)", "oklch(74% .14 {})", "#eceae4", "#a0a4ae")]


def units(word):
    """Yields numbers from 0 to 1, the same for the same seed (Marsaglia's xorshift of 32 bits)."""
    while True:
        word ^= (word << 13) & 0xFFFFFFFF
        word ^= word >> 17
        word ^= (word << 5) & 0xFFFFFFFF
        yield word / 2**32


def drawn():
    """Returns the points, scaled to fill a panel."""
    unit, points = units(2463534242), []
    clouds = [(next(unit), 0.8 * next(unit), 0.03 + 0.08 * next(unit)) for _ in range(CLOUDS)]
    for i in range(POINTS):
        x, y, size = clouds[i % CLOUDS]
        far, turn = size * math.sqrt(-math.log(next(unit) + 1e-3)), 2 * math.pi * next(unit)
        points.append((x + far * math.cos(turn), y + far * math.sin(turn)))
    low = [min(axis) for axis in zip(*points)]
    most = max(max(axis) - least for axis, least in zip(zip(*points), low))
    return [tuple(round(4 + (SIDE - 8) * (it - least) / most, 1) for it, least in zip(point, low)) for point in points]


def root(parent, v):
    while parent[v] != v:
        parent[v] = parent[parent[v]]
        v = parent[v]
    return v


def rounds(points):
    """For each round, returns the edges that it takes, and each point's component after it. A component is named after its
    largest part."""
    pairs = sorted((math.dist(one, points[v]), u, v) for u, one in enumerate(points) for v in range(u + 1, len(points)))
    parent, size = list(range(len(points))), [1] * len(points)
    while max(size) < len(points):
        first = {}
        for link in pairs:
            ends = [root(parent, it) for it in link[1:]]
            if ends[0] != ends[1]:
                for it in ends:
                    first.setdefault(it, link)
        for _, u, v in set(first.values()):
            small, large = sorted((root(parent, u), root(parent, v)), key=lambda it: (size[it], -it))
            parent[small] = large
            size[large] += size[small]
        yield sorted(set(first.values())), [root(parent, v) for v in range(len(points))]


def panel(points, before, links, pieces, number):
    """Draws one round: its new edges, the edges of the rounds before, and the points."""
    line = lambda u, v: f"M{points[u][0]:g} {points[u][1]:g}L{points[v][0]:g} {points[v][1]:g}"  # noqa: E731
    if links:
        yield f'<path class="new" d="{"".join(line(u, v) for _, u, v in links)}"/>'
    inks = {}
    for _, u, v in before:
        inks.setdefault(pieces[u] % HUES, [[], []])[0].append(line(u, v))
    for v, (x, y) in enumerate(points):
        inks.setdefault(pieces[v] % HUES, [[], []])[1].append(f"M{x:g} {y:g}h0")
    for hue, (old, dots) in sorted(inks.items()):
        if old:
            yield f'<path class="h{hue} old" d="{"".join(old)}"/>'
        yield f'<path class="h{hue} dot" d="{"".join(dots)}"/>'
    count = len(set(pieces))
    told = f"{count} points" if not number else f"round {number}: {count} piece{'s' if count > 1 else ''}"
    yield f'<text x="{SIDE / 2:g}" y="{SIDE + 16}">{told}</text>'


def style():
    yield "path{fill:none;stroke-linecap:round}.dot{stroke-width:4.5}.old{stroke-width:1.6}.new{stroke-width:1.6}text{font:13px system-ui,sans-serif;text-anchor:middle}"
    for media, piece, ink, soft in LOOKS:
        rules = "".join(f".h{hue}{{stroke:{piece.format(round(25 + GOLDEN * hue) % 360)}}}" for hue in range(HUES))
        text = f"{rules}.new{{stroke:{ink}}}text{{fill:{soft}}}"
        yield f"{media}{{{text}}}" if media else text


def picture():
    points, before = drawn(), []
    panels = [list(panel(points, [], [], list(range(POINTS)), 0))]
    for number, (links, pieces) in enumerate(rounds(points), 1):
        panels.append(list(panel(points, before, links, pieces, number)))
        before = before + links
    rows = -(-len(panels) // COLUMNS)
    yield f'<svg xmlns="http://www.w3.org/2000/svg" viewBox="0 0 {COLUMNS * (SIDE + GAP) - GAP} {rows * (SIDE + FOOT + GAP) - GAP}">'
    yield f"<title>Borůvka's rounds over {POINTS} points</title>"
    yield f"<style>{''.join(style())}</style>"
    for i, parts in enumerate(panels):
        yield f'<g transform="translate({i % COLUMNS * (SIDE + GAP)} {i // COLUMNS * (SIDE + FOOT + GAP)})">'
        yield from parts
        yield "</g>"
    yield "</svg>"


def main(words):
    if len(words) > 1:
        print(__doc__.split("\n\n")[1], file=sys.stderr)
        return 2
    with open(words[0] if words else f"{ROOT}/docs/rounds.svg", "w", encoding="utf-8") as it:
        it.writelines(f"{line}\n" for line in picture())
    return 0


if __name__ == "__main__":
    sys.exit(main(sys.argv[1:]))
