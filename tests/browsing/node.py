"""The module in Node, with examples computed by hand and with random graphs."""
import base64
import json
import os
import random
import shutil
import subprocess

from browsing.exact import modules
from browsing.files import REJECTED
from browsing.page import Page, arcs_of, forest_by_program, is_so
from cases.running import ROOT, SMALL_FOREST, SMALL_NET, Skipped, case, drawn_graph, file_of, forest_text

# The head of each script. It reads { n, links: [[u, v, weight as text], ..], text } on each line.
HEAD = """
import { readFileSync } from 'node:fs';
import { forestOfLinks, forestOfText, mergesOfLinks } from './boruvka.js';
import { linksOfGraph } from './graphs.js';
import { forestByKruskal, mergesByKruskal } from './kruskal.js';
import { grOf } from './out.js';
const module = await WebAssembly.compile(readFileSync(process.argv[2]));
const tried = call => { try { return call(); } catch (error) { return error.message; } };
const read = line => {
    const { n, links: rows, text } = JSON.parse(line);
    const links = new Uint32Array(4 * rows.length), weights = new BigInt64Array(links.buffer);
    rows.forEach(([u, v, weight], i) => { weights[2 * i] = BigInt(weight); links[4 * i + 2] = u; links[4 * i + 3] = v; });
    return { n, links, text };
};
const given = readFileSync(0, 'utf8').split('\\n').filter(Boolean).map(read);
const linksOut = links => {
    const weight = new BigInt64Array(links.buffer);
    return Array.from({ length: links.length / 4 }, (_, i) => [String(weight[2 * i]), links[4 * i + 2], links[4 * i + 3]]);
};
"""
# Here `text` is base64. For each line: the forests of the links and of the text, or their errors.
FORESTS = """
for (const { n, links, text } of given) {
    const byLinks = tried(() => linksOut(forestOfLinks(module, n, links)));
    const byText = tried(() => Buffer.from(forestOfText(module, Buffer.from(text, 'base64'))).toString('base64'));
    const graph = tried(() => linksOfGraph(Buffer.from(text, 'base64')));
    const unproved = graph.links ? Buffer.from(await grOf(graph.n, forestByKruskal(graph.n, graph.links)).text()).toString('base64') : graph;
    console.log(JSON.stringify({ byLinks, byText, unproved }));
}
"""


def results_by_node(room, script, rows):
    """The results of a script for rows of n, edges (u, v, weight) and a text."""
    node = shutil.which("node")
    if not node:
        raise Skipped("there is no node")
    if not os.path.exists(Page.module):
        raise Skipped("the module isn't built: `make wasm` builds it")
    folder = modules(room)
    with open(f"{folder}/run.js", "w", encoding="utf-8") as it:
        it.write(HEAD + script)
    lines = [json.dumps({"n": n, "links": [[u, v, str(w)] for u, v, w in arcs], "text": text}) for n, arcs, text in rows]
    ended = subprocess.run([node, "--experimental-wasm-memory64", f"{folder}/run.js", Page.module], input="\n".join(lines), capture_output=True, text=True, timeout=600, check=False)
    if ended.returncode:
        raise AssertionError(ended.stderr[-2000:])
    return [json.loads(it) for it in ended.stdout.splitlines()]


def links_in(found):
    """Edges (weight, low, high) from the output of a script, or the text of an error."""
    return [(int(weight), low, high) for weight, low, high in found] if isinstance(found, list) else found


def forests_of(room, rows):
    """For each row (n, edges, text): the module's forests of the edges and of the text, or their errors, and the forest by
    graphs.js and kruskal.js, which the page uses if a browser can't run the module."""
    found = results_by_node(room, FORESTS, [(n, arcs, base64.b64encode(text).decode()) for n, arcs, text in rows])
    for it in found:
        it["byLinks"] = links_in(it["byLinks"])
        for key in ("byText", "unproved"):
            try:
                it[key] = base64.b64decode(it[key], validate=True)
            except ValueError:
                pass
    return found


@case
def forests_in_node(room):
    with open(f"{ROOT}/examples/roads.gr", "rb") as it:
        texts = [SMALL_NET, SMALL_FOREST, it.read(), b"p sp 0 0\n", b"p sp 1 0", b"p sp 3 1\r\na 2 2 5\r\n"]
    draw = random.Random(17)
    for seed in range(60):
        n = draw.choice([1, 2, 3, 8, 60, 500])
        texts.append(drawn_graph(seed, n, draw.randint(0, 6 * n), draw.choice([0, 3, 10**6]))[0])
    ends = [-(2**63), -1, 0, 2**53 + 1, 2**63 - 1]
    texts += [file_of(9, [(draw.randint(1, 9), draw.randint(1, 9), draw.choice(ends)) for _ in range(40)]) for _ in range(10)]
    # a short text with so many vertices needs more memory than is provided at first
    texts.append(file_of(10**6, [(1, 2, 3), (2, 10**6, 5)]))
    # larger than each internal block
    texts.append(drawn_graph(99, 70000, 300000, 10**9)[0])
    rows = [(*arcs_of(it), it) for it in texts]
    for (n, _, text), found in zip(rows, forests_of(room, rows), strict=True):
        wanted = forest_by_program(text)
        is_so((found["byText"] == wanted, found["unproved"] == wanted), (True, True))
        is_so(forest_text(n, found["byLinks"]) == wanted, True)
    return f"{len(texts)} graphs"


@case
def errors_in_node(room):
    texts = [(text, error) for name, text, error in REJECTED if name.endswith(".gr")]
    links = [
        (2, [(1, 3, 4)], "an endpoint isn't a vertex"),
        (2, [(0, 1, 4)], "an endpoint isn't a vertex"),
        (2**26 + 1, [], "too many vertices"),
    ]
    rows = [(1, [], text) for text, _ in texts] + [(n, arcs, b"") for n, arcs, _ in links]
    found = forests_of(room, rows)
    for key in ("byText", "unproved"):
        is_so([it[key] for it in found[: len(texts)]], [error for _, error in texts])
    is_so([it["byLinks"] for it in found[len(texts) :]], [error for *_, error in links])
