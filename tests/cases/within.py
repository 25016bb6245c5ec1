"""The library libboruvka_within.a and the module boruvka.wasm: calls in caller-provided memory. Their results are compared with
the program's output and with forests that are computed here."""
import os
import re
import shutil
import subprocess

from cases.embedding import ENVIRONMENT, ERRORS, INCLUDE, MALFORMED, MINUTES, NO_CODE, TEXTS, compiler, libraries, listed, worked
from cases.running import ROOT, SMALL_FOREST, SMALL_NET, Skipped, case, drawn_graph, expect, forest_text, ran, run

BUILT = f"{ROOT}/crates/boruvka_within/out"
NAMES = {"boruvka_bad_end_within", "boruvka_bad_link_within", "boruvka_fault_text_within", "boruvka_forest_text_within", "boruvka_forest_within",
         "boruvka_labels_within", "boruvka_merges_within", "boruvka_places_within", "boruvka_release_within"}
CALLED = {"memcpy", "memmove", "memset"}


def library():
    """Returns the library, which is built with the others."""
    libraries()
    return f"{BUILT}/libboruvka_within.a"


def module():
    """Builds the module if it isn't built, and returns its path."""
    status, said, told = run(["make", "-s", "-C", ROOT, "wasm"], env=ENVIRONMENT, seconds=60 * MINUTES)
    expect((status, said, told if status else b""), 0, b"built crates/boruvka_within/out/boruvka.wasm\n", b"")
    return f"{BUILT}/boruvka.wasm"


# The calls of the table in include/boruvka.h, the element that it counts for each, and names for its figures.
FIGURES = [
    ("forest", "link", ("A_LINK", "A_VERTEX")), ("places", "arc", ("PLACED_LINK", "PLACED_VERTEX")), ("labels", "link", ("A_LINK", "A_VERTEX")),
    ("merges", "link", ("MERGED_LINK", "MERGED_VERTEX")), ("forest_text", "byte of the text", ("A_BYTE", "A_VERTEX")),
]


def figures():
    """Returns the amounts of memory that include/boruvka.h calls enough, by name."""
    with open(f"{ROOT}/include/boruvka.h", encoding="utf-8") as it:
        text = " ".join(it.read().replace("\n *", "\n").split())
    found = {"MORE": int(re.search(r"These are enough, with (\d+) bytes more for each call", text)[1])}
    for call, of, names in FIGURES:
        told = re.search(rf"boruvka_{call}_within (\d+) bytes per {of} and (\d+) per vertex", text).groups()
        for name, figure in zip(names, map(int, told)):
            expect((found.setdefault(name, figure), b"", b""), figure, b"", b"")
    return found


def enough():
    """Returns the same as arguments for a compiler."""
    return [f"-D{name}={figure}" for name, figure in figures().items()]


def caller(room):
    """Returns the program of tests/cases/embedding.c with the calls in given memory, which is built once."""
    made = f"{room}/../within"
    if not os.path.exists(made):
        words = [compiler(), "-O1", "-Wall", "-Wextra", "-Werror", INCLUDE, "-include", f"{ROOT}/tests/cases/within.h", "-o", made]
        expect(run([*words, f"{ROOT}/tests/cases/embedding.c", library(), libraries()[0], "-lpthread"]), 0, b"", b"")
    return made


def by_node():
    """Returns the command that calls the module, if Node has 64-bit memory."""
    node = shutil.which("node")
    if not node or run([node, "--experimental-wasm-memory64", "-e", ""])[0]:
        raise Skipped("no node is there that takes --experimental-wasm-memory64")
    return [node, "--experimental-wasm-memory64", "--no-warnings", f"{ROOT}/tests/cases/within.mjs", module()]


def expect_results(of):
    """Lists, texts in buffers of several sizes, and malformed texts give the same as in the program."""
    expect(run(of("list"), listed(SMALL_NET)), 0, SMALL_FOREST, b"")
    for seed, vertices, arcs in [(1, 1, 3), (2, 9, 0), (3, 40, 30), (4, 300, 900), (5, 50, 4000), (6, 5000, 9000)]:
        source, forest = drawn_graph(seed, vertices, arcs)
        expect(ran(["--plain"], source), 0, forest, b"")
        expect(run(of("list"), listed(source)), 0, forest, b"")
        for size in {0, 1, len(forest) - 1, len(forest), len(forest) + 9}:
            expect(run(of("text", str(size)), source), 0, forest[:size], f"{len(forest)} 0 0 {NO_CODE}\n".encode())
    for vertices, arcs, forest in worked():
        source = "".join(" ".join(map(str, it)) + "\n" for it in [(vertices, len(arcs)), *arcs]).encode()
        expect(run(of("list"), source), 0, forest_text(vertices, [(weight, low, high) for low, high, weight in forest]), b"")
    with open(f"{ROOT}/include/boruvka.h", encoding="utf-8") as it:
        codes = {name.replace("_", "").lower(): int(code) for name, code in re.findall(r"BORUVKA_(\w+) = (-\d+)", it.read())}
    for source, kind, line in MALFORMED:
        code = codes[kind.lower()]
        expect(run(of("text", "100"), source), 0, b"", b"%d %d %d %s\n" % (code, code, line, kind.encode()))


def merged(vertices, links):
    """Returns the merges of links, computed with whole sets of vertices, the lower cluster first."""
    clusters = {end - 1: {end} for low, high, _ in links for end in (low, high)}
    rows = []
    for place, (low, high, _) in enumerate(links):
        one, other = (next(name for name, members in clusters.items() if end in members) for end in (low, high))
        clusters[vertices + place] = clusters.pop(one) | clusters.pop(other)
        rows.append((min(one, other), max(one, other), len(clusters[vertices + place])))
    return rows


@case
def the_library_within_memory_calls_nothing_else(room):
    archive = library()
    if not shutil.which("nm"):
        raise Skipped("no nm is there")
    found = subprocess.run(["nm", archive], check=True, capture_output=True, text=True).stdout
    expect((set(re.findall(r" [TWBDVR] (\S+)", found)), b"", b""), NAMES, b"", b"")
    expect((set(re.findall(r" U (\S+)", found)) - CALLED, b"", b""), set(), b"", b"")


@case
def the_example_without_malloc(room):
    words = [compiler(), "-std=c99", "-pedantic", "-Wall", "-Wextra", "-Werror", INCLUDE, "-o", f"{room}/within", f"{ROOT}/examples/embed/within.c"]
    expect(run([*words, library()]), 0, b"", b"")
    expect(run([f"{room}/within"]), 0, SMALL_FOREST, b"")


@case
def each_size_of_memory(room):
    expect(run([compiler(), "-O1", "-Wall", "-Wextra", "-Werror", INCLUDE, *enough(), "-o", f"{room}/sizes", f"{ROOT}/tests/cases/within.c", library()]), 0, b"", b"")
    expect(run([f"{room}/sizes", "sizes"]), 0, b"", b"")
    expect(run([f"{room}/sizes", "enough"]), 0, b"", b"")


def least(room, shape, vertices, arcs):
    """Returns for each call on a graph the least memory, and the peak with malloc (tests/cases/least.c, built once)."""
    made = f"{room}/../least"
    if not os.path.exists(made):
        wrapped = [f"-Wl,--wrap={it}" for it in ("malloc", "realloc", "free")]
        words = [compiler(), "-O1", "-Wall", "-Wextra", "-Werror", INCLUDE, *enough(), *wrapped, "-o", made, f"{ROOT}/tests/cases/least.c"]
        expect(run([*words, library(), libraries()[0]]), 0, b"", b"")
    status, output, errors = run([made, shape, str(vertices), str(arcs)], seconds=300)
    expect((status, b"", errors), 0, b"", b"")
    found = [int(it) for it in output.split()[3:]]
    return dict(zip(("list", "text", "merges", "places", "labels"), zip(found[::2], found[1::2]), strict=True))


@case
def the_least_memory_compared_with_malloc(room):
    """It is at most 1.5 times as much, for these graphs of more than a few links; for indices 1.6 times as much."""
    for graph in [("grid", 10_000, 0), ("drawn", 1000, 20_000)]:
        for call, (found, peak) in least(room, *graph).items():
            most = 16 if call == "places" else 15
            if not 0 < 10 * found <= most * peak:
                raise AssertionError(f"{graph}, {call}: {found} bytes are more than {most / 10} times {peak}")


@case
def the_most_memory_that_calls_need(room):
    """What the header calls enough is enough for these graphs, and little more than they need."""
    of = figures()
    # (a text with more than 65,536 links keeps only some of them)
    for arcs in (1_025, 16_385, 32_769):
        found, _ = least(room, "pair", 9, arcs)["text"]
        length = len(f"p sp 9 {arcs}\n") + 8 * arcs
        expect((arcs, 10 * found >= 9 * of["A_BYTE"] * length, b""), arcs, True, b"")
    for call, shape, vertices, arcs, share, of_link, of_vertex in [
        ("list", "late", 60_000, 80_004, 98, "A_LINK", "A_VERTEX"),
        ("list", "late", 30_000, 60_000, 97, "A_LINK", "A_VERTEX"),
        ("merges", "path", 60_000, 59_999, 99, "MERGED_LINK", "MERGED_VERTEX"),
        ("merges", "star", 60_000, 30_000, 99, "MERGED_LINK", "MERGED_VERTEX"),
        ("merges", "drawn", 60_000, 1, 99, "MERGED_LINK", "MERGED_VERTEX"),
        ("places", "after", 60_000, 100_000, 99, "PLACED_LINK", "PLACED_VERTEX"),
        ("places", "after", 100_000, 170_000, 99, "PLACED_LINK", "PLACED_VERTEX"),
        ("labels", "path", 60_000, 59_999, 90, "A_LINK", "A_VERTEX"),
        ("labels", "drawn", 60_000, 1, 99, "A_LINK", "A_VERTEX"),
    ]:
        found, _ = least(room, shape, vertices, arcs)[call]
        expect((call, 100 * found >= share * (of[of_link] * arcs + of[of_vertex] * vertices), b""), call, True, b"")
    # just above and exactly at sizes where a list and a text double, and sizes that leave freed memory in separate parts
    for graph in [("ring", 23_740, 189_917), ("path", 16_386, 16_385), ("star", 16_384, 16_383), ("drawn", 90_000, 65_537), ("pair", 9, 16_384)]:
        least(room, *graph)


@case
def the_modules_texts_of_errors(room):
    expect(run([*by_node(), "codes"]), 0, TEXTS, b"")


@case
def the_page_has_a_remedy_for_each_error_of_a_line(room):
    with open(f"{ROOT}/web/causes.js", encoding="utf-8") as it:
        causes = it.read().partition("const CAUSES = {")[2].partition("\n};")[0]
    told = {word or name for word, name in re.findall(r"^  (?:'([^']+)'|(\w+)): '", causes, re.M)}
    expect((({it for _, it in ERRORS[5:16]} | {"no memory"}) - told, b"", b""), set(), b"", b"")


@case
def lists_and_texts_within_memory(room):
    made = caller(room)
    expect_results(lambda *words: [made, *words])


@case
def calls_within_memory_at_their_limits(room):
    status, output, errors = run([caller(room), "limits"])
    expect((status, b"", errors), 0, b"", b"")


@case
def threads_within_memory_of_their_own(room):
    expect(run([caller(room), "threads"]), 0, b"", b"")


@case
def the_module_gives_what_the_program_gives(room):
    words = by_node()
    expect_results(lambda *more: [*words, *more])


@case
def the_module_finds_which_edges_were_chosen(room):
    """The indices are those of the worked forests' links. Their first arcs are found here."""
    words = [*by_node(), "places"]
    for vertices, arcs, forest in worked():
        links = [(min(u, v), max(u, v), weight) for u, v, weight in arcs]
        source = "".join(" ".join(map(str, it)) + "\n" for it in [(vertices, len(arcs)), *arcs]).encode()
        expect(run(words, source), 0, "".join(f"{links.index(it)}\n" for it in forest).encode(), b"")
    for source, code in [(b"2 1\n1 3 0\n", -2), (b"67108865 1\n1 2 0\n", -3)]:
        expect(run(words, source), 0, b"%d\n" % code, b"")


@case
def the_module_labels_components(room):
    """The labels are the least vertices of components, which are joined here as whole sets."""
    words = [*by_node(), "labels"]
    for vertices, _, forest in worked():
        for part in (forest, forest[: len(forest) // 2]):
            joined = {v: {v} for v in range(1, vertices + 1)}
            for low, high, _ in part:
                both = joined[low] | joined[high]
                joined.update(dict.fromkeys(both, both))
            source = "".join(" ".join(map(str, it)) + "\n" for it in [(vertices, len(part)), *part]).encode()
            expect(run(words, source), 0, "".join(f"{min(joined[v])}\n" for v in range(1, vertices + 1)).encode(), b"")
    for source, code in [(b"2 1\n1 3 0\n", -2), (b"2 2\n1 2 0\n2 1 1\n", -19)]:
        expect(run(words, source), 0, b"%d\n" % code, b"")


@case
def the_module_finds_bad_endpoints(room):
    words = [*by_node(), "bad"]
    for source, found in [(b"3 2\n1 2 0\n2 3 0\n", b"2 2 10100\n"), (b"2 2\n1 2 0\n2 3 0\n", b"1 1 10100\n"), (b"0 1\n1 1 0\n", b"0 0 10100\n")]:
        expect(run(words, source), 0, found, b"")


@case
def the_module_merges_clusters(room):
    words = [*by_node(), "merges"]
    # the single linkage of scipy for the points 0, 2, 5, 9, 10 and 20 on a line, by hand
    line = [(4, 5, 1), (1, 2, 2), (2, 3, 3), (3, 4, 4), (5, 6, 10)]
    wanted = [(3, 4, 2), (0, 1, 2), (2, 7, 3), (6, 8, 5), (5, 9, 6)]
    for vertices, links, rows in [(0, [], []), (3, [], []), (6, line, wanted)]:
        source = "".join(" ".join(map(str, it)) + "\n" for it in [(vertices, len(links)), *links]).encode()
        expect(run(words, source), 0, "".join("%d %d %d\n" % it for it in rows).encode(), b"")
    for vertices, _, forest in worked():
        source = "".join(" ".join(map(str, it)) + "\n" for it in [(vertices, len(forest)), *forest]).encode()
        expect(run(words, source), 0, "".join("%d %d %d\n" % it for it in merged(vertices, forest)).encode(), b"")
    for source, code in [(b"2 1\n1 3 0\n", -2), (b"67108865 1\n1 2 0\n", -3), (b"2 2\n1 2 0\n2 1 1\n", -19), (b"3 2\n1 2 0\n2 3 -1\n", -20)]:
        expect(run(words, source), 0, b"%d\n" % code, b"")
