"""The built libraries: their symbols, the examples of examples/embed, and tests/cases/embedding.c. The lists and texts that it
gets are compared with the program's output and with forests that are computed here."""
import os
import re
import shutil
import subprocess
import sys

from cases.running import ROOT, SMALL_FOREST, SMALL_NET, Skipped, case, drawn_graph, expect, ran, run, with_library, written

LIBRARIES = f"{ROOT}/crates/boruvka_c/out"
INCLUDE = f"-I{ROOT}/include"
NAMES = {"boruvka_bad_end", "boruvka_bad_link", "boruvka_fault_text", "boruvka_forest", "boruvka_forest_text", "boruvka_labels_in",
         "boruvka_merges_in", "boruvka_places_in", "boruvka_release", "boruvka_total", "boruvka_version"}
MINUTES = 90  # it took 19 when nothing had been built before
ENVIRONMENT = {it: word for it, word in os.environ.items() if it not in ("MAKEFLAGS", "MAKELEVEL", "MFLAGS", "DESTDIR")}
# The error of each of these texts, by its name in docs/GR_FORMAT.md, and its line.
MALFORMED = [
    (b"x\n", "UnknownLine", 1), (b"c\na 1 2 3\n", "NoProblemYet", 2), (b"p sp 2 0\np sp 2 0\n", "SecondProblem", 2),
    (b"p sp two 0\n", "BadProblem", 1), (b"p sp 67108865 0\n", "TooLarge", 1), (b"p sp 2 1\na 1 2\n", "BadArc", 2),
    (b"p sp 2 1\na 1 3 1\n", "EndOutOfRange", 2), (b"p sp 2 1\na 1 2 9223372036854775808\n", "WeightOutOfRange", 2),
    (b"p sp 2 0\na 1 2 3\n", "TooManyArcs", 2), (b"", "MissingProblem", 1), (b"p sp 2 1\n", "MissingArcs", 2),
]
# Each error, from the code -1 on: its name in include/boruvka.h, and its text. Those of a line are MALFORMED's.
ERRORS = [
    ("NO_MEMORY", "no memory"), ("BAD_END", "an endpoint isn't a vertex"), ("TOO_MANY_VERTICES", "too many vertices"),
    ("TOO_MANY_LINKS", "too many links"), ("TOO_LONG", "the text is too long"),
    *((re.sub("(?<=[a-z])(?=[A-Z])", "_", kind).upper(), kind) for _, kind, _ in MALFORMED),
    ("LENGTHS_DIFFER", "array lengths differ"), ("TOO_FEW_PLACES", "the output array is too small"), ("CYCLE", "links contain a cycle"),
    ("DESCENDING", "links aren't sorted by weight"), ("OVERLAP", "an output overlaps an input"),
]
NO_CODE = "not an error code"
# A line for each number from -22 to 3, and its text.
TEXTS = "".join(f"{-code} {ERRORS[code - 1][1] if 0 < code <= len(ERRORS) else NO_CODE}\n" for code in range(22, -4, -1)).encode()

# Two files of one program, which use boruvka.hpp in both of its modes.
KINDS = {
    "thrown": b"""#include <boruvka.hpp>
#include <cstdio>

void ask_expected();

int main() {
    std::vector<boruvka_link> net{{1, 2, 1}}, bad{{1, 1, 9}};
    std::printf("thrown: %zu", boruvka::forest(2, net).size());
    const auto labels = boruvka::labels(2, {});
    std::printf(" %u %u", labels[0], labels[1]);
    try {
        (void)boruvka::forest(2, bad);
    } catch (const boruvka::refused &refused) {
        std::printf(", %s\\n", refused.what());
    }
    ask_expected();
}
""",
    "expected": b"""#define BORUVKA_EXPECTED
#include <boruvka.hpp>
#include <cstdio>

void ask_expected() {
    std::vector<boruvka_link> net{{1, 2, 1}}, bad{{1, 1, 9}};
    std::printf("expected: %zu", boruvka::forest(2, net).value().size());
    const auto labels = boruvka::labels(2, {}).value();
    std::printf(" %u %u", labels[0], labels[1]);
    std::printf(", %s\\n", boruvka::forest(2, bad).error().what());
}
""",
}


def compiler():
    return next((it for it in (os.environ.get("CC"), "cc", "gcc", "clang") if it and shutil.which(it)), None)


def libraries():
    """Builds the libraries if they aren't built, and returns their paths."""
    status, said, told = run(["make", "-s", "-C", ROOT, "lib"], env=ENVIRONMENT, seconds=60 * MINUTES)
    # if they are built here, the progress goes to standard error
    built = b"built crates/boruvka_c/out/libboruvka.a, crates/boruvka_c/out/libboruvka.so and crates/boruvka_within/out/libboruvka_within.a\n"
    expect((status, said, told if status else b""), 0, built, b"")
    return f"{LIBRARIES}/libboruvka.a", f"{LIBRARIES}/libboruvka.so"


def caller(room):
    """Returns the program of tests/cases/embedding.c, which is built once."""
    made = f"{room}/../embedding"
    if not os.path.exists(made):
        words = [compiler(), "-O1", "-Wall", "-Wextra", "-Werror", INCLUDE, "-o", made, f"{ROOT}/tests/cases/embedding.c", libraries()[0], "-lpthread"]
        expect(run(words), 0, b"", b"")
    return made


def listed(source):
    """Returns the arcs of a text in the form in which tests/cases/embedding.c reads a list of links."""
    lines = [it.split() for it in source.decode().splitlines()]
    arcs = [it[1:] for it in lines if it and it[0] == "a"]
    vertices = next(it[2] for it in lines if it and it[0] == "p")
    return "".join(" ".join(it) + "\n" for it in [[vertices, str(len(arcs))], *arcs]).encode()


def worked():
    """Returns the worked graphs, made by hand: the number of vertices, the arcs, and the links of the forest of each."""
    with open(f"{ROOT}/crates/worked_graphs/src/lib.rt", encoding="utf-8") as it:
        told = re.findall(r": Worked = Worked \{\n    n: ([\d_]+),(.*?)\n\};", it.read(), re.DOTALL)
    rows = [[re.findall(r"\(([\d_]+), ([\d_]+), (-?[\d_]+|i64::M\w+)\)", part) for part in re.split("\n    forest: ", text)] for _, text in told]
    extremes = {"i64::MIN": -2**63, "i64::MAX": 2**63 - 1}
    numbers = [[[(int(u), int(v), extremes[w] if w in extremes else int(w)) for u, v, w in it] for it in parts] for parts in rows]
    return [(int(n), *parts) for (n, _), parts in zip(told, numbers)]


def expect_text(room, source, forest):
    """The forest's text fits buffers of several sizes, and no byte after them is written."""
    for size in {0, 1, len(forest) - 1, len(forest), len(forest) + 9}:
        expect(run([caller(room), "text", str(size)], source), 0, forest[:size], f"{len(forest)} 0 0 {NO_CODE}\n".encode())


@case
def the_libraries_export_only_their_names(room):
    archive, shared = libraries()
    if shutil.which("nm"):
        found = subprocess.run(["nm", "-D", "--defined-only", shared], check=True, capture_output=True, text=True).stdout
        expect((set(re.findall(r" [A-Z] (\S+)", found)), b"", b""), NAMES, b"", b"")
        found = subprocess.run(["nm", "--defined-only", archive], check=True, capture_output=True, text=True).stdout
        expect((set(re.findall(r" [A-Z] (\S+)", found)), b"", b""), NAMES, b"", b"")
    # a program may define the names that the toolchain uses for its own code, since it may be built by it too
    source = b"""#include <boruvka.h>
#include <stdlib.h>
void *rattle_alloc(void) { abort(); }
void *rattle_realloc(void) { abort(); }
void rattle_dealloc(void) { abort(); }
int main(void) {
    struct boruvka_link links[] = {{1, 1, 2}};
    return boruvka_forest(2, links, 1) != 1;
}
"""
    expect(run([compiler(), INCLUDE, "-o", f"{room}/own_names", "-x", "c", "-", "-x", "none", archive], source), 0, b"", b"")
    expect(run([f"{room}/own_names"]), 0, b"", b"")
    if shutil.which("readelf"):
        found = subprocess.run(["readelf", "-dW", shared], check=True, capture_output=True, text=True).stdout
        expect((re.findall(r"\(FLAGS(?:_1)?\) +(?:Flags: )?(\w+)", found), b"", b""), ["BIND_NOW", "NOW"], b"", b"")


@case
def the_examples_of_other_languages(room):
    archive, shared = libraries()
    embed = f"{ROOT}/examples/embed"
    expect(run([compiler(), "-std=c99", "-pedantic", "-Wall", "-Wextra", "-Werror", INCLUDE, "-o", f"{room}/of_c", f"{embed}/forest.c", archive]), 0, b"", b"")
    expect(run([f"{room}/of_c"]), 0, SMALL_FOREST, b"")
    expect(run([compiler(), INCLUDE, "-o", f"{room}/of_c_shared", f"{embed}/forest.c", f"-L{LIBRARIES}", "-Wl,-rpath," + LIBRARIES, "-lboruvka"]), 0, b"", b"")
    expect(run([f"{room}/of_c_shared"]), 0, SMALL_FOREST, b"")
    if shutil.which("c++"):
        expect(run(["c++", "-std=c++20", "-x", "c++", "-pedantic", "-Wall", "-Werror", INCLUDE, "-o", f"{room}/of_cpp", f"{embed}/forest.c", "-x", "none", archive]), 0, b"", b"")
        expect(run([f"{room}/of_cpp"]), 0, SMALL_FOREST, b"")
    if shutil.which("rustc"):
        expect(run(["rustc", "--edition", "2024", "-D", "warnings", "-L", LIBRARIES, "-o", f"{room}/of_rust", f"{embed}/forest.rs"]), 0, b"", b"")
        expect(run([f"{room}/of_rust"]), 0, SMALL_FOREST, b"")
    expect(run([sys.executable, "-B", f"{embed}/forest.py", shared]), 0, SMALL_FOREST, b"")


LAYOUTS = b"""import sys
from array import array

sys.path.insert(0, sys.argv[1])
import forest

library = forest.loaded(sys.argv[2])
words = [17, 1 | 2 << 32, 10, 1 | 2 << 32]
for n, links in [
    (2, array("q", words)), (2, (forest.Link * 2)((17, 1, 2), (10, 1, 2))), (2**32 + 2, array("q", words)), (-1, array("q", words)),
    (2, array("q", words[:3])), (2, array("d", words)), (2, array("Q", words)), (2, array("i", [17, 0, 1, 2])), (2, bytearray(16)),
]:
    try:
        print([(it.weight, it.low, it.high) for it in forest.forest(library, n, links)])
    except ValueError as error:
        print(error)
"""


@case
def buffers_of_other_layouts(_room):
    """The Python example rejects what isn't links with whole weights, and a number of vertices beyond 32 bits."""
    wanted = ["[(10, 1, 2)]"] * 2 + ["4294967298 vertices", "-1 vertices", "links of the layout q, of 24 bytes", "links of the layout d, of 32 bytes"]
    wanted += ["links of the layout Q, of 32 bytes", "links of the layout i, of 16 bytes", "links of the layout B, of 16 bytes"]
    words = [sys.executable, "-B", "-", f"{ROOT}/examples/embed", libraries()[1]]
    expect(run(words, LAYOUTS), 0, "".join(f"{it}\n" for it in wanted).encode(), b"")


@case
def calls_over_spans(room):
    archive, _ = libraries()
    compilers = [it for it in ("g++", "clang++") if shutil.which(it)]
    if not compilers:
        raise Skipped("no g++ or clang++ is there")
    words = ["-pedantic", "-Wall", "-Wextra", "-Werror", INCLUDE]
    for it in compilers:
        if run([it, "-std=c++20", "-fsyntax-only", "-x", "c++", "-"], b"#include <span>\n")[0]:
            raise Skipped(f"{it} has no C++20")
        expect(run([it, "-std=c++20", *words, "-o", f"{room}/of_spans", f"{ROOT}/examples/embed/forest.cpp", archive]), 0, b"", b"")
        expect(run([f"{room}/of_spans"]), 0, SMALL_FOREST, b"")
        modes = [["-std=c++20"]]
        if with_expected(it):
            modes.append(["-std=c++23", "-DBORUVKA_EXPECTED"])
        for mode in modes:
            expect(run([it, *mode, *words, "-o", f"{room}/spans", f"{ROOT}/tests/cases/embedding.cpp", archive]), 0, b"", b"")
            expect(run([f"{room}/spans"]), 0, b"", b"")


def with_expected(of):
    """Returns whether a compiler for C++ has std::expected."""
    return not run([of, "-std=c++23", "-fsyntax-only", "-x", "c++", "-"], b"#include <expected>\nstd::expected<int, int> one = 1;\n")[0]


@case
def both_kinds_of_errors_in_one_program(room):
    """One file uses exceptions, the other std::expected. Without optimization each has its own functions, and a linker that
    mixed them up would keep one."""
    archive, _ = libraries()
    compilers = [it for it in ("g++", "clang++") if shutil.which(it)]
    expecting = [it for it in compilers if with_expected(it)]
    if not expecting:
        raise Skipped("no g++ or clang++ with std::expected is there")
    files = {"thrown": [(it, "-std=c++20") for it in compilers], "expected": [(it, "-std=c++23") for it in expecting]}
    for name, ways in files.items():
        written(f"{room}/{name}.cpp", KINDS[name])
        for of, standard in ways:
            words = [of, standard, "-O0", "-Wall", "-Wextra", "-Werror", INCLUDE, "-c", "-o", f"{room}/{name}.{of}.o", f"{room}/{name}.cpp"]
            expect(run(words, seconds=300), 0, b"", b"")
    for of, _ in files["thrown"]:
        for other in expecting:
            objects = [f"{room}/thrown.{of}.o", f"{room}/expected.{other}.o"]
            for number, order in enumerate([objects, objects[::-1]]):
                made = f"{room}/{of}.{other}.{number}"
                expect(run([other, "-o", made, *order, archive]), 0, b"", b"")
                expect(run([made]), 0, b"thrown: 1 1 2, an endpoint isn't a vertex\nexpected: 1 1 2, an endpoint isn't a vertex\n", b"")


@case
def the_header_for_spans_says_what_it_needs(_room):
    """The error is printed once, and nothing else."""
    for of in (it for it in ("g++", "clang++") if shutil.which(it)):
        words = [of, "-Wall", "-Wextra", INCLUDE, "-fsyntax-only", "-x", "c++"]
        asked = [(standard, [], b"boruvka.hpp needs C++20") for standard in ("c++98", "c++11", "c++17")]
        asked += [("c++20", ["-DBORUVKA_EXPECTED"], b"BORUVKA_EXPECTED needs std::expected")]
        for standard, more, wanted in asked:
            status, output, errors = run([*words, f"-std={standard}", *more, "-"], b"#include <boruvka.hpp>\n")
            told = [it for it in errors.splitlines() if b"error:" in it]
            expect((status != 0, output, [wanted in it for it in told]), True, b"", [True])


@case
def the_headers_after_macros_of_common_names(_room):
    """Macros of headers of other systems, before the library's headers. Each header is included twice."""
    names = ["#define min(a, b) ((a) < (b) ? (a) : (b))", "#define max(a, b) ((a) > (b) ? (a) : (b))", "#define small char", "#define linux 1", "#define interface struct"]
    before = ["algorithm", "cstddef", "cstdint", "span", "stdexcept", "string", "type_traits", "vector"]
    words = ["-Wall", "-Wextra", "-pedantic", "-Werror", INCLUDE, "-fsyntax-only", "-x"]
    for of, language, header, standard, earlier in [
        *((it, "c", "boruvka.h", f"-std={year}", []) for it in ("gcc", "clang") for year in ("c89", "c99", "c11")),
        *((it, "c++", "boruvka.hpp", "-std=c++20", before) for it in ("g++", "clang++")),
    ]:
        if shutil.which(of):
            lines = [*(f"#include <{it}>" for it in earlier), *names, *[f"#include <{header}>"] * 2, "int main(void) { return 0; }", ""]
            expect(run([of, *words, language, standard, "-"], "\n".join(lines).encode()), 0, b"", b"")


@case
def the_header_for_spans_calls_no_function_of_one_file(room):
    """An inline function has one meaning in all files of a program ([basic.def.odr]), so it may not call static functions."""
    if not shutil.which("nm"):
        raise Skipped("no nm is there")
    source = b"""#include <boruvka.hpp>
auto of_links(std::span<const boruvka_link> links) { return boruvka::labels(9, links).size() + boruvka::merges(9, links).size(); }
auto of_columns(std::span<const std::uint32_t> u, std::span<const std::int64_t> w) { return boruvka::places(9, 1, u, u, w); }
auto of_net(std::span<boruvka_link> net) { return boruvka::forest(9, net).size() + boruvka::total(net).low; }
"""
    for of in (it for it in ("g++", "clang++") if shutil.which(it)):
        expect(run([of, "-std=c++20", "-O0", INCLUDE, "-c", "-o", f"{room}/{of}.o", "-x", "c++", "-"], source), 0, b"", b"")
        found = subprocess.run(["nm", f"{room}/{of}.o"], check=True, capture_output=True, text=True).stdout
        expect((re.findall(r" t (\S*boruvka\S*)", found), " W _ZN7boruvka" in found, b""), [], True, b"")


@case
def a_warning_about_a_dropped_result(_room):
    """It may be an error, or the number of links of the forest."""
    of = next(filter(shutil.which, ("g++", "clang++")), None)
    if not of:
        raise Skipped("no g++ or clang++ is there")
    if run([of, "-std=c++20", "-fsyntax-only", "-x", "c++", "-"], b"#include <span>\n")[0]:
        raise Skipped(f"{of} has no C++20")
    for call in ["forest(2, {})", "places(2, 1, {}, {}, {})", "labels(2, {})", "merges(2, {})"]:
        lines = f"#include <boruvka.hpp>\nint main() {{ boruvka::{call}; return 0; }}\n".encode()
        status, output, errors = run([of, "-std=c++20", "-Werror", INCLUDE, "-fsyntax-only", "-x", "c++", "-"], lines)
        expect((status != 0, output, b"nodiscard" in errors), True, b"", True)


@case
def its_names_with_those_of_the_system(_room):
    source = b"""#include <%s>
#include <%s>
using namespace boruvka;
int main() {
    std::vector<boruvka_link> net{{1, 1, 2}};
    const auto found = forest(2, net);
    return link("a", "b") + unlink("b") + labels(2, net).size() + places(0, 0, {}, {}, {}).size() + total(found).low;
}
"""
    for of in (it for it in ("g++", "clang++") if shutil.which(it)):
        for order in [(b"unistd.h", b"boruvka.hpp"), (b"boruvka.hpp", b"unistd.h")]:
            expect(run([of, "-std=c++20", INCLUDE, "-fsyntax-only", "-x", "c++", "-"], source % order), 0, b"", b"")


@case
def lists_and_texts_have_the_programs_forests(room):
    expect(run([caller(room), "list"], listed(SMALL_NET)), 0, SMALL_FOREST, b"")
    expect_text(room, SMALL_NET, SMALL_FOREST)
    for seed, vertices, arcs in [(1, 1, 3), (2, 9, 0), (3, 40, 30), (4, 300, 900), (5, 50, 4000), (6, 5000, 9000)]:
        source, forest = drawn_graph(seed, vertices, arcs)
        expect(ran(["--plain"], source), 0, forest, b"")
        expect(run([caller(room), "list"], listed(source)), 0, forest, b"")
        expect_text(room, source, forest)


@case
def indices_are_those_of_the_worked_forests(room):
    graphs = worked()
    expect((len(graphs) > 7, b"", b""), True, b"", b"")
    for vertices, arcs, forest in graphs:
        links = [(min(u, v), max(u, v), weight) for u, v, weight in arcs]
        places = "".join(f"{links.index(it)}\n" for it in forest).encode()
        source = "".join(" ".join(map(str, it)) + "\n" for it in [(vertices, len(arcs)), *arcs]).encode()
        for base in (0, 1, 2**32 - 1 - vertices):
            expect(run([caller(room), "places", str(base)], source), 0, places, b"")


@case
def malformed_texts_have_the_errors_of_the_program(room):
    with open(f"{ROOT}/include/boruvka.h", encoding="utf-8") as it:
        codes = {name.replace("_", "").lower(): int(code) for name, code in re.findall(r"BORUVKA_(\w+) = (-\d+)", it.read())}
    for source, kind, line in MALFORMED:
        code = codes[kind.lower()]
        expect(ran(["--plain"], source), 1, b"", b"boruvka: line %d: %s\n" % (line, kind.encode()))
        expect(run([caller(room), "text", "100"], source), 0, b"", b"%d %d %d %s\n" % (code, code, line, kind.encode()))


@case
def calls_at_their_limits(room):
    expect(run([caller(room), "limits"]), 0, TEXTS, b"")


@case
def each_error_has_its_code_in_the_header(room):
    with open(f"{ROOT}/include/boruvka.h", encoding="utf-8") as it:
        found = re.findall(r"BORUVKA_(\w+) = (-\d+)", it.read())
    expect((found, b"", b""), [(name, str(-place)) for place, (name, _) in enumerate(ERRORS, 1)], b"", b"")


@case
def the_example_of_the_header(room):
    """The head of the header shows a call. Its count and its links are right."""
    with open(f"{ROOT}/include/boruvka.h", encoding="utf-8") as it:
        head = it.read().split("#ifndef")[0]
    code = "".join(re.findall(r"^ \*     (.*\n)", head, re.M))
    told = re.search(r"The count is (\d), and the first two links are the forest: \{(.*?)\} and \{(.*?)\}", head).groups()
    source = f"""#include <boruvka.h>
#include <stdio.h>
int main(void) {{
{code}    printf("%d\\n", (int)count);
    for (int i = 0; i < count; i++) printf("%d, %u, %u\\n", (int)links[i].weight, links[i].low, links[i].high);
    return 0;
}}
"""
    expect(run([compiler(), "-std=c99", "-Wall", "-Wextra", "-Werror", INCLUDE, "-o", f"{room}/head", "-x", "c", "-", "-x", "none", libraries()[0]], source.encode()), 0, b"", b"")
    expect(run([f"{room}/head"]), 0, "".join(f"{it}\n" for it in told).encode(), b"")


@case
def the_example_of_the_header_for_cpp(room):
    with open(f"{ROOT}/include/boruvka.hpp", encoding="utf-8") as it:
        head = it.read().split("#ifndef")[0]
    code = "".join(re.findall(r"^ \*     (.*\n)", head, re.M))
    told = re.search(r"has two links, \{(.*?)\} and \{(.*?)\}, which are the first elements of `links`", head).groups()
    source = f"""#include <boruvka.hpp>
#include <cstdio>
int main() {{
{code}    for (const boruvka_link &it : found) std::printf("%d, %u, %u\\n", (int)it.weight, it.low, it.high);
    return found.data() != links.data();
}}
"""
    compilers = [it for it in ("g++", "clang++") if shutil.which(it)]
    if not compilers:
        raise Skipped("no g++ or clang++ is there")
    expect(run([compilers[0], "-std=c++20", "-Wall", "-Wextra", "-Werror", INCLUDE, "-o", f"{room}/head", "-x", "c++", "-", "-x", "none", libraries()[0]], source.encode()), 0, b"", b"")
    expect(run([f"{room}/head"]), 0, "".join(f"{it}\n" for it in told).encode(), b"")


@case
def what_the_header_itself_defines(room):
    """Outputs that overlap inputs, and keys of doubles, also if a compiler assumes that every double is a number."""
    made = f"{room}/inlines"
    for of in filter(shutil.which, ("gcc", "clang")):
        for more in (["-O0"], ["-O2", "-ffinite-math-only"], ["-O3", "-ffast-math"]):
            words = [of, *more, "-Wall", "-Wextra", INCLUDE, "-o", made, f"{ROOT}/tests/cases/embedding.c", libraries()[0], "-lpthread"]
            expect((run(words)[0], b"", b""), 0, b"", b"")
            expect(run([made, "inlines"]), 0, b"", b"")


@case
def the_release_is_that_of_the_program(room):
    """In the header, in each library, and in the output of --version."""
    told = [int(it) for it in ran(["--version"])[1].decode().split()[1].split(".")]
    number = 10000 * told[0] + 100 * told[1] + told[2]
    with open(f"{ROOT}/include/boruvka.h", encoding="utf-8") as it:
        expect((int(re.search(r"#define BORUVKA_RELEASE (\d+) ", it.read())[1]), b"", b""), number, b"", b"")
    source = b"#include <boruvka.h>\n#include <stdio.h>\nint main(void) { return !printf(\"%u\\n\", boruvka_release()); }\n"
    expect(run([compiler(), INCLUDE, "-o", f"{room}/release", "-x", "c", "-", "-x", "none", libraries()[0]], source), 0, b"", b"")
    expect(run([f"{room}/release"]), 0, b"%d\n" % number, b"")


@case
def calls_within_the_stack_that_is_documented(room):
    expect(run([caller(room), "stack"]), 0, b"", b"")


@case
def ten_million_links_and_four_threads(room):
    expect(run([caller(room), "threads"]), 0, b"", b"")
    expect(run([caller(room), "many"], seconds=300), 0, b"", b"")


@case
def ten_thousand_calls_hold_no_more_memory(room):
    if not os.path.exists("/proc/self/smaps_rollup"):
        raise Skipped("no /proc/self/smaps_rollup shows how much memory the process has")
    expect(run([caller(room), "again"]), 0, b"", b"")


@case
def calls_take_the_bytes_that_are_documented(room):
    expect(run([caller(room), "bytes"]), 0, b"", b"")


@case
def out_of_memory_is_reported_and_nothing_changed(room):
    for is_alone in (False, True):
        first, refused = 1, True
        while refused:
            environment = {"REFUSE_FIRST": str(first), **({"REFUSE_LAST": str(first)} if is_alone else {})}
            found, told = with_library(room, [caller(room), "memory"], b"", environment, library="refusing")
            refused = bool(told)
            # a smaller growth may succeed after one that failed
            wanted = found[1] if refused and is_alone else b"some out of memory\n" if refused else b"all done\n"
            expect(found, 0, wanted, b"")
            first += 1
        if first < 10:
            raise AssertionError(f"only {first - 2} allocations failed: is the library preloaded?")
