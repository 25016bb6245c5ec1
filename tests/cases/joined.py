"""Several FILEs: the forest of all their arcs together, which file an error names, and that no file after it is opened."""
import errno
import os
import random
import re
import resource
import socket
from errno import EINTR, EIO

from cases.calls import ERRORS, each_position, expect_positions, expect_writes
from cases.memory import grown_space, in_space, with_failures
from cases.progress import COMMENT
from cases.running import (
    NO_MEMORY,
    NOTHING_WRITTEN,
    SMALL_FOREST,
    SMALL_NET,
    SMALL_REPORT,
    Program,
    Report,
    Skipped,
    case,
    drawn_graph,
    escaped,
    expect,
    file_of,
    forest_of,
    forest_text,
    ran,
    run,
    with_library,
    written,
)
from cases.sockets import NOTHING
from cases.streams import READ_ROOM

# the arcs of the small graph in two files, and in three
FIRST = b"p sp 6 4\na 1 2 17\na 1 3 10\na 2 4 2\na 3 5 0\n"
SECOND = b"p sp 6 4\na 4 3 0\na 4 6 3\na 5 2 0\na 5 6 20\n"
HALVES = [FIRST, SECOND]
THIRDS = [b"c one\np sp 6 3\na 1 2 17\na 1 3 10\na 2 4 2\n", b"p sp 6 1\na 3 5 0", b"p sp 6 4\r\n\na 4 3 0\na 4 6 3\na 5 2 0\na 5 6 20\nc end"]

MODES = [["--plain"], ["--plain", "--threads", "4"]]

USAGE = b"\n\nUsage: boruvka [OPTIONS] [FILE]...\n\nFor more information, try '--help'.\n"
SEVERAL_ALONE = b"error: several FILEs need --plain" + USAGE
THREADS_ALONE = b"error: --threads needs --plain" + USAGE
TOO_MANY = b"error: at most 65536 FILEs\n"
MAX_FILES = 65_536

# files with errors, for six vertices, and the text that is reported
FILE_ERRORS = [
    (b"x\n", b"line 1: UnknownLine"),
    (b"\x1f\x8b\x08\0", b"line 1: UnknownLine"),
    (b"a 1 2 3\np sp 6 1\n", b"line 1: NoProblemYet"),
    (b"p sp 6 1\na 1 2 3\np sp 6 0\n", b"line 3: SecondProblem"),
    (b"c\np edge 6 0\n", b"line 2: BadProblem"),
    (b"p sp 67108865 0\n", b"line 1: TooLarge"),
    (b"p sp 6 0\na 1 2 3\n", b"line 2: TooManyArcs"),
    (b"p sp 6 1\na 1 2 0.5\n", b"line 2: BadArc"),
    (b"p sp 6 1\n\na 0 1 3\n", b"line 3: EndOutOfRange"),
    (b"p sp 6 1\na 1 2 9223372036854775808", b"line 2: WeightOutOfRange"),
    (b"", b"line 1: MissingProblem"),
    (b"c\n\n", b"line 3: MissingProblem"),
    (b"p sp 6 2\na 1 2 5", b"line 3: MissingArcs"),
]


def files_in(room, texts):
    """Writes files with these texts into the folder, and returns their names."""
    for at, text in enumerate(texts):
        written(f"{room}/{at}.gr", text)
    return [f"{at}.gr" for at in range(len(texts))]


def pipe_in(room):
    """Returns the name of a pipe that nobody writes to. Whoever opens it waits."""
    if not os.path.exists(f"{room}/nobody"):
        os.mkfifo(f"{room}/nobody")
    return "nobody"


def expect_joined(room, names, text, report=None, source=b"", **more):
    """Expects this text from these files in each mode, and the report, or one with the text's total."""
    for words in MODES:
        status, output, errors = ran([*words, "--report", *names], source, cwd=room, **more)
        expect((status, output, b""), 0, text, b"")
        if report:
            expect((status, b"", errors), 0, b"", report)
        Report(errors).expect_total(text)


def expect_first_error(room, names, status, told, source=b""):
    """Expects this error of these files in each mode, with and without a report, and also if a pipe follows them."""
    for words in MODES:
        for given in [names, [*names, pipe_in(room)], ["--report", *names]]:
            expect(ran([*words, *given], source, cwd=room, seconds=10), status, b"", b"boruvka: " + told + b"\n")


def parts_of(draw, arcs, count):
    """Divides the arcs into so many lists at random."""
    parts = [[] for _ in range(count)]
    for arc in arcs:
        draw.choice(parts).append(arc)
    return parts


def drawn_arcs(draw, vertices, count, most):
    """Draws arcs with loops and equal weights. A fifth of them is repeated or reversed."""
    arcs = []
    for _ in range(count):
        u, v, w = draw.randint(1, vertices), draw.randint(1, vertices), draw.randint(-most, most)
        if arcs and draw.random() < 0.2:
            u, v, w = draw.choice(arcs)
            u, v = draw.choice([(u, v), (v, u)])
        arcs.append((u, v, w))
    return arcs


# What is joined


@case
def two_files_are_as_one(room):
    written(f"{room}/a.gr", FIRST)
    written(f"{room}/b.gr", SECOND)
    given = [["--plain", "a.gr", "b.gr"], ["a.gr", "--plain", "b.gr"], ["b.gr", "a.gr", "--plain"], ["--plain", "--", "a.gr", "b.gr"], ["a.gr", "--plain", "--", "b.gr"]]
    for words in given:
        for more in [[], ["--threads", "1"], ["--threads=2"], ["--threads", "64"], ["--workers", "3", "--shards", "4"]]:
            # (standard input isn't read)
            expect(ran([*more, *words], b"no graph", cwd=room), 0, SMALL_FOREST, b"")
            expect(ran(["--report", *more, *words], b"no graph", cwd=room), 0, SMALL_FOREST, SMALL_REPORT)


@case
def three_files_in_any_order(room):
    names = files_in(room, THIRDS)
    for order in [(0, 1, 2), (0, 2, 1), (1, 0, 2), (1, 2, 0), (2, 0, 1), (2, 1, 0)]:
        expect_joined(room, [names[it] for it in order], SMALL_FOREST, SMALL_REPORT)


@case
def the_same_file_twice(room):
    written(f"{room}/a.gr", FIRST)
    text = b"p sp 6 4\na 3 5 0\na 2 4 2\na 1 3 10\na 1 2 17\n"
    report = b"vertices=6 links=8 rounds=0 shards=0 asked=0 answered=0 alone=0 closed=0 total=29\n"
    for names in [["a.gr", "a.gr"], ["a.gr", "./a.gr"], ["a.gr", f"{room}/a.gr"]]:
        expect_joined(room, names, text, report)


@case
def standard_input_among_files(room):
    names = files_in(room, THIRDS)
    for place in range(3):
        given = [*names[:place], "-", *names[place + 1 :]]
        expect_joined(room, given, SMALL_FOREST, SMALL_REPORT, THIRDS[place])
        expect_joined(room, ["--", *given], SMALL_FOREST, SMALL_REPORT, THIRDS[place])
    # a file named `-`, and standard input by another name
    written(f"{room}/-", THIRDS[2])
    expect_joined(room, ["0.gr", "-", "./-"], SMALL_FOREST, SMALL_REPORT, THIRDS[1])
    expect_joined(room, ["/dev/stdin", "1.gr", "./-"], SMALL_FOREST, SMALL_REPORT, THIRDS[0])


@case
def standard_input_twice(room):
    names = files_in(room, HALVES)
    for given in [["-", "-"], ["-", "0.gr", "-"], ["0.gr", "-", "-"], ["-", "-", "none.gr"], ["--", "-", "-"]]:
        expect_first_error(room, given, 3, b"- is given twice", SECOND)
    # an error before it is reported first
    expect_first_error(room, ["-", *names, "-"], 1, b"-: line 2: BadArc", b"p sp 6 1\na 1 2\n")
    expect_first_error(room, [names[0], "-", "-"], 1, b"-: 5 vertices in place of 6", b"p sp 5 0\n")


@case
def files_that_are_pipes(room):
    for name, text in [("a.gr", FIRST), ("b.gr", SECOND)]:
        written(f"{room}/{name}", text)
        os.mkfifo(f"{room}/{name}.pipe")
    shell = 'for it in a b; do cat $it.gr > $it.gr.pipe & done; exec "$0" --plain --report a.gr.pipe b.gr.pipe'
    expect(run(["sh", "-c", shell, Program.path], cwd=room), 0, SMALL_FOREST, SMALL_REPORT)


@case
def files_without_arcs_and_without_vertices(room):
    report = b"vertices=%d links=%d rounds=0 shards=0 asked=0 answered=0 alone=0 closed=0 total=%d\n"
    for texts, text, counts in [
        ([b"p sp 0 0\n"] * 2, b"p sp 0 0\n", (0, 0, 0)),
        ([b"p sp 0 0"] * 40, b"p sp 0 0\n", (0, 0, 0)),
        ([b"p sp 3 0\n"] * 2, b"p sp 3 0\n", (3, 0, 0)),
        ([b"p sp 3 1\na 2 2 -5\n"] * 3, b"p sp 3 0\n", (3, 0, 0)),
        ([b"p sp 3 0\n", b"p sp 3 1\na 3 1 -5\n"], b"p sp 3 1\na 1 3 -5\n", (3, 1, -5)),
        ([b"p sp 3 1\na 3 1 -5\n", b"p sp 3 0\n", b"p sp 3 1\na 1 3 -6\n"], b"p sp 3 1\na 1 3 -6\n", (3, 2, -6)),
        ([b"p sp 1000000 0\n", b"p sp 1000000 1\na 1000000 1 7\n"], b"p sp 1000000 1\na 1 1000000 7\n", (1_000_000, 1, 7)),
    ]:
        expect_joined(room, files_in(room, texts), text, report % counts)


@case
def three_hundred_drawn_files(room):
    for seed, vertices, count, most in [(31, 40, 900, 3), (32, 3000, 9000, 50), (33, 5000, 60_000, 2**63 - 1)]:
        draw = random.Random(seed)
        arcs = drawn_arcs(draw, vertices, count, most)
        names = files_in(room, [file_of(vertices, it) for it in parts_of(draw, arcs, 300)])
        links = sum(u != v for u, v, _ in arcs)
        text = forest_text(vertices, forest_of(vertices, arcs))
        for words in [["--plain"], *(["--plain", "--threads", it] for it in ["2", "7", "64"])]:
            status, output, errors = ran([*words, "--report", *names], cwd=room)
            expect((status, output, b""), 0, text, b"")
            report = Report(errors)
            report.expect_total(text)
            expect(((report.vertices, report.links), b"", b""), (vertices, links), b"", b"")
        expect(ran(["--plain", *reversed(names)], cwd=room), 0, text, b"")


@case
def large_files(room):
    # each is read in pieces, and by threads if they are asked for; most links of the second graph are dropped early
    for seed, vertices, count in [(34, 120_000, 400_000), (35, 900, 500_000)]:
        draw = random.Random(seed)
        arcs = [(draw.randint(1, vertices), draw.randint(1, vertices), draw.randint(-(10**6), 10**6)) for _ in range(count)]
        names = files_in(room, [file_of(vertices, arcs[at::3]) for at in range(3)])
        report = b"vertices=%d links=%d " % (vertices, sum(u != v for u, v, _ in arcs))
        text = forest_text(vertices, forest_of(vertices, arcs))
        for words in MODES:
            status, output, errors = ran([*words, "--report", *names], cwd=room)
            expect((status, output, errors[: len(report)]), 0, text, report)
            Report(errors).expect_total(text)


@case
def files_of_more_than_a_million_links(room):
    # a path of light links, and heavier links that close cycles: the forest is the path. Neither file has so many links that
    # some are dropped while it is read
    vertices = 600_000
    path = [(v, v + 1, v % 7) for v in range(1, vertices)]
    beside = [(v, v + 2, 10 + v % 5) for v in range(1, vertices - 1)]
    rows = sorted((weight, u, v) for u, v, weight in path)
    names = files_in(room, [file_of(vertices, path + beside), file_of(vertices, beside + path)])
    links = 2 * (len(path) + len(beside))
    total = sum(weight for weight, _, _ in rows)
    report = b"vertices=%d links=%d rounds=0 shards=0 asked=0 answered=0 alone=0 closed=0 total=%d\n" % (vertices, links, total)
    expect_joined(room, names, forest_text(vertices, rows), report)


@case
def many_arcs_of_a_million_vertices_take_no_more_memory(room):
    # each file has too few arcs per vertex for links to be dropped while it is read, so the list is only bounded when the files
    # are joined
    vertices, arcs = 2**20 + 1, 7_000_000
    with open(f"{room}/net.gr", "wb") as it:
        it.write(b"p sp %d %d\n" % (vertices, arcs))
        it.write(b"a 1 2 3\na 1 3 3\n" * (arcs // 2))
    text = b"p sp %d 2\na 1 2 3\na 1 3 3\n" % vertices
    peaks = {}
    for count in [2, 4, 8]:
        found, peak = with_library(room, [Program.path, "--plain", *["net.gr"] * count], b"", {"PEAK": "1"}, cwd=room)
        expect(found, 0, text, b"")
        peaks[count] = int(peak) << 10
    if not 16 * arcs < peaks[4] or peaks[8] > 1.05 * peaks[4]:
        raise AssertionError(f"bytes by so many files: {peaks}")


@case
def forests_of_parts_make_the_forest_of_the_whole(room):
    for seed, vertices, count, most in [(41, 5, 40, 1), (42, 60, 300, 0), (43, 500, 400, 9), (44, 700, 6000, 50), (45, 2000, 9000, 2**63 - 1)]:
        draw = random.Random(seed)
        arcs = drawn_arcs(draw, vertices, count, most)
        whole = forest_text(vertices, forest_of(vertices, arcs))
        parts = parts_of(draw, arcs, draw.randint(2, 9))
        # some arcs are in two parts
        parts[0] += draw.sample(arcs, count // 5)
        forests = []
        for part in parts:
            forests.append(forest_text(vertices, forest_of(vertices, part)))
            expect(ran(["--plain"], file_of(vertices, part)), 0, forests[-1], b"")
        names = files_in(room, forests)
        expect_joined(room, names, whole)
        # again in two steps, and the whole graph together with its parts
        for name, some in [("low", names[:2]), ("high", names[2:] or names[:1])]:
            status, output, errors = ran(["--plain", *some], cwd=room)
            expect((status, b"", errors), 0, b"", b"")
            written(f"{room}/{name}.gr", output)
        expect_joined(room, ["low.gr", "high.gr"], whole)
        written(f"{room}/whole.gr", file_of(vertices, arcs))
        expect_joined(room, ["whole.gr", *names], whole)


@case
def more_files_than_descriptors(room):
    arcs = [(at, at + 1, -at) for at in range(1, 101)]
    names = files_in(room, [file_of(101, [it]) for it in arcs])
    text = forest_text(101, [(-at, at, at + 1) for at in range(100, 0, -1)])

    def limit():
        resource.setrlimit(resource.RLIMIT_NOFILE, (20, 20))

    expect_joined(room, names, text, preexec_fn=limit)
    expect_joined(room, [*names[:50], "-", *names[51:]], text, source=file_of(101, arcs[50:51]), preexec_fn=limit)


@case
def many_arcs_a_vertex_take_no_more_memory(room):
    # memory is bounded by the vertices, however many files there are
    file, text = drawn_graph(46, 1000, 60_000, 10**6)
    name = written(f"{room}/net.gr", file)
    peaks = {}
    for count in [2, 4, 100]:
        found, peak = with_library(room, [Program.path, "--plain", *[name] * count], b"", {"PEAK": "1"})
        expect(found, 0, text, b"")
        peaks[count] = int(peak) << 10
    if peaks[100] > 12 << 20 or peaks[100] - peaks[4] > 1 << 20:
        raise AssertionError(f"bytes by so many files: {peaks}")


@case
def as_many_files_as_there_may_be(room):
    written(f"{room}/a", b"p sp 2 1\na 1 2 7\n")
    report = b"vertices=2 links=65536 rounds=0 shards=0 asked=0 answered=0 alone=0 closed=0 total=7\n"
    try:
        expect(ran(["--plain", "--report", *["a"] * MAX_FILES], cwd=room), 0, b"p sp 2 1\na 1 2 7\n", report)
        for words, told in [(["--plain"], [TOO_MANY]), (["--plain", "--threads", "2"], [TOO_MANY]), ([], [TOO_MANY, SEVERAL_ALONE])]:
            status, output, errors = ran([*words, *["a"] * MAX_FILES, "none"], cwd=room)
            expect((status, output, any(errors.startswith(it) for it in told)), 2, b"", True)
    except OSError as error:
        if error.errno != errno.E2BIG:
            raise
        raise Skipped(f"the system takes no {MAX_FILES} words") from error


# Errors, and the name of the file in them


@case
def another_number_of_vertices(room):
    texts = [FIRST, SECOND, b"p sp 5 1\na 1 2 3\n", b"p sp 7 0\n", b"p sp 0 0\n", b"p sp 67108864 0\n"]
    names = files_in(room, texts)
    for at, vertices in [(2, b"5"), (3, b"7"), (4, b"0"), (5, b"67108864")]:
        told = b"%d.gr: %s vertices in place of 6" % (at, vertices)
        for given in [[names[0], names[at]], [names[0], names[1], names[at]], [names[0], names[at], names[1]], [names[0], names[at], "none.gr"]]:
            expect_first_error(room, given, 1, told)
    expect_first_error(room, ["4.gr", "0.gr"], 1, b"0.gr: 6 vertices in place of 0")
    expect_first_error(room, ["3.gr", "3.gr", "-"], 1, b"-: 6 vertices in place of 7", FIRST)
    # the error names the first file that differs, even if the file before it is the odd one out
    expect_first_error(room, ["2.gr", "0.gr", "1.gr"], 1, b"0.gr: 6 vertices in place of 5")


@case
def each_error_in_the_first_file_and_in_later_ones(room):
    good = files_in(room, THIRDS)
    for text, told in FILE_ERRORS:
        written(f"{room}/bad.gr", text)
        # a single file is reported without its name
        for words in MODES:
            expect(ran([*words, "bad.gr"], cwd=room), 1, b"", b"boruvka: " + told + b"\n")
        for place in range(4):
            for name, source in [("bad.gr", b""), ("-", text)]:
                given = [*good[:place], name, *good[place:]]
                expect_first_error(room, given, 1, name.encode() + b": " + told, source)


@case
def an_error_late_in_a_later_file(room):
    # it is after the first MiB, where threads read in another way
    late = b"p sp 6 300001\n" + 300_000 * b"a 1 2 3\n" + b"a 1 7 3\n"
    names = files_in(room, [FIRST, late, SECOND])
    expect_first_error(room, names, 1, b"1.gr: line 300002: EndOutOfRange")
    expect_first_error(room, [names[0], names[2], "-"], 1, b"-: line 300002: EndOutOfRange", late)


@case
def the_first_of_two_errors(room):
    texts = {"good": FIRST, "bad": b"x\n", "short": b"p sp 6 1\n", "few": b"p sp 5 0\n", "both": b"p sp 5 0\nx\n"}
    for name, text in texts.items():
        written(f"{room}/{name}", text)
    for given, status, told in [
        (["bad", "short"], 1, b"bad: line 1: UnknownLine"),
        (["short", "bad"], 1, b"short: line 2: MissingArcs"),
        (["good", "few", "bad"], 1, b"few: 5 vertices in place of 6"),
        (["good", "bad", "few"], 1, b"bad: line 1: UnknownLine"),
        (["good", "none", "bad"], 3, b"cannot open none"),
        (["good", "bad", "none"], 1, b"bad: line 1: UnknownLine"),
        (["none", "nought"], 3, b"cannot open none"),
        (["few", "good", "none"], 1, b"good: 6 vertices in place of 5"),
        # the number of vertices of a malformed file doesn't matter
        (["good", "both"], 1, b"both: line 2: UnknownLine"),
        (["good", "few", "both"], 1, b"few: 5 vertices in place of 6"),
    ]:
        expect_first_error(room, given, status, told)


@case
def a_file_among_others_that_cannot_be_opened(room):
    names = files_in(room, HALVES)
    os.mkdir(f"{room}/folder")
    with socket.socket(socket.AF_UNIX) as it:
        # (`-` isn't opened as a file)
        it.bind(f"{room}/socket")
    written(f"{room}/closed.gr", FIRST)
    os.chmod(f"{room}/closed.gr", 0)
    unopened = ["none.gr", "socket", "folder/none.gr", "0.gr/none.gr", ""]
    unopened += [] if os.access(f"{room}/closed.gr", os.R_OK) else ["closed.gr"]
    for name in unopened:
        for given in [[name, *names], [names[0], name, names[1]], [*names, name], [name, name]]:
            expect_first_error(room, given, 3, b"cannot open " + name.encode())
    # a directory can be opened but not read
    for given in [["folder", *names], [names[0], "folder", names[1]], [*names, "folder"]]:
        expect_first_error(room, given, 3, b"folder: line 1: read failed")


@case
def names_of_all_sorts(room):
    names = [" a.gr", "a b.gr", "--", "--plain", "--wrong", "-x.gr", "größe.gr", "\x1b[2K", "a\nboruvka: done\r", "\u009b\\x1b\u20ac", "a.gr: line 1", "'"]
    count = len(names) + 2
    for at, name in enumerate(names, 1):
        written(f"{room}/{name}", file_of(count, [(at, at + 1, at)]))
    links = [(at, at, at + 1) for at in range(1, count)]
    last = file_of(count, [(count - 1, count, count - 1)])
    expect_joined(room, ["--", *names, "-"], forest_text(count, links), source=last)
    for name in names:
        shown = escaped(name).encode()
        written(f"{room}/{name}.bad", b"x\n")
        written(f"{room}/{name}.few", b"p sp 1 0\n")
        for end, status, told in [
            (".bad", 1, shown + b".bad: line 1: UnknownLine"),
            (".few", 1, shown + b".few: 1 vertices in place of %d" % count),
            (".none", 3, b"cannot open " + shown + b".none"),
        ]:
            expect_first_error(room, ["--", names[0], name + end], status, told)


@case
def a_long_name_among_others(room):
    # the line is longer than what is written at once
    deep = "/".join(["\x1b\u0085" * 80] * 16)
    for name in ["n" * 250, deep]:
        os.makedirs(f"{room}/{name}")
        written(f"{room}/{name}/a.gr", FIRST)
        written(f"{room}/{name}/b.gr", SECOND)
        written(f"{room}/{name}/c.gr", b"p sp 6 1\n")
        expect_joined(room, [f"{name}/a.gr", f"{name}/b.gr"], SMALL_FOREST, SMALL_REPORT)
        shown = name.replace("\x1b", "\\x1b").replace("\u0085", "\\xc2\\x85").encode()
        expect_first_error(room, [f"{name}/a.gr", f"{name}/c.gr"], 1, shown + b"/c.gr: line 2: MissingArcs")
        expect_first_error(room, [f"{name}/a.gr", f"{name}/d.gr"], 3, b"cannot open " + shown + b"/d.gr")


# Invalid arguments


@case
def several_files_without_plain(room):
    written(f"{room}/net.gr", SMALL_NET)
    pipe = pipe_in(room)
    for words in [["net.gr", "net.gr"], ["net.gr", "-"], ["-", "-"], [pipe, pipe, pipe], ["none.gr", "--workers", "0", "none.gr"], ["--report", "--", "a", "b"]]:
        expect(ran(words, SMALL_NET, cwd=room, seconds=10), 2, b"", SEVERAL_ALONE)
    # of two errors either is reported
    for words in [["--threads", "2", "net.gr", "net.gr"], ["net.gr", pipe, "--threads=1"]]:
        found = ran(words, SMALL_NET, cwd=room, seconds=10)
        expect((found[0], found[1], found[2] in (SEVERAL_ALONE, THREADS_ALONE)), 2, b"", True)


@case
def other_arguments_with_several_files(room):
    names = files_in(room, HALVES)
    for more in [[], ["--plain"]]:
        for word in ["--help", "-h", "--version", "-V"]:
            told = ran([word])
            expect((told[0], b"", told[2]), 0, b"", b"")
            for words in [[*more, word, *names], [*more, *names, word], [names[0], word, *more, names[1]], [*more, "none.gr", "none.gr", word]]:
                expect(ran(words, SMALL_NET, cwd=room), 0, told[1], b"")
        status, output, errors = ran([*more, *names, "--wrong"], cwd=room)
        expect((status, output, errors.partition(b"\n")[0]), 2, b"", b"error: unexpected argument '--wrong' found")
        expect(ran([*more, names[0], b"\xff.gr"], cwd=room), 2, b"", b"boruvka: an argument is not UTF-8\n")
    for number in ["0", "65", "x"]:
        status, output, errors = ran(["--plain", *names, "--threads", number], cwd=room)
        expect((status, output, errors[:7]), 2, b"", b"error: ")


# Progress


@case
def how_much_was_read_of_several_files(room):
    long = [20_000 * COMMENT + it for it in HALVES]
    names = files_in(room, [*long, *(10_000 * COMMENT + it for it in HALVES), *HALVES, b"x\n"])
    told = b"read 16 MB\rread 20 MB\n"
    for given, errors in [
        (["0.gr", "1.gr"], b"read 16 MB\rread 32 MB\rread 40 MB\n"),
        (["0.gr", "5.gr"], told),
        (["4.gr", "1.gr"], told),
        (["4.gr", "1.gr", "4.gr", "5.gr"], told),
        (["2.gr", "3.gr"], told),
        (["2.gr", "5.gr"], b""),
        (["4.gr", "5.gr"], b""),
    ]:
        expect(ran(["--plain", "--progress", *given], cwd=room), 0, SMALL_FOREST, errors)
        expect(ran(["--plain", *given], cwd=room), 0, SMALL_FOREST, b"")
    expect(ran(["--plain", "--progress", "--report", "0.gr", "-", "5.gr"], 10_000 * COMMENT + b"p sp 6 0\n", cwd=room), 0, SMALL_FOREST, b"read 16 MB\rread 30 MB\n" + SMALL_REPORT)
    # threads read more at a time
    status, output, errors = ran(["--plain", "--progress", "--threads", "4", *names[:2]], cwd=room)
    expect((status, output, bool(re.fullmatch(rb"read 1[6-9] MB\rread 3[2-9] MB\rread 40 MB\n", errors))), 0, SMALL_FOREST, True)
    # an error begins a new line
    for name, status, line in [("6.gr", 1, b"6.gr: line 1: UnknownLine"), ("none.gr", 3, b"cannot open none.gr")]:
        expect(ran(["--plain", "--progress", "0.gr", name, "1.gr"], cwd=room), status, b"", b"read 16 MB\r\nboruvka: " + line + b"\n")


# Calls and allocations that fail


@case
def each_read_of_several_files_fails(room):
    # reads of files, and of standard input between them
    texts = [FIRST, drawn_graph(47, 6, 20_000)[0], SECOND]
    names = [f"{room}/{it}" for it in files_in(room, texts)]
    arcs = [tuple(map(int, line.split()[1:])) for text in texts for line in text.splitlines()[1:]]
    joined = forest_text(6, forest_of(6, arcs))
    for place in [None, 0, 1, 2]:
        given = ["-" if at == place else name for at, name in enumerate(names)]
        shell = 'exec "$@"' if place is None else 'exec "$@" < "$0"'
        places = [(name, text[: READ_ROOM * at].count(b"\n") + 1) for name, text in zip(given, texts) for at in range(-(-len(text) // READ_ROOM) + 1)]
        for words in MODES:
            command = ["sh", "-c", shell, names[place or 0], Program.path, *words, *given]
            for error in [*ERRORS, EIO]:
                runs = each_position(room, command, b"", "read", [error])
                expect_positions(runs, len(places))
                for run, (name, line) in zip(runs, places):
                    run.expect(3, b"", f"boruvka: {name}: line {line}: read failed\n".encode())
                runs[-1].expect(0, joined, b"")


@case
def each_open_and_each_close_of_several_files_fails(room):
    names = [f"{room}/{it}" for it in files_in(room, THIRDS)]
    for error in ERRORS:
        opens, closes = (each_position(room, [Program.path, "--plain", *names], b"", call, [error]) for call in ["open", "close"])
        expect_positions(opens, 3)
        for run, name in zip(opens, names):
            # (an interrupted open is retried)
            run.expect(*((0, SMALL_FOREST, b"") if error == EINTR else (3, b"", f"boruvka: cannot open {name}\n".encode())))
        expect_positions(closes, 3)
        for run in [opens[-1], *closes]:
            run.expect(0, SMALL_FOREST, b"")


@case
def each_write_of_several_files_fails(room):
    arcs = drawn_arcs(random.Random(48), 6000, 12_000, 50)
    names = [f"{room}/{it}" for it in files_in(room, [file_of(6000, arcs[at::2]) for at in range(2)])]
    text = forest_text(6000, forest_of(6000, arcs))
    for error in [*ERRORS, EIO, NOTHING]:
        expect_writes(each_position(room, [Program.path, "--plain", *names], b"", "write", [error]), text)


@case
def an_output_that_is_full_or_closed(room):
    names = [f"{room}/{it}" for it in files_in(room, HALVES)]
    for words in MODES:
        with open("/dev/full", "wb") as full:
            status, _, errors = ran([*words, *names], output=full)
        expect((status, b"", errors), 3, b"", NOTHING_WRITTEN)
        unread = b"boruvka: -: line 1: read failed\n"
        for closed, given, status, output, errors in [
            (">&-", names, 3, b"", NOTHING_WRITTEN),
            (">&- 2>&-", names, 3, b"", b""),
            ("<&- >&- 2>&-", names, 3, b"", b""),
            ("<&-", names, 0, SMALL_FOREST, b""),
            ("2>&-", [*names, "--report"], 0, SMALL_FOREST, b""),
            ("2>&-", [*names, "none.gr"], 3, b"", b""),
            ("<&-", [names[0], "-", names[1]], 3, b"", unread),
            ("<&-", ["-", *names], 3, b"", unread),
        ]:
            shell = ["sh", "-c", f'exec "$0" "$@" {closed}']
            found, told = with_library(room, [*shell, Program.path, *words, *given], b"", {}, seconds=10)
            expect((found, told, b""), (status, output, errors), b"", b"")
    # no file got the number of a closed descriptor
    for name, text in zip(names, HALVES, strict=True):
        with open(name, "rb") as it:
            expect((it.read(), b"", b""), text, b"", b"")


def stages_of(lines, names):
    """Maps each out-of-memory line to the part of the work: 0 before the first file, the number of the file that it names, or
    one more after the last."""
    line_of = {f"boruvka: {name}: no memory\n".encode(): at for at, name in enumerate(names, 1)}
    stages = []
    for line in lines:
        if line != NO_MEMORY and line not in line_of:
            raise AssertionError(f"not an out-of-memory line: {line!r:.300}")
        stages.append(line_of.get(line, len(names) + 1 if any(stages) else 0))
    return stages


@case
def each_allocation_of_several_files_fails(room):
    drawn = drawn_arcs(random.Random(49), 800, 3000, 50)
    nets = [(HALVES, SMALL_FOREST), ([file_of(800, drawn[at::3]) for at in range(3)], forest_text(800, forest_of(800, drawn)))]
    for texts, text in nets:
        names = [f"{room}/{it}" for it in files_in(room, texts)]
        for words in MODES:
            for is_alone in (False, True):
                lines, first, count = [], 1, 1
                while count:
                    found, count = with_failures(room, [*words, *names], b"", first, first if is_alone else None)
                    # a smaller growth may succeed after one that failed
                    if count and not (is_alone and found[0] == 0):
                        expect(found, 4, b"", found[2])
                        lines.append(found[2])
                    else:
                        expect(found, 0, text, b"")
                    first += 1
                stages = stages_of(lines, names)
                if stages != sorted(stages) or not is_alone and not set(stages) >= set(range(len(names) + 1)):
                    raise AssertionError(f"allocations that failed in turn were reported in these parts of the work: {stages}")


@case
def each_allocation_of_several_files_without_plain_fails(room):
    first = count = 1
    while count:
        found, count = with_failures(room, ["a.gr", "b.gr", "c.gr"], b"", first, None)
        expect(found, *((4, b"", NO_MEMORY) if count else (2, b"", SEVERAL_ALONE)))
        first += 1
    if first < 5:
        raise AssertionError(f"only {first - 1} allocations failed: is the library preloaded?")


@case
def threads_that_do_not_start_for_several_files(room):
    arcs = drawn_arcs(random.Random(51), 120_000, 300_000, 10**6)
    names = [f"{room}/{it}" for it in files_in(room, [file_of(120_000, arcs[at::2]) for at in range(2)])]
    text = forest_text(120_000, forest_of(120_000, arcs))
    for first in [1, 2, 5]:
        environment = {"FAIL_CALL": "thread", "FAIL_NUMBER": str(first), "FAIL_LAST": "1000000"}
        found, told = with_library(room, [Program.path, "--plain", "--threads", "7", *names], b"", environment)
        expect(found, 0, text, b"")
        if b"x" not in told or b"J" in told:
            raise AssertionError(f"from the {first}th thread on refused: recorded {told!r:.300}")


@case
def little_address_space_for_several_files(room):
    arcs = drawn_arcs(random.Random(50), 30_000, 200_000, 10**6)
    names = [f"{room}/{it}" for it in files_in(room, [file_of(30_000, arcs[at::3]) for at in range(3)])]
    text = forest_text(30_000, forest_of(30_000, arcs))
    lines = []
    for size in grown_space(32 << 20):
        found = in_space(size, ["--plain", *names])
        if found != (0, text, b""):
            expect(found, 4, b"", found[2])
            lines.append(found[2])
    expect(found, 0, text, b"")
    stages_of(lines, names)
