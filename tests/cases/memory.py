"""Failing allocations: each in turn, alone and with all that follow; and small address spaces."""
import re
import resource

from cases.running import NO_MEMORY, ROOT, SMALL_FOREST, SMALL_NET, SMALL_REPORT, Program, Report, case, drawn_graph, expect, ran, with_library, written
from cases.workers import healthy_report, over


def with_failures(room, words, source, first, last, size=0):
    """Runs the program with the allocations from the first to the last failing, and returns its result and how many failed.
    Allocations of fewer bytes than the size aren't counted."""
    environment = {"REFUSE_FIRST": str(first), "COUNT_FROM": str(size), **({"REFUSE_LAST": str(last)} if last else {})}
    found, told = with_library(room, [Program.path, *words], source, environment, library="refusing")
    return found, len(told)


def each_fails(room, words, source, output, errors, status=0):
    """Makes each allocation fail in turn, alone and with all that follow, until there are no more."""
    for is_alone in (False, True):
        first = 1
        while True:
            found, count = with_failures(room, words, source, first, first if is_alone else None)
            # a smaller growth may succeed after one that failed
            if not count or is_alone and found[0] == status:
                expect(found, status, output, errors)
            else:
                expect(found, 4, b"", NO_MEMORY)
            if not count:
                break
            first += 1
        if first < 5:
            raise AssertionError(f"only {first - 1} allocations failed: is the library preloaded?")


def each_fails_over_workers(room, source, output, workers, shards, size=0, fewest=50):
    """Does the same over workers. If a worker runs out of memory, it is left out or its line is closed, and the run continues.
    At least `fewest` allocations have the size or more."""
    words = [*over(workers, shards), "--report"]
    for is_alone in (False, True):
        first = 1
        while True:
            found, count = with_failures(room, words, source, first, first if is_alone else None, size)
            expect_right_or_no_memory(found, output, workers, shards)
            if not count:
                healthy_report(found, output, workers, shards)
                break
            first += 1
        if first <= fewest:
            raise AssertionError(f"only {first - 1} allocations failed: is the library preloaded?")


def expect_right_or_no_memory(found, output, workers, shards):
    if found[:2] == (0, output):
        Report(found[2]).expect_equations(shards, workers)
    else:
        expect(found, 4, b"", NO_MEMORY)


@case
def the_first_allocation_fails(room):
    found, count = with_failures(room, ["--plain"], SMALL_NET, 1, None)
    expect((found[0], found[1], found[2]), 4, b"", NO_MEMORY)
    expect((count > 0, b"", b""), True, b"", b"")


@case
def each_allocation_of_a_run_fails(room):
    each_fails(room, ["--plain", "--report"], SMALL_NET, SMALL_FOREST, SMALL_REPORT)


@case
def each_allocation_of_a_longer_run_fails(room):
    file, text = drawn_graph(5, 800, 3000)
    each_fails(room, ["--plain"], file, text, b"")


@case
def each_allocation_of_a_named_file_fails(room):
    name = written(f"{room}/net.gr", SMALL_NET)
    each_fails(room, ["--plain", name], b"", SMALL_FOREST, b"")


@case
def each_allocation_of_a_run_over_workers_fails(room):
    each_fails_over_workers(room, SMALL_NET, SMALL_FOREST, 2, 4)
    each_fails_over_workers(room, SMALL_NET, SMALL_FOREST, 0, 2)
    # (with weights of 64 bits)
    each_fails_over_workers(room, *drawn_graph(9, 6, 9, 2**40), 2, 2)


@case
def a_worker_that_runs_out_of_memory_is_left_out(room):
    # each allocation of its thread fails alone. Then its line is closed, unless a scan can do without that allocation, and the
    # run continues (the numbers of allocations differ from run to run)
    words = [Program.path, *over(1, 1), "--report"]
    closed, number, told = [], 1, b"x"
    while told:
        environment = {"REFUSE_FIRST": str(number), "REFUSE_LAST": str(number), "THREADS": "1"}
        found, told = with_library(room, words, SMALL_NET, environment, library="refusing")
        if told == b"t":
            expect(found, 0, SMALL_FOREST, found[2])
            report = Report(found[2])
            report.expect_equations(1, 1)
            closed.append(report.closed)
        number += 1
    if sum(closed) < 10 or closed.count(0) > sum(closed) // 2:
        raise AssertionError(f"each failed allocation of a worker closed so many lines: {closed}")


@case
def each_large_allocation_of_a_run_by_threads_fails(room):
    # (many vertices, and enough links of the forest for threads to sort them)
    file, text = drawn_graph(11, 2**17 + 1, 90_000)
    expect((text.count(b"\na ") > 2**16, b"", b""), True, b"", b"")
    each_fails_over_workers(room, file, text, 2, 2, 2**19, 10)


@case
def no_allocation_of_twice_the_largest_list(room):
    # (for 4,096 answers of 32 bytes each, without the offers)
    words = [Program.path, *over(64, 4096)]
    more = {"REFUSE_ABOVE": str(2 * 4096 * 32 - 1)}
    found, told = with_library(room, words, SMALL_NET, more, library="refusing")
    expect(found, 0, SMALL_FOREST, b"")
    expect((told, b"", b""), b"", b"", b"")


@case
def each_allocation_of_the_help_fails(room):
    each_fails(room, ["--help"], b"", ran(["--help"])[1], b"")


@case
def each_allocation_of_invalid_arguments_fails(room):
    more = b"\n\nFor more information, try '--help'.\n"
    workers = b"error: invalid value '65' for '--workers <N>': 65 is not in 0 to 64"
    shards = b"error: invalid value '0' for '--shards <S>': 0 is not in 1 to 4096"
    each_fails(room, ["--workers", "65"], SMALL_NET, b"", workers + more, 2)
    each_fails(room, ["--shards", "0"], SMALL_NET, b"", shards + more, 2)


def in_space(size, words, source=b""):
    """Runs the program with so many bytes of address space, and returns its result."""

    def limit():
        resource.setrlimit(resource.RLIMIT_AS, (size, size))

    return ran(words, source, preexec_fn=limit)


def least_space_for_help():
    """Returns the least address space, in whole pages, in which the help is printed."""
    page = resource.getpagesize()
    short, enough = 0, 1 << 18
    while enough - short > 1:
        middle = (short + enough) // 2
        if in_space(middle * page, ["--help"])[0] == 0:
            enough = middle
        else:
            short = middle
    return enough * page


def grown_space(last):
    """Returns thirty growing sizes of address space, from the least for the help to the last."""
    least = least_space_for_help()
    return [least + (last - least) * step**2 // 29**2 for step in range(30)]


@case
def little_address_space(_room):
    file, text = drawn_graph(8, 30_000, 200_000)
    for size in grown_space(32 << 20):
        found = in_space(size, ["--plain"], file)
        if found != (0, text, b""):
            expect(found, 4, b"", NO_MEMORY)
    expect(found, 0, text, b"")


@case
def no_more_memory_than_is_documented(room):
    # bytes per link and per vertex of `--plain` and of a run over no workers, from the table in docs/PERFORMANCE.md, and a
    # constant. Threads also need address space for their stacks: only 2^20 vertices start threads here, with small stacks. If
    # there are many arcs per vertex, `--plain` keeps only some links.
    rows = [(["--plain"], 45, 12), (over(0, 1), 32 + 12, 75)]
    beside = least_space_for_help() + 1_300_000
    one = b"p sp 1048576 1\na 1 1048576 7\n"
    graphs = [(2**20, 1, (one, one)), *((n, m, drawn_graph(21, n, m)) for n, m in [(900, 132_000), (10_000, 67_000), (10_000, 200_000)])]
    for words, each_link, each_vertex in rows:
        for vertices, arcs, (file, text) in graphs:
            links = arcs
            if words == ["--plain"] and arcs > max(65_536, 15 * vertices):
                links = min(arcs, max(10 * vertices, 32_768) + 8_192)
            space = beside + each_link * links + each_vertex * vertices

            def limit(space=space):
                resource.setrlimit(resource.RLIMIT_AS, (space, space))
                resource.setrlimit(resource.RLIMIT_STACK, (1 << 20, 1 << 20))

            found, _ = with_library(room, [Program.path, *words], file, {"PROCESSORS": "1"}, preexec_fn=limit)
            expect(found, 0, text, b"")


def enough_space(words, source, text, most):
    """Returns a size of address space in which the program writes this text, at most 64 KiB more than the least."""
    short, enough = 0, most >> 16
    while enough - short > 1:
        middle = (short + enough) // 2
        if in_space(middle << 16, words, source) == (0, text, b""):
            enough = middle
        else:
            short = middle
    return enough << 16


@case
def threads_take_no_more_address_space_than_is_documented(room):
    # compared with a run without threads. With few vertices and many arcs, threads make the list of links longer. The list of the
    # last graph then exceeds a power of two, so that its buffer is twice as large
    with open(f"{ROOT}/SECURITY.md", encoding="utf-8") as it:
        told = re.search(r"With `--threads`, allow twice the memory of `--plain`, and (\d+) MB more\. For each further thread, allow one stack \(`ulimit -s`\) and (0\.\d) MB\.", it.read())
    beside, each, stack = int(told[1]) * 10**6, int(float(told[2]) * 10**6), 8 << 20

    def limit(space):
        resource.setrlimit(resource.RLIMIT_STACK, (stack, resource.getrlimit(resource.RLIMIT_STACK)[1]))
        resource.setrlimit(resource.RLIMIT_AS, (space, space))

    for vertices, arcs in [(9, 700_000), (30_000, 200_000), (52_000, 900_000)]:
        file, text = drawn_graph(61, vertices, arcs)
        name = written(f"{room}/net.gr", file)
        alone = enough_space(["--plain", name], b"", text, 100 << 20)
        for threads in [2, 3, 4, 8]:
            documented = 2 * alone + beside + (threads - 1) * (stack + each)
            # (a size may be enough and a slightly larger one not, since another thread starts then)
            for more in [0, 10**6, 3 * 10**6, 6 * 10**6, 10**7, 2 * 10**7, 4 * 10**7]:
                found = ran(["--plain", "--threads", str(threads), name], preexec_fn=lambda space=documented + more: limit(space))
                if found != (0, text, b""):
                    raise AssertionError(f"{vertices} vertices, {threads} threads, {more} bytes more than is documented, compared with {alone}: {found!r:.300}")


@case
def little_address_space_for_workers(_room):
    file, text = drawn_graph(7, 3000, 10_000)
    for size in grown_space(1 << 30):
        found = in_space(size, [*over(2, 4), "--report"], file)
        expect_right_or_no_memory(found, text, 2, 4)
    # in a gigabyte both workers start
    expect((Report(found[2]).alone, b"", b""), 0, b"", b"")
