"""Runs over workers: the forest doesn't depend on their number or on that of the shards, and the report's equations hold."""
import filecmp
import os
import random
import resource
import time

from cases.running import SMALL_FOREST, SMALL_NET, Program, Report, case, drawn_graph, expect, file_of, forest_of, forest_text, ran, with_library, written


def over(workers, shards):
    return ["--workers", str(workers), "--shards", str(shards)]


def expect_healthy(words, file, text, workers, shards):
    """Expects this text of a run over so many workers and shards, and that no worker is lost. Returns the report."""
    return healthy_report(ran([*over(workers, shards), "--report", *words], file), text, workers, shards)


def healthy_report(found, text, workers, shards):
    """Expects that a run gave this text and lost no worker. Returns its report."""
    status, output, errors = found
    expect((status, output, b""), 0, text, b"")
    report = Report(errors)
    report.expect_equations(shards, workers)
    report.expect_total(text)
    report.expect_no_worker_lost(workers)
    return report


@case
def the_report_for_each_number_of_workers_and_shards(_room):
    for workers in [0, 1, 2, 64]:
        for shards in [1, 2, 64, 4096]:
            status, output, errors = ran([*over(workers, shards), "--report"], SMALL_NET)
            Report(errors).expect_equations(shards, workers)
            # two rounds take links, and a third finds none; nothing fails
            asked, alone = (3 * shards, 0) if workers else (0, 3 * shards)
            line = f"vertices=6 links=8 rounds=2 shards={shards} asked={asked} answered={asked} alone={alone} closed=0 total=13\n"
            expect((status, output, errors), 0, SMALL_FOREST, line.encode())


@case
def two_workers_and_sixty_four_shards_by_default(_room):
    line = b"vertices=6 links=8 rounds=2 shards=64 asked=192 answered=192 alone=0 closed=0 total=13\n"
    expect(ran(["--report"], SMALL_NET), 0, SMALL_FOREST, line)
    expect(ran(["--report", "--workers", "2", "--shards", "64"], SMALL_NET), 0, SMALL_FOREST, line)


@case
def small_graphs(_room):
    # (file, forest text, merging rounds): no vertex, a loop, repeats, equal weights, the bound on rounds met, a negative weight
    rows = [
        ("p sp 0 0\n", "p sp 0 0\n", 0),
        ("p sp 1 1\na 1 1 5\n", "p sp 1 0\n", 0),
        ("p sp 2 3\na 1 2 7\na 2 1 7\na 1 2 4\n", "p sp 2 1\na 1 2 4\n", 1),
        ("p sp 3 3\na 1 2 5\na 2 3 5\na 1 3 5\n", "p sp 3 2\na 1 2 5\na 1 3 5\n", 1),
        (
            "p sp 8 7\na 1 2 1\na 3 4 1\na 5 6 1\na 7 8 1\na 2 3 2\na 6 7 2\na 4 5 3\n",
            "p sp 8 7\na 1 2 1\na 3 4 1\na 5 6 1\na 7 8 1\na 2 3 2\na 6 7 2\na 4 5 3\n",
            3,
        ),
        ("p sp 4 2\na 1 2 -3\na 3 4 0\n", "p sp 4 2\na 1 2 -3\na 3 4 0\n", 1),
    ]
    for file, text, rounds in rows:
        for workers, shards in [(0, 1), (1, 3), (2, 2), (3, 64)]:
            status, output, errors = ran([*over(workers, shards), "--report"], file.encode())
            expect((status, output, b""), 0, text.encode(), b"")
            report = Report(errors)
            report.expect_equations(shards, workers)
            report.expect_total(text.encode())
            if report.rounds != rounds:
                raise AssertionError(f"{file!r}: {rounds} rounds take links: {vars(report)}")
        expect(ran(["--plain"], file.encode()), 0, text.encode(), b"")


@case
def lists_so_long_that_they_are_scanned_by_threads(_room):
    file, text = drawn_graph(11, 700, 300_000)
    for workers, shards in [(0, 1), (1, 2), (2, 1)]:
        expect_healthy([], file, text, workers, shards)


@case
def forty_drawn_graphs_as_by_one_thread(_room):
    draw = random.Random(40)
    for seed in range(40):
        vertices = draw.choice([1, 2, 7, 60, 900])
        file, text = drawn_graph(100 + seed, vertices, draw.randint(0, 4 * vertices))
        expect(ran(["--plain"], file), 0, text, b"")
        workers, shards = draw.choice([0, 1, 2, 3, 8]), draw.choice([1, 2, 5, 64, 300])
        expect_healthy([], file, text, workers, shards)


@case
def a_larger_graph_over_workers(_room):
    file, text = drawn_graph(4, 5000, 60000)
    for workers, shards in [(1, 1), (2, 64), (4, 7)]:
        expect_healthy([], file, text, workers, shards)


@case
def answers_that_are_read_by_64_kib(room):
    # each of 10,000 vertices has an offer in the first answer. The links are sorted by their tails, so that the index next to
    # that of an offer is usually another link of the same vertex
    draw = random.Random(8125)
    rows = [(u, draw.randint(1, 10_000), draw.randint(1, 10**6)) for u in range(1, 10_001) for _ in range(6)]
    file, text = file_of(10_000, rows), forest_text(10_000, forest_of(10_000, rows))
    for workers, shards in [(1, 1), (2, 2)]:
        words = [Program.path, *over(workers, shards), "--report"]
        for more in [{}, {"WHOLE": "1"}]:
            found, told = with_library(room, words, file, more)
            healthy_report(found, text, workers, shards)
            expect((told, b"", b""), b"", b"", b"")


@case
def an_error_is_reported_before_workers_are_asked(_room):
    for words in [[], over(0, 1), over(2, 4)]:
        expect(ran([*words, "--report"], b"a 1 2 3\np sp 2 1\n"), 1, b"", b"boruvka: line 1: NoProblemYet\n")
        expect(ran([*words, "--report"], b"p sp 2 2\na 1 2 5\n"), 1, b"", b"boruvka: line 3: MissingArcs\n")
        expect(ran([*words, "none.gr"]), 3, b"", b"boruvka: cannot open none.gr\n")


def many_links(path, count, last):
    """Returns a file of so many links between two vertices. All weigh 3 except the last, which is this arc line."""
    with open(path, "wb") as it:
        it.write(b"p sp 2 %d\n" % count)
        for _ in range((count - 1) // 16384):
            it.write(b"a 1 2 3\n" * 16384)
        it.write(b"a 1 2 3\n" * ((count - 1) % 16384) + last)
    return path


@case
def one_shard_of_more_links_than_a_shard_may_have(room):
    name = many_links(f"{room}/wide.gr", 2**24 + 1, b"a 1 2 3\n")
    expect(ran([*over(1, 1), name]), 1, b"", b"boruvka: cut refused: ShardTooLarge\n")
    os.remove(name)


@case
def shards_that_are_exactly_full(room):
    # two of links that fit 32 bits, and one with a weight that doesn't, so that each link takes sixteen bytes of its frame
    for shards, last in [(2, b"a 1 2 2\n"), (1, b"a 1 2 -2147483649\n")]:
        name = many_links(f"{room}/full.gr", shards * 2**24, last)
        expect_healthy([name], b"", b"p sp 2 1\n" + last, 1, shards)
        os.remove(name)


@case
def one_worker_answers_sixty_four_shards_at_once(_room):
    # a frame that waits until the one before it is acknowledged takes 40 ms, and there are 192 asks
    words = over(1, 64)
    least = 60.0
    for _ in range(3):
        begun = time.monotonic()
        expect(ran(words, SMALL_NET), 0, SMALL_FOREST, b"")
        least = min(least, time.monotonic() - begun)
    if least > 0.5:
        raise AssertionError(f"it took {least:.2f} s at the least")


@case
def few_descriptors(_room):
    # a pair of sockets takes two or more; pairs that can't be made are left out
    for workers in [2, 64]:
        seen = set()
        for most in [*range(4, 24), 40, 80, 160, 320]:

            def limit(most=most):
                resource.setrlimit(resource.RLIMIT_NOFILE, (most, most))

            status, output, errors = ran([*over(workers, 4), "--report"], SMALL_NET, preexec_fn=limit)
            expect((status, output, b""), 0, SMALL_FOREST, b"")
            report = Report(errors)
            report.expect_equations(4, workers)
            if report.closed:
                raise AssertionError(f"{most} descriptors: a worker was lost: {vars(report)}")
            seen.add(report.alone)
        # with four descriptors there is no line, and with 320 there are some
        if seen != {0, 12}:
            raise AssertionError(f"shards scanned alone: {seen}")


# Sizes for which the proved tests have no time


def forty_times(seed, vertices, arcs):
    """Returns a file with forty copies of the links of a random graph, and the text of its forest, which is the same."""
    file, text = drawn_graph(seed, vertices, arcs)
    return b"p sp %d %d\n" % (vertices, 40 * arcs) + file.partition(b"\n")[2] * 40, text


def started_by(room, file, text, workers, shards, processors):
    """Returns the report of a run on so many processors, and what was recorded of the threads that it started."""
    words = [Program.path, *over(workers, shards), "--report"]
    found, told = with_library(room, words, file, {"PROCESSORS": str(processors), "STARTED": str(workers)})
    if b"J" in told:
        raise AssertionError(f"{workers} workers: a thread was not joined")
    return healthy_report(found, text, workers, shards), told


@case
def a_list_halved_three_times(room):
    # on eight processors eight threads scan all of them, one of which was there already
    file, text = forty_times(13, 600, 30_000)
    for workers, shards in [(0, 1), (1, 1)]:
        report, told = started_by(room, file, text, workers, shards, 8)
        # without a worker each round scans all of them, also the last, which takes none; a worker does so in the first
        own, others = told.count(b"w"), told.count(b"s")
        if own < 7 if workers else others != 7 * (report.rounds + 1):
            raise AssertionError(f"{workers} workers: told {told!r}: {vars(report)}")


@case
def a_scan_has_no_more_threads_than_processors(room):
    # except that of the worker, for which the coordinator waits, and the other way round
    file, text = forty_times(13, 600, 30_000)
    for processors, workers in [(1, 0), (3, 0), (16, 0), (16, 1)]:
        _, told = started_by(room, file, text, workers, 1, processors)
        most = told.count(b"a")
        if most > workers + processors - 1 or processors > 1 and most < workers + 1:
            raise AssertionError(f"{processors} processors, {workers} workers: {most} threads at once: told {told!r}")


@case
def a_round_starts_few_threads(room):
    # a step of a round divides all answers among four threads: no answer has its own threads, unless it is very long
    file, text = drawn_graph(31, 120_000, 400_000)
    for shards in [2, 16, 64]:
        report, told = started_by(room, file, text, 2, shards, 4)
        if not report.rounds < told.count(b"s") <= 10 * (report.rounds + 1):
            raise AssertionError(f"{shards} shards: {report.rounds} rounds, told {told!r}")


@case
def each_worker_that_is_asked_for_is_started(room):
    # each sends one hello, and has a thread; another thread starts for each lane of a round except one
    for workers in [1, 3, 63, 64]:
        words = [Program.path, *over(workers, 4), "--report"]
        found, told = with_library(room, words, SMALL_NET, {"PROCESSORS": "4", "STARTED": str(workers), "GREETED": "1"})
        report = healthy_report(found, SMALL_FOREST, workers, 4)
        threads = workers + (report.rounds + 1) * (workers - 1)
        if (told.count(b"H"), told.count(b"s")) != (workers, threads):
            raise AssertionError(f"{workers} workers: wanted {threads} threads: told {told!r}")


@case
def more_than_255_shards_of_more_than_4096_links(_room):
    file, text = forty_times(13, 600, 30_000)
    expect_healthy([], file, text, 2, 280)


@case
def two_hundred_thousand_links(_room):
    # (the last in one SHARD)
    file, text = drawn_graph(15, 2000, 200_000)
    for workers, shards in [(0, 4096), (3, 4096), (33, 64), (64, 65), (1, 1)]:
        expect_healthy([], file, text, workers, shards)


@case
def a_forest_of_more_than_65536_links(room):
    file, text = drawn_graph(14, 100_000, 150_000)
    if text.count(b"\na ") <= 65_536:
        raise AssertionError("the forest is too small")
    name = written(f"{room}/net.gr", file)
    expect(ran(["--plain", name]), 0, text, b"")
    for workers, shards in [(0, 5), (2, 64)]:
        expect_healthy([name], b"", text, workers, shards)


@case
def a_session_of_more_than_65536_frames(room):
    # a path where the weight of a link is the number of zeros at the end of its number: each round merges pairs, so the rounds
    # are as many as possible, and one worker gets 4,096 shards and 16 asks for each
    rows = b"".join(b"a %d %d %d\n" % (it, it + 1, (it & -it).bit_length() - 1) for it in range(1, 32_768))
    name = written(f"{room}/path.gr", b"p sp 32768 32767\n" + rows)
    text = ran(["--plain", name])[1]
    if sorted(text.splitlines()[1:]) != sorted(rows.splitlines()) or text[:17] != b"p sp 32768 32767\n":
        raise AssertionError("the forest of a path is the path")
    report = expect_healthy([name], b"", text, 1, 4096)
    if (report.rounds, report.asked) != (15, 65_536):
        raise AssertionError(f"wanted 15 rounds and 65,536 asks: {vars(report)}")


def write_path(name, vertices, numbers):
    """Returns a file of these links of a path, by lower endpoint. A link weighs the number of zero bits that its endpoint ends
    with."""
    with open(name, "wb") as it:
        it.write(b"p sp %d %d\n" % (vertices, vertices - 1))
        for ends in numbers:
            it.write("".join([f"a {v} {v + 1} {(v & -v).bit_length() - 1}\n" for v in ends]).encode())
    return name


@case
def as_many_rounds_as_two_million_vertices_can_have(room):
    # the same path, halved 21 times, from 2^21 components to one. Its forest has the links of each weight in turn
    vertices = 2**21
    file = write_path(f"{room}/path.gr", vertices, [range(1, vertices)])
    forest = write_path(f"{room}/forest.gr", vertices, [range(1 << weight, vertices, 2 << weight) for weight in range(21)])
    with open(f"{room}/found.gr", "wb") as output:
        status, _, errors = ran([*over(2, 2), "--report", file], output=output)
    line = b"vertices=2097152 links=2097151 rounds=21 shards=2 asked=44 answered=44 alone=0 closed=0 total=2097130\n"
    expect((status, b"", errors), 0, b"", line)
    if not filecmp.cmp(f"{room}/found.gr", forest, shallow=False):
        raise AssertionError("the forest of a path is the path")


@case
def as_many_vertices_as_there_can_be(_room):
    file = b"p sp 67108864 1\na 1 67108864 -7\n"
    expect(ran(["--plain"], file), 0, file, b"")
    file = b"p sp 67108864 0\n"
    expect_healthy([], file, file, 1, 1)


@case
def an_answer_of_as_many_offers_as_there_can_be(room):
    # each of 2^25 vertices picks the link to its neighbour, all in one shard: the file is its own forest
    vertices = 2**25
    name, output = f"{room}/pairs.gr", f"{room}/forest.gr"
    with open(name, "wb") as it:
        it.write(b"p sp %d %d\n" % (vertices, vertices // 2))
        for at in range(0, vertices, 2**16):
            it.write("".join([f"a {v} {v + 1} 5\n" for v in range(at + 1, at + 2**16, 2)]).encode())
    with open(output, "wb") as it:
        status, _, errors = ran([*over(1, 1), "--report", name], output=it)
    line = b"vertices=33554432 links=16777216 rounds=1 shards=1 asked=2 answered=2 alone=0 closed=0 total=83886080\n"
    expect((status, b"", errors), 0, b"", line)
    if not filecmp.cmp(name, output, shallow=False):
        raise AssertionError("the forest of pairs isn't their text")
    os.remove(name)
    os.remove(output)


@case
def more_than_two_to_the_25_links(room):
    name = many_links(f"{room}/wide.gr", 2**25 + 1, b"a 1 2 2\n")
    text = b"p sp 2 1\na 1 2 2\n"
    expect(ran(["--plain", name]), 0, text, b"")
    expect_healthy([name], b"", text, 1, 3)
    os.remove(name)
