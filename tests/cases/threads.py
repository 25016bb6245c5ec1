"""Runs with several threads and no workers: the same output as with one, also on one processor, and if no thread starts."""
import contextlib
import functools
import os
import random
import resource
import subprocess
import threading

from cases.running import (
    SECONDS,
    SMALL_FOREST,
    SMALL_NET,
    SMALL_REPORT,
    Program,
    case,
    drawn_graph,
    expect,
    file_of,
    forest_text,
    ran,
    with_library,
    written,
)

THREADS = [1, 2, 3, 7, 9, 33, 64]


def by(threads):
    return ["--plain", "--threads", str(threads)]


@functools.cache
def drawn():
    """Returns a file whose forest has more links than seven threads write at a time, and the forest's text."""
    file, text = drawn_graph(21, 120_000, 300_000)
    if text.count(b"\na ") <= 7 * 8192:
        raise AssertionError("the forest is too small")
    return file, text


def large_graph(room):
    """Returns the name of this file, and the forest's text."""
    file, text = drawn()
    return written(f"{room}/large.gr", file), text


@case
def the_bytes_of_one_thread(room):
    name, text = large_graph(room)
    status, output, report = ran(["--plain", "--report", name])
    expect((status, output, b""), 0, text, b"")
    for threads in THREADS:
        expect(ran([*by(threads), "--report", name]), 0, text, report)
        expect(ran([*by(threads), "--report"], SMALL_NET), 0, SMALL_FOREST, SMALL_REPORT)


@case
def threads_of_malformed_files(_room):
    for threads in THREADS:
        expect(ran(by(threads), b"a 1 2 3\np sp 2 1\n"), 1, b"", b"boruvka: line 1: NoProblemYet\n")
        expect(ran(by(threads), b"p sp 2 2\na 1 2 5"), 1, b"", b"boruvka: line 3: MissingArcs\n")
        late = b"p sp 2 300001\n" + 300_000 * b"a 1 2 3\n" + b"a 1 3 3\n"
        expect(ran(by(threads), late), 1, b"", b"boruvka: line 300002: EndOutOfRange\n")


@case
def errors_anywhere_by_threads(room):
    # one thread reads the first MiB, and threads share the pieces after it
    file, _ = drawn()
    lines = file.splitlines(keepends=True)
    rng, faults = random.Random(5), [(b"x\n", "UnknownLine"), (b"a 1 2\n", "BadArc"), (b"a 1 120001 5\n", "EndOutOfRange"), (b"a 1 2 9223372036854775808\n", "WeightOutOfRange")]
    for place in [2, len(lines) - 1, *(rng.randrange(2, len(lines)) for _ in range(10))]:
        line, kind = rng.choice(faults)
        name = written(f"{room}/faulty.gr", b"".join([*lines[:place], line, *lines[place + 1 :]]))
        for threads in [2, 4, 64]:
            expect(ran([*by(threads), name]), 1, b"", b"boruvka: line %d: %s\n" % (place + 1, kind.encode()))


def ran_by_pieces(words, pieces):
    """Runs the program with an input that is written piece by piece. It may end before the last piece."""
    started = subprocess.Popen([Program.path, *words], stdin=subprocess.PIPE, stdout=subprocess.PIPE, stderr=subprocess.PIPE)
    output = []
    reader = threading.Thread(target=lambda: output.append(started.stdout.read()))
    reader.start()
    with contextlib.suppress(BrokenPipeError), started.stdin:
        for piece in pieces:
            started.stdin.write(piece)
            started.stdin.flush()
    reader.join()
    errors = started.stderr.read()
    return started.wait(SECONDS), output[0], errors


def cut(text, most, rng):
    """Returns the text in pieces of at most so many bytes."""
    at = 0
    while at < len(text):
        piece = text[at : at + rng.randint(1, most)]
        yield piece
        at += len(piece)


@case
def pipes_by_threads(_room):
    # a pipe delivers what was written to it so far, wherever that ends
    file, text = drawn()
    lines = file.splitlines(keepends=True)
    rng = random.Random(7)
    for most in [100, 5000, 65_536, 300_000, 5_000_000]:
        for threads in [2, 4, 64]:
            expect(ran_by_pieces(by(threads), cut(file, most, rng)), 0, text, b"")
            place = rng.randrange(2, len(lines))
            faulty = b"".join([*lines[:place], b"a 1 2\n", *lines[place + 1 :]])
            expect(ran_by_pieces(by(threads), cut(faulty, most, rng)), 1, b"", b"boruvka: line %d: BadArc\n" % (place + 1))


@case
def an_input_byte_by_byte_by_threads(room):
    file = b"p sp 2 150000\n" + 150_000 * b"a 1 2 3\n"
    for source in [file, file[:-1], file + b"c"]:
        found, _ = with_library(room, [Program.path, *by(2)], source, {"SHORT": "1"})
        expect(found, 0, b"p sp 2 1\na 1 2 3\n", b"")


@case
def reads_that_fail_after_what_threads_share(room):
    # 16 reads give the first MiB, each further one at most another MiB, and the last finds the end
    file, _ = drawn()
    front, behind = file[: 1 << 20].count(b"\n") + 1, file.count(b"\n") + 1
    last = 17 + len(file) // (1 << 20)
    if len(file) % (1 << 20) > (1 << 20) - 3 or last < 19:
        raise AssertionError(f"the file has {len(file)} bytes")
    name, faulty = written(f"{room}/good.gr", file), written(f"{room}/faulty.gr", file[:-1] + b" 0\n")
    at_front, at_end = b"boruvka: line %d: read failed\n" % front, b"boruvka: line %d: read failed\n" % behind
    fault = b"boruvka: line %d: BadArc\n" % (behind - 1)
    wanted = {name: {17: (3, at_front, b"x"), last: (3, at_end, b"x")}, faulty: {17: (3, at_front, b"x"), last: (1, fault, b"")}}
    for threads in [2, 4]:
        for it, ends in wanted.items():
            for number, (status, errors, failed) in ends.items():
                environment = {"FAIL_CALL": "read", "FAIL_NUMBER": str(number)}
                for words in [[*by(threads), it], by(threads)]:
                    with open(it, "rb") as source:
                        found, told = with_library(room, [Program.path, *words], source, environment)
                    expect(found, status, b"", errors)
                    if told != failed:
                        raise AssertionError(f"read {number}: told {told!r}")


@case
def threads_with_small_stacks(room):
    name, text = large_graph(room)
    for size in [128 << 10, 1 << 20]:

        def limit(size=size):
            resource.setrlimit(resource.RLIMIT_STACK, (size, size))

        for threads in THREADS:
            expect(ran([*by(threads), name], preexec_fn=limit), 0, text, b"")


@case
def threads_on_one_processor(room):
    name, text = large_graph(room)

    def limit():
        os.sched_setaffinity(0, {min(os.sched_getaffinity(0))})

    for threads in THREADS:
        expect(ran([*by(threads), name], preexec_fn=limit), 0, text, b"")


@case
def threads_that_do_not_start(room):
    name, text = large_graph(room)
    for first in [1, 2, 5]:
        for threads in THREADS:
            environment = {"FAIL_CALL": "thread", "FAIL_NUMBER": str(first), "FAIL_LAST": "1000000"}
            found, told = with_library(room, [Program.path, *by(threads), name], b"", environment)
            expect(found, 0, text, b"")
            if b"J" in told or threads == 1 and told:
                raise AssertionError(f"{threads} threads, from the {first}th on refused: told {told!r:.300}")


@case
def the_threads_that_are_asked_for(room):
    # on any number of processors exactly so many threads run at once, the first included: the 1.8 million edges are enough for
    # more than fifty, and so are those of two files. The light edges form a path, which is the forest
    vertices = 600_000
    path = [(v, v + 1, v % 7) for v in range(1, vertices)]
    heavier = [(v, v + step, 10 + v % 5) for step in (2, 3) for v in range(1, vertices - step + 1)]
    name = written(f"{room}/long.gr", file_of(vertices, path + heavier))
    text = forest_text(vertices, sorted((weight, u, v) for u, v, weight in path))
    for names in [[name], [name, name]]:
        for threads in THREADS:
            found, told = with_library(room, [Program.path, *by(threads), *names], b"", {"PROCESSORS": "1", "STARTED": "0"})
            expect(found, 0, text, b"")
            others = told.count(b"a")
            if b"J" in told or not min(threads - 1, 50) <= others < threads:
                raise AssertionError(f"{len(names)} files, {threads} threads, and {others} others at once: told {told!r:.300}")


@case
def a_long_file_by_threads_takes_no_more_memory(room):
    # loops give no links, so with one thread the length of the file needs no memory; the buffers of threads take 3 MiB
    count = 2**23
    name = f"{room}/loops.gr"
    with open(name, "wb") as it:
        it.write(b"p sp 1 %d\n" % count)
        for _ in range(8):
            it.write(b"a 1 1 5\n" * (count // 8))
    peaks = {}
    for threads in [1, 2, 4]:
        found, peak = with_library(room, [Program.path, *by(threads), name], b"", {"PEAK": "1"})
        expect(found, 0, b"p sp 1 0\n", b"")
        peaks[threads] = int(peak) << 10
    if peaks[1] > 4 << 20 or not all(2 << 20 < peaks[it] - peaks[1] < 5 << 20 for it in [2, 4]):
        raise AssertionError(f"bytes by so many threads: {peaks}")


@case
def a_file_that_grows_no_further_by_threads(room):
    name, text = large_graph(room)

    def limit():
        resource.setrlimit(resource.RLIMIT_FSIZE, (300_000, 300_000))

    for threads in THREADS:
        with open(f"{room}/short.gr", "wb") as short:
            status, _, errors = ran([*by(threads), name], output=short, preexec_fn=limit, restore_signals=False)
        with open(f"{room}/short.gr", "rb") as it:
            expect((status, it.read(), errors), 3, text[:300_000], b"boruvka: write failed after 300000 bytes\n")
