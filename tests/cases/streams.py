"""Streams that fail or are slow: a full output, an output whose reader closes it, closed descriptors, an input byte by byte.
Reads and writes that fail once are in calls.py."""
import fcntl
import os
import re
import resource
import select
import subprocess
import sys
import termios
import time

from cases.running import (
    NOTHING_WRITTEN,
    SECONDS,
    SMALL_FOREST,
    SMALL_NET,
    Program,
    Skipped,
    case,
    drawn_graph,
    expect,
    ran,
    with_library,
    written,
)

# returns the capacity of a pipe, on Linux (`fcntl` has the name from Python 3.10 on)
PIPE_SIZE = 1032

# how much one thread reads at once from a FILE and from standard input, and the least size of a write before the last
READ_ROOM = 65_536
LEAST_PIECE = 8192 - 64

# one thread, and workers
MODES = [["--plain"], ["--workers", "2", "--shards", "4"]]


@case
def an_output_that_is_full(_room):
    for words in [*MODES, ["--help"]]:
        with open("/dev/full", "wb") as full:
            status, _, errors = ran(words, SMALL_NET, output=full)
        expect((status, b"", errors), 3, b"", NOTHING_WRITTEN)


@case
def an_output_that_nobody_reads(_room):
    for words in [*MODES, ["--help"]]:
        reader, writer = os.pipe()
        os.close(reader)
        try:
            status, _, errors = ran(words, SMALL_NET, output=writer)
        finally:
            os.close(writer)
        expect((status, b"", errors), 3, b"", NOTHING_WRITTEN)


def left_by_its_reader(words, count):
    """Runs the program with a reader that reads so many bytes, waits until the pipe is full, and closes it. Returns the exit
    status, the bytes that were read and standard error, and the least and the most bytes that the pipe accepted."""
    reader, writer = os.pipe()
    most = fcntl.fcntl(writer, PIPE_SIZE)
    with subprocess.Popen([Program.path, *words], stdout=writer, stderr=subprocess.PIPE) as started:
        try:
            begun = os.read(reader, count) if select.select([reader], [], [], SECONDS)[0] else b""
            while begun and started.poll() is None and select.select([], [writer], [], 0)[1]:
                time.sleep(0.001)
            waiting = int.from_bytes(fcntl.ioctl(reader, termios.FIONREAD, bytes(4)), sys.byteorder)
        finally:
            os.close(reader)
            os.close(writer)
        errors = started.communicate(timeout=SECONDS)[1]
    return (started.returncode, begun, errors), (len(begun) + waiting, most)


@case
def an_output_whose_reader_takes_ten_bytes(room):
    file, text = drawn_graph(12, 20_000, 60_000)
    name = written(f"{room}/net.gr", file)
    for words in MODES:
        (status, begun, errors), (least, most) = left_by_its_reader([*words, name], 10)
        if most >= len(text):
            raise AssertionError(f"a pipe of {most} bytes holds the forest's {len(text)}")
        expect((status, begun, b""), 3, text[:10], b"")
        told = re.fullmatch(rb"boruvka: write failed after (\d+) bytes\n", errors)
        if not told or not least <= int(told[1]) <= most:
            raise AssertionError(f"wanted {least} to {most} bytes told, found {errors!r:.300}")


@case
def an_output_that_takes_ten_bytes(room):
    # a limit on the size of a file, whose signal is ignored
    def limit():
        resource.setrlimit(resource.RLIMIT_FSIZE, (10, 10))

    for words in MODES:
        with open(f"{room}/forest.gr", "wb") as short:
            status, _, errors = ran(words, SMALL_NET, output=short, preexec_fn=limit, restore_signals=False)
        with open(f"{room}/forest.gr", "rb") as it:
            expect((status, it.read(), errors), 3, SMALL_FOREST[:10], b"boruvka: write failed after 10 bytes\n")


@case
def a_standard_input_that_cannot_be_read(_room):
    # a descriptor that is open only for writing
    for words in MODES:
        with open(os.devnull, "wb") as written_only:
            expect(ran(words, written_only), 3, b"", b"boruvka: line 1: read failed\n")


@case
def a_standard_error_that_is_full(_room):
    # a line that can't be written changes nothing else
    for words in MODES:
        with open("/dev/full", "wb") as full:
            ended = subprocess.run([Program.path, *words, "--report"], input=SMALL_NET, stdout=subprocess.PIPE, stderr=full, timeout=SECONDS)
        expect((ended.returncode, ended.stdout, b""), 0, SMALL_FOREST, b"")


@case
def closed_descriptors(room):
    # a closed descriptor stays unused: no socket and no FILE gets its number
    name = written(f"{room}/net.gr", SMALL_NET)
    unread = b"boruvka: line 1: read failed\n"
    rows = [
        (">&-", [name], 3, b"", NOTHING_WRITTEN),
        (">&-", [], 3, b"", NOTHING_WRITTEN),
        ("<&-", [name], 0, SMALL_FOREST, b""),
        ("<&-", [], 3, b"", unread),
        ("2>&-", [name, "--report"], 0, SMALL_FOREST, b""),
        ("2>&-", ["--report"], 0, SMALL_FOREST, b""),
        ("<&- >&-", [name], 3, b"", NOTHING_WRITTEN),
        ("<&- >&-", [], 3, b"", unread),
        (">&- 2>&-", [name, "--report"], 3, b"", b""),
        (">&- 2>&-", [], 3, b"", b""),
        ("<&- 2>&-", [name, "--report"], 0, SMALL_FOREST, b""),
        ("<&- 2>&-", [], 3, b"", b""),
        ("<&- >&- 2>&-", [name], 3, b"", b""),
        ("<&- >&- 2>&-", [], 3, b"", b""),
        (">&-", ["--help"], 3, b"", NOTHING_WRITTEN),
    ]
    for words in MODES:
        for closed, more, status, output, errors in rows:
            shell = ["sh", "-c", f'exec "$0" "$@" {closed}']
            found, told = with_library(room, [*shell, Program.path, *words, *more], SMALL_NET, {}, seconds=10)
            if (found, told) != ((status, output, errors), b""):
                raise AssertionError(f"{closed} {words} {more}: {found!r:.600}, told {told!r}")


@case
def an_input_that_comes_a_byte_at_a_time(_room):
    for words in MODES:
        with subprocess.Popen([Program.path, *words], stdin=subprocess.PIPE, stdout=subprocess.PIPE, bufsize=0) as started:
            for at in range(len(SMALL_NET)):
                started.stdin.write(SMALL_NET[at : at + 1])
                time.sleep(0.001)
            output = started.communicate(timeout=SECONDS)[0]
        expect((started.returncode, output, b""), 0, SMALL_FOREST, b"")


def fed_with_gibs(words):
    """Runs the program on more than 4 GiB of input: links before comments of 2 GiB, after them, and after another 2 GiB. The
    case is skipped if that would take more than half a minute."""
    comment = b"c" + ((1 << 20) - 2) * b"-" + b"\n"
    begun = time.monotonic()
    with subprocess.Popen([Program.path, *words], stdin=subprocess.PIPE, stdout=subprocess.PIPE, stderr=subprocess.PIPE) as started:
        started.stdin.write(b"p sp 4 3\na 1 2 5\n")
        try:
            for at in range(4096):
                started.stdin.write(comment)
                if at == 2047:
                    started.stdin.write(b"a 2 3 -4\n")
                if at % 128 == 127 and (time.monotonic() - begun) * 4096 > 30 * (at + 1):
                    started.kill()
                    raise Skipped(f"{at + 1} MiB took {time.monotonic() - begun:.0f} s")
            started.stdin.write(b"a 3 4 7\n")
        except BrokenPipeError:
            pass  # its result shows the reason
        output, errors = started.communicate(timeout=SECONDS)
    return started.returncode, output, errors


@case
def inputs_of_more_than_4_GiB(_room):
    for words in [["--plain"], ["--plain", "/dev/stdin"]]:
        expect(fed_with_gibs(words), 0, b"p sp 4 3\na 2 3 -4\na 1 2 5\na 3 4 7\n", b"")


@case
def reads_of_64_KiB_and_one_write_for_each_8_KiB(room):
    file, text = drawn_graph(18, 20_000, 40_000)
    name = written(f"{room}/net.gr", file)
    reads = -(-len(file) // READ_ROOM) + 1
    for words in MODES:
        found, told = with_library(room, [Program.path, *words, name], b"", {"COUNTED": "1", "PROCESSORS": "1"})
        expect(found, 0, text, b"")
        # the first line of the text is a write of its own
        lines, writes = len(text) - text.index(b"\n") - 1, told.count(b"w")
        if told.count(b"R") != reads or told.strip(b"Rw") or not -(-lines // 8192) < writes <= lines // LEAST_PIECE + 2:
            raise AssertionError(f"{words}: {len(file)} bytes in, {len(text)} out: {told!r:.600}")


@case
def by_threads_reads_of_more_and_one_write_for_each_8192_links(room):
    file, text = drawn_graph(18, 40_000, 100_000)
    name = written(f"{room}/net.gr", file)
    links = text.count(b"\n") - 1
    for words, processors in [(["--plain", "--threads", "2"], "1"), (MODES[1], "2")]:
        found, told = with_library(room, [Program.path, *words, name], b"", {"COUNTED": "1", "PROCESSORS": processors})
        expect(found, 0, text, b"")
        # the first MiB is read as with one thread, and the rest in one read; the first line of the text is a write of its own
        if told != b"R" * -(-(1 << 20) // READ_ROOM) + b"rr" + b"w" * (1 + -(-links // 8192)):
            raise AssertionError(f"{words}: {len(file)} bytes in, {links} links out: {told!r:.600}")
