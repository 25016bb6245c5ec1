"""What `--progress` prints to standard error: how much was read, after every 16 million bytes."""
import os
import re
import subprocess

from cases.running import NOTHING_WRITTEN, SMALL_FOREST, SMALL_NET, SMALL_REPORT, Program, case, expect, ran, run, with_library, written

# a comment of a thousand bytes
COMMENT = b"c" + 998 * b"." + b"\n"
# 40 million bytes, and a little more
LONG_NET = 40_000 * COMMENT + SMALL_NET
TOLD = b"read 16 MB\rread 32 MB\rread 40 MB\n"
MODES = [["--plain"], ["--workers", "0"], ["--workers", "2", "--shards", "2"]]


@case
def how_much_was_read_of_a_pipe(_room):
    for words in MODES:
        expect(ran([*words, "--progress"], LONG_NET), 0, SMALL_FOREST, TOLD)
    expect(ran(["--progress", "--plain", "--report"], LONG_NET), 0, SMALL_FOREST, TOLD + SMALL_REPORT)


@case
def how_much_was_read_of_a_file(room):
    name = written(f"{room}/long.gr", LONG_NET)
    expect(ran(["--plain", "--progress", name]), 0, SMALL_FOREST, TOLD)
    # threads read more at a time, and so do runs over workers
    for words in [["--plain", "--threads", "4"], *MODES[1:]]:
        status, output, errors = ran([*words, "--progress", name])
        if not re.fullmatch(rb"read 1[6-9] MB\rread 3[2-9] MB\rread 40 MB\n", errors):
            raise AssertionError(f"{words}: {errors!r}")
        expect((status, output, b""), 0, SMALL_FOREST, b"")


@case
def nothing_is_shown_unasked_or_for_a_short_file(_room):
    for words in MODES:
        expect(ran(words, LONG_NET), 0, SMALL_FOREST, b"")
        expect(ran([*words, "--progress"], SMALL_NET), 0, SMALL_FOREST, b"")
    # one byte less than the first step, and exactly that
    expect(ran(["--plain", "--progress"], (15_999_999 - len(SMALL_NET)) * b"\n" + SMALL_NET), 0, SMALL_FOREST, b"")
    told = b"read 16 MB\rread 16 MB\n"
    expect(ran(["--plain", "--progress"], (16_000_000 - len(SMALL_NET)) * b"\n" + SMALL_NET), 0, SMALL_FOREST, told)


@case
def an_error_begins_a_line(_room):
    # so that a search in a log finds it as a line of the program
    malformed = 20_000 * COMMENT + b"x\n" + SMALL_NET
    for words in MODES:
        told = b"read 16 MB\r\nboruvka: line 20001: UnknownLine\n"
        expect(ran([*words, "--progress"], malformed), 1, b"", told)
        # (nothing was shown, or its line was ended)
        expect(ran([*words, "--progress"], COMMENT + b"x\n"), 1, b"", b"boruvka: line 2: UnknownLine\n")
        # (it is reported one line past the end)
        file = LONG_NET[: -len(b"a 6 5 20\n")]
        cut = b"read 16 MB\rread 32 MB\rread 40 MB\nboruvka: line %d: MissingArcs\n" % (file.count(b"\n") + 1)
        expect(ran([*words, "--progress"], file), 1, b"", cut)


@case
def a_failed_read_begins_a_line(room):
    # 300 reads of 65,536 bytes are more than the first step; the line that follows is computed here
    name = written(f"{room}/long.gr", LONG_NET)
    line = LONG_NET[: 300 * 65_536].count(b"\n") + 1
    environment = {"FAIL_CALL": "read", "FAIL_NUMBER": "301"}
    found, told = with_library(room, [Program.path, "--plain", "--progress", name], b"", environment)
    expect(found, 3, b"", b"read 16 MB\r\nboruvka: line %d: read failed\n" % line)
    expect((told, b"", b""), b"x", b"", b"")


@case
def a_failed_write_begins_a_line(room):
    name = written(f"{room}/long.gr", LONG_NET)
    for words in MODES:
        with open("/dev/full", "wb") as full:
            status, _, errors = ran([*words, "--progress", name], output=full)
        lines = errors.split(b"\n")
        expect((status, lines[0][-10:], lines[1:]), 3, b"read 40 MB", [NOTHING_WRITTEN[:-1], b""])


@case
def a_standard_error_that_is_closed_or_full(room):
    words = [Program.path, "--plain", "--progress"]
    expect(run(["sh", "-c", 'exec "$@" 2>&-', "sh", *words], LONG_NET), 0, SMALL_FOREST, b"")
    name = written(f"{room}/long.gr", LONG_NET)
    with open("/dev/full", "wb") as full, open(name, "rb") as source:
        ended = subprocess.run(words, stdin=source, stdout=subprocess.PIPE, stderr=full, timeout=60)
    expect((ended.returncode, ended.stdout, b""), 0, SMALL_FOREST, b"")
    # its reader has closed it
    reader, writer = os.pipe()
    os.close(reader)
    try:
        with open(name, "rb") as source:
            ended = subprocess.run(words, stdin=source, stdout=subprocess.PIPE, stderr=writer, timeout=60)
    finally:
        os.close(writer)
    expect((ended.returncode, ended.stdout, b""), 0, SMALL_FOREST, b"")
