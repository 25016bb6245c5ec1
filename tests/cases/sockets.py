"""Calls of sockets and starts of threads that fail permanently, and what else sockets do. The output is the same, and only the
report shows it. The effect of a single failed call is in calls.py."""
import sys
from errno import EAGAIN, ECONNRESET, EINTR, ETIMEDOUT

from cases.running import NOTHING_WRITTEN, SMALL_FOREST, SMALL_NET, Program, Report, case, drawn_graph, expect, with_library
from cases.workers import over

WORKERS, SHARDS = 2, 4
FAR = str(10**9)
# instead of an error, a recv returns 0 and a send returns 0
NOTHING = 0


def failed_from(room, source, text, call, number, more, workers=WORKERS):
    """Returns the report of a run in which calls of this name failed from that number on, and how many failed."""
    words = [Program.path, *over(workers, SHARDS), "--report"]
    environment = {"FAIL_CALL": call, "FAIL_NUMBER": str(number), **more}
    (status, output, errors), told = with_library(room, words, source, environment, seconds=20)
    what = f"{call} {number} {more}"
    if (status, output) != (0, text):
        raise AssertionError(f"{what}: found {(status, output, errors)!r:.600}")
    if b"T" in told:
        raise AssertionError(f"{what}: a text for the user went to a socket")
    if b"J" in told:
        raise AssertionError(f"{what}: a thread was not joined")
    if b"A" in told:
        raise AssertionError(f"{what}: it listened on more than the loopback address")
    report = Report(errors)
    report.expect_equations(SHARDS, workers)
    return report, len(told)


def each_failed(room, source, text, call, **more):
    """Makes each call of this name fail in turn, until there are no more, and returns the reports of these runs."""
    reports = []
    while True:
        report, failed = failed_from(room, source, text, call, len(reports) + 1, more)
        if not failed:
            if report.alone or report.closed:
                raise AssertionError(f"{call} {more}: nothing failed, and a worker was lost: {vars(report)}")
            return reports
        reports.append(report)


def expect_not_tried_again(room, call, number, more):
    """With one worker, a call that fails closes the line, even if it would succeed the next time. Returns whether one failed
    and no line was closed: the last read of the worker comes at the end of its session."""
    report, failed = failed_from(room, SMALL_NET, SMALL_FOREST, call, number, more, workers=1)
    if failed > 1 or report.closed and report.alone + report.answered != 3 * SHARDS:
        raise AssertionError(f"{call} {number} {more}: {failed} calls failed: {vars(report)}")
    return bool(failed), bool(report.closed)


def expect_some(reports, least):
    if len(reports) < least:
        raise AssertionError(f"only {len(reports)} calls failed: is the library preloaded?")


def all_lost_from_there(room, source, text, error):
    """If all later calls fail too, the shards that no worker answered are scanned alone after both lines are closed."""
    for call in ["recv", "send"]:
        reports = each_failed(room, source, text, call, FAIL_ERROR=str(error), FAIL_LAST=FAR)
        expect_some(reports, 20)
        for report in reports:
            if report.alone and report.closed != WORKERS:
                raise AssertionError(f"{call} {error}: scanned alone while a line was open: {vars(report)}")
        if (reports[0].closed, reports[0].answered) != (WORKERS, 0):
            raise AssertionError(f"{call} {error}: an answer came over a dead line: {vars(reports[0])}")


def no_worker_left(room, call):
    """If every call of this name fails, all shards are scanned alone."""
    report, _ = failed_from(room, SMALL_NET, SMALL_FOREST, call, 1, {"FAIL_LAST": FAR})
    if (report.alone, report.asked) != (3 * SHARDS, 0):
        raise AssertionError(f"{call}: a worker was left: {vars(report)}")


@case
def no_listener_no_pair_and_no_thread_can_be_made(room):
    for call in ["socket", "setsockopt", "bind", "listen", "getsockname", "connect", "accept", "nodelay", "thread"]:
        for number in [1, 2]:
            failed_from(room, SMALL_NET, SMALL_FOREST, call, number, {"FAIL_LAST": FAR})
        no_worker_left(room, call)


@case
def a_stranger_connects_first(room):
    reports = each_failed(room, SMALL_NET, SMALL_FOREST, "stranger")
    expect_some(reports, 1)
    for report in reports:
        if report.alone or report.closed:
            raise AssertionError(f"no worker was left: {vars(report)}")
    no_worker_left(room, "stranger")


@case
def each_read_and_write_of_a_socket_fails_for_good(room):
    for error in [ECONNRESET, ETIMEDOUT, NOTHING]:
        all_lost_from_there(room, SMALL_NET, SMALL_FOREST, error)
    file, text = drawn_graph(7, 3000, 10_000)
    all_lost_from_there(room, file, text, ECONNRESET)


@case
def a_failed_read_or_write_of_a_socket_is_not_tried_again(room):
    for error in [ECONNRESET, EINTR, EAGAIN, ETIMEDOUT]:
        how = {"FAIL_ERROR": str(error)}
        for call, last in [("recv", 4), ("send", 0)]:
            number, passed = 1, []
            while True:
                failed, closed = expect_not_tried_again(room, call, number, how)
                if not failed:
                    break
                passed += [] if closed else [number]
                number += 1
            # (the number of reads differs a little from run to run)
            if number < 20 or any(it < number - last for it in passed):
                raise AssertionError(f"{call} {how}: {number - 1} calls failed, and no line was closed at {passed}")
            # if calls move one byte at a time, most are within a frame
            for number in [*range(1, 40), 222, 333, 444, 555, 666]:
                if expect_not_tried_again(room, call, number, {**how, "SHORT": "1"}) != (True, True):
                    raise AssertionError(f"{call} {how}, a byte at a time: nothing was closed at {number}")


@case
def nobody_else_is_listened_to(room):
    # the library records a listener on all addresses, but not the program's
    listen = "import socket, sys; it = socket.socket(); it.bind((sys.argv[1], 0)); it.listen()"
    for address, wanted in [("127.0.0.1", b""), ("0.0.0.0", b"A")]:
        found, told = with_library(room, [sys.executable, "-c", listen, address], b"", {})
        expect(found, 0, b"", b"")
        expect((told.strip(b"T"), b"", b""), wanted, b"", b"")
    failed_from(room, SMALL_NET, SMALL_FOREST, "none", 1, {}, workers=8)


@case
def no_thread_outlives_the_program(room):
    # a `j` is recorded for each joined thread: those of the workers, and more when they are asked
    file, text = drawn_graph(17, 6000, 12_000)
    ends = [
        (SMALL_NET, {}, (0, SMALL_FOREST, b"")),
        (b"p sp 2 2\na 1 2 5\n", {}, (1, b"", b"boruvka: line 3: MissingArcs\n")),
        (SMALL_NET, {"FAIL_CALL": "read"}, (3, b"", b"boruvka: line 1: read failed\n")),
        (SMALL_NET, {"FAIL_CALL": "write"}, (3, b"", NOTHING_WRITTEN)),
        (file, {"FAIL_CALL": "write"}, (3, b"", NOTHING_WRITTEN)),
        (SMALL_NET, {"OFFERS": "0"}, (5, b"", b"boruvka: link 1 2 17 was missed\n")),
    ]
    for source, how, wanted in ends:
        environment = {"JOINED": "1", "FAIL_NUMBER": "1", **how}
        found, told = with_library(room, [Program.path, *over(WORKERS, SHARDS)], source, environment, seconds=20)
        if found != wanted or told.strip(b"xj") or told.count(b"j") < WORKERS:
            raise AssertionError(f"wanted {wanted!r}, and each thread joined: found {found!r:.600}, told {told!r}")


@case
def answers_that_form_no_forest(room):
    # answers without offers miss the first link; with one offer per answer, two rounds (the most for six vertices) aren't enough
    for offers, sizes, why in [
        ("0", [(1, 1), (1, 3), (2, 4), (64, 64)], b"link 1 2 17 was missed"),
        ("1", [(1, 1)], b"round 3 is past the bound"),
    ]:
        for size in sizes:
            found, told = with_library(room, [Program.path, *over(*size), "--report"], SMALL_NET, {"OFFERS": offers}, seconds=20)
            expect(found, 5, b"", b"boruvka: " + why + b"\n")
            expect((told, b"", b""), b"", b"", b"")


@case
def one_of_sixty_four_workers_that_is_left_out(room):
    # no connection can be made to it, or its thread doesn't start
    for call in ["thread", "listen", "connect", "accept"]:
        for number in [1, 2, 33, 63, 64]:
            report, failed = failed_from(room, SMALL_NET, SMALL_FOREST, call, number, {}, workers=64)
            if (failed, report.alone, report.closed) != (1, 0, 0):
                raise AssertionError(f"{call} {number}: {failed} calls failed: {vars(report)}")


@case
def sockets_that_move_a_byte_at_a_time(room):
    report, _ = failed_from(room, SMALL_NET, SMALL_FOREST, "none", 1, {"SHORT": "1"})
    if (report.answered, report.closed) != (3 * SHARDS, 0):
        raise AssertionError(f"a worker was lost: {vars(report)}")
