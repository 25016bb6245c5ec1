"""Makes each system call of the program fail once, in every position up to the last, with each of many errors.

The position of a call is its number among the calls of its name in one run. A failed call may have the effect that the
manual page states: for FILE or a stream an exit status and a line, for a worker the loss of that worker, for a close none.
"""
import itertools
import re
from errno import EAGAIN, ECONNRESET, EINPROGRESS, EINTR, EIO, EMFILE, ENOMEM, ENOSPC, EPIPE, ETIMEDOUT, errorcode

from cases.running import NOTHING_WRITTEN, SMALL_FOREST, SMALL_NET, Program, Report, case, drawn_graph, with_library, written
from cases.sockets import FAR, NOTHING
from cases.streams import LEAST_PIECE, READ_ROOM
from cases.workers import over

ERRORS = [ECONNRESET, EINTR, EAGAIN, ENOMEM, EMFILE, EPIPE]

# numbers of workers and shards; one thread has none
PLAIN = (0, 0)
OVER_WORKERS = [(2, 2), (3, 4)]

# the calls that make a worker, except for its thread, and how many of each it takes
MAKING = {
    "socket": 2,
    "setsockopt": 1,
    "bind": 1,
    "listen": 1,
    "getsockname": 2,
    "ioctl": 2,
    "connect": 1,
    "poll": 1,
    "hangup": 1,
    "getsockopt": 1,
    "nodelay": 2,
    "accept": 1,
}
# std retries these if they are interrupted, and no others: it waits for a connection again, also if the call that asks for
# its error is interrupted
TRIED_AGAIN = ["open", "poll", "getsockopt", "accept"]


def costs_nothing(call, error):
    return call in TRIED_AGAIN and error == EINTR


def arguments_for(size):
    return ["--plain"] if size == PLAIN else over(*size)


class Run:
    """Runs a command whose call of this name and number, or the calls up to another number, fail with this error. Returns
    its result, how many calls failed, and how many threads were joined. Expects that all threads were joined and that no
    text for the user went to a socket. The command sees one processor, unless more are given."""

    def __init__(self, room, command, source, call, number, error, last=None, processors=1):
        environment = {"FAIL_CALL": call, "FAIL_NUMBER": str(number), "FAIL_ERROR": str(error), "JOINED": "1"}
        environment["PROCESSORS"] = str(processors)
        if last:
            environment["FAIL_LAST"] = str(last)
        self.found, told = with_library(room, command, source, environment, seconds=20)
        self.number, self.error = number, error
        self.what = f"{' '.join(command[1:])}: {call} {number} {errorcode.get(error, 'nothing')}"
        telling = re.fullmatch(rb"(x*)(j*)", told)
        if not telling:
            raise AssertionError(f"{self.what}: told {told!r}: {self.found!r:.600}")
        self.failed, self.threads = len(telling[1]), len(telling[2])

    def expect(self, status, output, errors):
        wanted = (status, output, errors)
        if self.found != wanted:
            raise AssertionError(f"{self.what}: wanted {wanted!r:.300}, found {self.found!r:.600}")

    def expect_report(self, text, size):
        """Expects success, this output, and a report whose equations hold. Returns the report."""
        self.expect(0, text, self.found[2])
        report = Report(self.found[2])
        report.expect_total(text)
        if size != PLAIN:
            report.expect_equations(size[1], size[0])
        return report

    def expect_workers(self, text, size, left, without=0):
        """Expects success with so many workers left and no closed line. Each worker has a thread, and so has each ferry of
        a round except one, `without` those that couldn't be started."""
        report = self.expect_report(text, size)
        rounds = 0 if size == PLAIN else report.rounds + 1
        alone = 0 if left else rounds * size[1]
        threads = left + rounds * max(0, left - 1) - without
        if (report.alone, report.closed, self.threads) != (alone, 0, threads):
            raise AssertionError(f"{self.what}: {left} workers are left and {threads} threads: {self.threads}, {vars(report)}")


def each_position(room, command, source, call, errors, in_turn=1, processors=1):
    """Makes a call of this name, or so many in a row, fail at one position after another, with these errors in turn.
    Returns these runs. In the last run no call failed, because there were no more."""
    runs = []
    while not runs or runs[-1].failed:
        number = len(runs) + 1
        error = errors[number % len(errors)]
        runs.append(Run(room, command, source, call, number, error, number + in_turn - 1, processors))
    return runs


def each_error(room, size, graph, call, errors, more=(), processors=1):
    """Returns the runs over so many workers and shards in which a call of this name failed, as a list for each error. On
    the small network each position fails with each error, and on the others with one."""
    file, _ = graph
    command = [Program.path, *arguments_for(size), "--report", *more]
    turns = [[it] for it in errors] if file == SMALL_NET else [errors]
    source = b"" if more else file
    return [each_position(room, command, source, call, turn, processors=processors) for turn in turns]


def expect_positions(runs, count):
    if len(runs) - 1 != count:
        raise AssertionError(f"{runs[-1].what}: {len(runs) - 1} calls failed in turn, and not {count}")


def graphs():
    # (the shards of the second have weights of 64 bits)
    return [(SMALL_NET, SMALL_FOREST), drawn_graph(7, 3000, 10_000, 2**40)]


@case
def each_call_that_makes_a_worker_fails_by_each_error(room):
    # it is left out, and the others answer every ask
    for graph in graphs():
        for size in OVER_WORKERS:
            for call, count in MAKING.items():
                # (EINPROGRESS means that the connection is pending)
                errors = [*ERRORS, EINPROGRESS] if call == "connect" else ERRORS
                for runs in each_error(room, size, graph, call, errors):
                    expect_positions(runs, count * size[0])
                    for run in runs:
                        is_lost = run.failed and not costs_nothing(call, run.error)
                        run.expect_workers(graph[1], size, size[0] - is_lost)


@case
def a_worker_is_tried_again_after_up_to_four_strangers(room):
    # somebody else connects first to so many listeners in turn, also from the port of the expected client
    for file, text in graphs():
        for size, strangers, call in itertools.product(OVER_WORKERS, [1, 4, 5], ["stranger", "namesake"]):
            command = [Program.path, *arguments_for(size), "--report"]
            runs = each_position(room, command, file, call, [0], strangers)
            expect_positions(runs, size[0])
            for run in runs[:-1]:
                if run.failed != strangers:
                    raise AssertionError(f"{run.what}: {run.failed} strangers connected, and not {strangers}")
                run.expect_workers(text, size, size[0] - (strangers > 4))
            runs[-1].expect_workers(text, size, size[0])


@case
def no_socket_and_no_thread_by_one_thread(room):
    for call in [*MAKING, "recv", "send", "shutdown", "thread"]:
        for runs in each_error(room, PLAIN, (SMALL_NET, SMALL_FOREST), call, [ENOMEM]):
            expect_positions(runs, 0)
            runs[0].expect_workers(SMALL_FOREST, PLAIN, 0)


@case
def each_thread_fails_to_start_by_each_error(room):
    # the thread of a worker, which is left out, or of a ferry, without which the round continues
    for graph in graphs():
        for size in OVER_WORKERS:
            workers = size[0]
            for runs in each_error(room, size, graph, "thread", ERRORS):
                expect_positions(runs, runs[-1].threads)
                for run in runs:
                    is_lost = run.failed and run.number <= workers
                    run.expect_workers(graph[1], size, workers - is_lost, run.failed - is_lost)


@case
def each_close_fails_by_each_error(room):
    # closes of FILE, of the check of the standard descriptors, of each listener, and of both ends of each line
    for file, text in graphs():
        name = written(f"{room}/net.gr", file)
        for size in [PLAIN, *OVER_WORKERS]:
            for runs in each_error(room, size, (file, text), "close", ERRORS, [name]):
                expect_positions(runs, 1 if size == PLAIN else 2 + 3 * size[0])
                for run in runs:
                    run.expect_workers(text, size, size[0])


@case
def each_shutdown_fails_by_each_error(room):
    # for both ends of each line, which are closed anyway
    for graph in graphs():
        for size in OVER_WORKERS:
            for runs in each_error(room, size, graph, "shutdown", ERRORS):
                expect_positions(runs, 2 * size[0])
                for run in runs:
                    run.expect_workers(graph[1], size, size[0])


@case
def a_close_that_leaves_its_socket_open_keeps_nobody_waiting(room):
    # for each listener and both ends of each line: first one call, and then all
    for file, text in graphs():
        for size in OVER_WORKERS:
            command = [Program.path, *arguments_for(size), "--report"]
            runs = each_position(room, command, file, "unclosed", [EIO])
            expect_positions(runs, 3 * size[0])
            runs.append(Run(room, command, file, "unclosed", 1, EIO, FAR))
            if runs[-1].failed != 3 * size[0]:
                raise AssertionError(f"{runs[-1].what}: {runs[-1].failed} calls failed")
            for run in runs:
                run.expect_workers(text, size, size[0])


@case
def each_read_and_write_of_a_line_fails_by_each_error(room):
    # its line is closed, and the others answer its asks
    for graph in graphs():
        for size in OVER_WORKERS:
            for call in ["recv", "send"]:
                for runs in each_error(room, size, graph, call, [*ERRORS, ETIMEDOUT, NOTHING]):
                    reports = [it.expect_report(graph[1], size) for it in runs]
                    for run, report in zip(runs, reports):
                        if report.alone or report.closed > run.failed:
                            raise AssertionError(f"{run.what}: more than one line was lost: {vars(report)}")
                    closed = sum(it.closed for it in reports)
                    if len(runs) < 15 or closed < len(runs) // 2:
                        raise AssertionError(f"{call}: {len(runs) - 1} calls failed, and {closed} lines were closed")


@case
def a_worker_whose_session_failed_begins_no_other(room):
    # a hello begins each session
    for call in ["recv", "send"]:
        number = failed = 1
        while failed:
            environment = {"FAIL_CALL": call, "FAIL_NUMBER": str(number), "GREETED": "1"}
            found, told = with_library(room, [Program.path, *over(2, 4)], SMALL_NET, environment, seconds=20)
            failed = told.count(b"x")
            if found != (0, SMALL_FOREST, b"") or told.count(b"H") != 2:
                raise AssertionError(f"{call} {number}: told {told!r}: {found!r:.600}")
            number += 1
        if number < 20:
            raise AssertionError(f"only {number - 2} calls of {call} failed")


@case
def each_open_fails_by_each_error(room):
    # first the open of FILE, and then that of the check of the standard descriptors, without which no worker starts
    for file, text in graphs():
        name = written(f"{room}/net.gr", file)
        unopened = f"boruvka: cannot open {name}\n".encode()
        for size in [PLAIN, *OVER_WORKERS]:
            for runs in each_error(room, size, (file, text), "open", ERRORS, [name]):
                expect_positions(runs, 1 if size == PLAIN else 2)
                for run in runs:
                    if not run.failed or costs_nothing("open", run.error):
                        run.expect_workers(text, size, size[0])
                    elif run.number == 1:
                        run.expect(3, b"", unopened)
                    else:
                        run.expect_workers(text, size, 0)


@case
def what_holds_a_closed_descriptor_cannot_be_opened(room):
    # then no socket gets its number, since none is made; if the open is retried, there are workers as usual
    unread = b"boruvka: line 1: read failed\n"
    rows = [
        ("<&-", 2, unread),
        (">&-", 2, NOTHING_WRITTEN),
        ("<&- >&-", 3, unread),
        (">&- 2>&-", 3, b""),
        ("<&- >&- 2>&-", 3, b""),
    ]
    for closed, opens, errors in rows:
        for size in OVER_WORKERS:
            command = ["sh", "-c", f'exec "$0" "$@" {closed}', Program.path, *arguments_for(size)]
            for error in ERRORS:
                runs = each_position(room, command, SMALL_NET, "open", [error])
                expect_positions(runs, opens)
                for run in runs:
                    run.expect(3, b"", errors)
                    if bool(run.threads) != (not run.failed or costs_nothing("open", error)):
                        raise AssertionError(f"{run.what}: {run.threads} threads")


@case
def each_read_of_a_file_and_of_standard_input_fails(room):
    # it is reported with the line that it would have continued; the next read would succeed
    for file, text in [(SMALL_NET, SMALL_FOREST), drawn_graph(16, 20_000, 15_000)]:
        name = written(f"{room}/net.gr", file)
        reads = -(-len(file) // READ_ROOM) + 1
        for size in [PLAIN, *OVER_WORKERS]:
            for shell in ['exec "$@" "$0"', 'exec "$@" < "$0"']:
                command = ["sh", "-c", shell, name, Program.path, *arguments_for(size)]
                for error in [*ERRORS, EIO, ETIMEDOUT]:
                    runs = each_position(room, command, b"", "read", [error])
                    expect_positions(runs, reads)
                    for run in runs[:-1]:
                        line = file[: READ_ROOM * (run.number - 1)].count(b"\n") + 1
                        run.expect(3, b"", f"boruvka: line {line}: read failed\n".encode())
                    runs[-1].expect(0, text, b"")


def expect_writes(runs, text):
    """Expects of runs in which the first write fails, the second, and so on, and then none, that the bytes written before are
    reported. The first line of the text is a write of its own. Every other write except the last has at least 8 KiB less a
    line."""
    first = text.index(b"\n") + 1
    before = -first
    for run in runs[:-1]:
        output = run.found[1]
        run.expect(3, text[: len(output)], f"boruvka: write failed after {len(output)} bytes\n".encode())
        least = before + (first if run.number < 3 else LEAST_PIECE)
        if len(output) < least or run.number < 3 and len(output) != least:
            raise AssertionError(f"{run.what}: {len(output)} bytes went out, and {before} before the write before")
        before = len(output)
    runs[-1].expect(0, text, b"")
    if len(runs) - 1 <= -(-(len(text) - first) // 8192):
        raise AssertionError(f"only {len(runs) - 1} writes of {len(text)} bytes")


@case
def each_write_of_a_forest_fails(room):
    # the bytes written before it are reported, and nothing is written after it; the next write would succeed
    for file, text in [(SMALL_NET, SMALL_FOREST), drawn_graph(17, 6000, 12_000)]:
        for size in [PLAIN, *OVER_WORKERS]:
            for error in [*ERRORS, EIO, ENOSPC, NOTHING]:
                runs = each_position(room, [Program.path, *arguments_for(size)], file, "write", [error])
                expect_writes(runs, text)


@case
def a_failed_write_to_standard_error_changes_no_status(room):
    # (arguments, a file, the first and the last write that fail, status, output)
    missing = f"{room}/none.gr"
    rows = [
        (["--report"], SMALL_NET, 3, 3, 0, SMALL_FOREST),
        ([], SMALL_NET, 1, 2, 3, b""),
        ([], b"p sp 2 2\na 1 2 5\n", 1, 1, 1, b""),
        ([missing], b"", 1, 1, 3, b""),
        (["--shards", "0"], b"", 1, 1, 2, b""),
        (["--help"], b"", 1, 2, 3, b""),
    ]
    for more, file, first, last, status, output in rows:
        for size in [PLAIN, *OVER_WORKERS]:
            words = more if "--shards" in more else [*arguments_for(size), *more]
            for error in [*ERRORS, EIO, NOTHING]:
                run = Run(room, [Program.path, *words], file, "write", first, error, last)
                run.expect(status, output, b"")
                if run.failed != last - first + 1:
                    raise AssertionError(f"{run.what}: {run.failed} writes failed")


@case
def each_call_of_a_scan_by_threads_fails(room):
    # (the scan asks for the number of processors, for which a file is read too)
    size = (2, 1)
    graph = drawn_graph(11, 700, 140_000)
    for call in ["open", "sched_getaffinity", "thread", "close"]:
        for runs in each_error(room, size, graph, call, ERRORS, processors=4):
            if len(runs) < 2:
                raise AssertionError(f"{call}: no call failed")
            for run in runs:
                report = run.expect_report(graph[1], size)
                # (the first open is that of the check of the standard descriptors)
                is_alone = call == "open" and run.number == 1 and not costs_nothing(call, run.error)
                if report.closed or bool(report.alone) != is_alone:
                    raise AssertionError(f"{run.what}: a worker was lost: {vars(report)}")
