"""Runs the program and compares the results."""
import os
import shutil
import subprocess
from dataclasses import dataclass, replace

from cases.running import NO_MEMORY, SECONDS, Program, Report, expect, run, with_library, total_of, written
from cases.sockets import NOTHING
from cases.streams import LEAST_PIECE, READ_ROOM
from soaking.judging import result_for_failed_read, result_for_text, result_for_files, rounds_of


class Limits:
    """The longest time of a run, in seconds."""

    seconds = SECONDS


@dataclass
class Found:
    """The result of a run, and what a preloaded library recorded."""

    status: int
    output: bytes
    errors: bytes
    told: bytes

    @property
    def failed(self):
        """Returns how many calls or allocations failed."""
        return self.told.count(b"x")


def files_written(room, files):
    """Empties the folder of this path and writes the files that have a text, except standard input."""
    shutil.rmtree(room, ignore_errors=True)
    os.makedirs(room)
    for name, text in files:
        if name != "-" and text is not None:
            written(f"{room}/{name}", text)
    return room


def found_by(room, case):
    """Runs the program. (A FILE `-` is standard input.)"""
    if case.files:
        room = files_written(f"{room}/files", case.files)
    if case.given == "piped":
        return found_of(room, case, case.text)
    path = written(f"{room}/{case.given}", case.text)
    if case.is_named and case.given != "-":
        return found_of(room, case, b"")
    with open(path, "rb") as it:
        return found_of(room, case, it)


def found_of(room, case, source):
    words, more = [Program.path, *case.words], {"cwd": room, "seconds": Limits.seconds}
    if not case.library:
        return Found(*run(words, source, **more), b"")
    fails = {name: str(value) for name, value in case.fails.items()}
    found, told = with_library(room, words, source, fails, library=case.library, **more)
    return Found(*found, told)


def expect_result(case, found, answer):
    """Expects this result, with its report if one was asked for."""
    if found.status or answer.status or not case.report:
        expect((found.status, found.output, found.errors), answer.status, answer.output, answer.errors)
        return
    expect((found.status, found.output, b""), 0, answer.output, b"")
    report = Report(found.errors)
    wanted = {"vertices": answer.vertices, "links": answer.links, "total": total_of(answer.output)}
    if case.plain:
        wanted |= dict.fromkeys(["rounds", "shards", "asked", "answered", "alone", "closed"], 0)
    else:
        report.expect_equations(case.shards, case.workers)
        wanted["rounds"] = rounds_of(answer.vertices, answer.forest)
        if not case.library:
            wanted |= {"closed": 0, "alone": 0} if case.workers else {"closed": 0, "asked": 0}
    for name, value in wanted.items():
        if vars(report)[name] != value:
            raise AssertionError(f"not {name}={value}: {vars(report)}")


def expect_failed_read(case, found):
    """Expects a failed read to be reported with its line, or a read that found the end to have truncated the text."""
    number = case.fails["FAIL_NUMBER"]
    room = 1 if "SHORT" in case.fails else READ_ROOM
    come, answer = case.text[: (number - 1) * room], result_for_text(case.text)
    if found.failed:
        answer = result_for_text(come) if case.fails["FAIL_ERROR"] == NOTHING else result_for_failed_read(come)
    elif not answer.status and number <= -(-len(case.text) // room) + 1:
        raise AssertionError(f"read {number} didn't fail")
    expect_result(case, found, answer)


def expect_failed_write(case, found):
    """Expects a failed write to be reported with the bytes written before it. If it was to standard error, no line is there."""
    answer, number, output = result_for_text(case.text), case.fails["FAIL_NUMBER"], found.output
    is_told = found.failed == 1
    if answer.status or found.status == 0:
        if not answer.status and not (case.report and is_told):
            raise AssertionError("a failed write was ignored")
        expect((found.status, output, found.errors), answer.status, answer.output, b"")
        return
    line = f"boruvka: write failed after {len(output)} bytes\n".encode() if is_told else b""
    expect((found.status, output, found.errors), 3, answer.output[: len(output)], line)
    # the first line of the text is a write of its own
    least = answer.output.index(b"\n") + 1 + (number - 2) * LEAST_PIECE if number > 1 else 0
    if not least <= len(output) < len(answer.output):
        raise AssertionError(f"{len(output)} of {len(answer.output)} bytes went out before write {number}")


def expect_right(case, found):
    """Raises an error if the result of a run of this case is wrong."""
    call, more = case.fails.get("FAIL_CALL"), found.told.replace(b"x", b"")
    # (if writes move one byte, every byte of a frame looks like the first of a text)
    if more.replace(b"T", b"") if "SHORT" in case.fails else more:
        raise AssertionError(f"tests/failing.c told {more!r:.300}")
    if call == "read":
        expect_failed_read(case, found)
    elif call == "write" and found.failed:
        expect_failed_write(case, found)
    elif call == "write" and case.fails["FAIL_NUMBER"] == 1:
        raise AssertionError("the first write didn't fail")
    elif case.library == "refusing" and found.failed and found.status == 4:
        expect((found.status, found.output, found.errors), 4, b"", NO_MEMORY)
    else:
        expect_result(case, found, result_for_files(case.files) if case.files else result_for_text(case.text))


def runs_of(case):
    """Returns the case, and for a case with workers also the same with one thread."""
    return [case, replace(case, plain=True, words=["--plain", *case.words])] if case.sort == "workers" else [case]


def what_is_wrong_with(room, case):
    """Returns what is wrong with a case's runs, in which run, and its result, or None if nothing is wrong."""
    for it in runs_of(case):
        found = None
        try:
            found = found_by(room, it)
            expect_right(it, found)
        except subprocess.TimeoutExpired:
            return f"it took longer than {Limits.seconds} s", it, found
        except (AssertionError, OSError) as error:
            return str(error), it, found
    return None
