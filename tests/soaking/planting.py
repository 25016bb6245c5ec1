"""Wrong outputs. Each has to be reported as a mismatch; otherwise the comparison that it is for can't fail."""
import re
import signal
from dataclasses import replace

from cases.running import NO_MEMORY, escaped
from soaking.comparing import Found
from soaking.judging import result_for_text, result_for_files

PLANTS = {}


def plant(function):
    PLANTS[function.__name__.replace("_", " ")] = function
    return function


def with_errors(found, pattern, by):
    """Returns the result with the number changed that this pattern finds in standard error, or None if there is none."""
    it = re.search(pattern, found.errors)
    if not it:
        return None
    return replace(found, errors=found.errors[: it.start(1)] + b"%d" % (int(it[1]) + by) + found.errors[it.end(1) :])


@plant
def a_link_of_the_forest_replaced(_case, found):
    lines = found.output.split(b"\n")
    if found.status or len(lines) < 3:
        return None
    lines[1] = lines[1] + b"0" if not lines[1].endswith(b" 0") else lines[1][:-1] + b"1"
    return replace(found, output=b"\n".join(lines))


@plant
def two_links_in_another_order(_case, found):
    lines = found.output.split(b"\n")
    if found.status or len(lines) < 4:
        return None
    lines[1:3] = lines[2], lines[1]
    return replace(found, output=b"\n".join(lines))


@plant
def a_forest_without_its_last_line_feed(_case, found):
    return None if found.status else replace(found, output=found.output[:-1])


@plant
def an_error_a_line_later(_case, found):
    return with_errors(found, rb"line (\d+): [A-Z]", 1)


@plant
def an_error_of_another_kind(_case, found):
    errors = found.errors.replace(b"BadArc", b"EndOutOfRange").replace(b"MissingArcs", b"TooManyArcs")
    return replace(found, errors=errors) if errors != found.errors else None


@plant
def an_error_ignored(_case, found):
    return replace(found, status=0, output=b"p sp 2 0\n", errors=b"") if found.status == 1 else None


@plant
def a_valid_text_rejected(_case, found):
    return None if found.status else replace(found, status=1, output=b"", errors=b"boruvka: line 1: BadProblem\n")


@plant
def a_forest_with_an_error(_case, found):
    return replace(found, output=b"p sp 2 0\n") if found.status in (1, 4) else None


@plant
def a_total_that_is_one_more(_case, found):
    return with_errors(found, rb"total=(-?\d+)", 1)


@plant
def a_round_more_in_the_report(_case, found):
    return with_errors(found, rb"rounds=(\d+)", 1)


@plant
def one_link_less_in_the_report(_case, found):
    return with_errors(found, rb"links=(\d+)", -1)


@plant
def an_ask_more_in_the_report(_case, found):
    return with_errors(found, rb"asked=(\d+)", 1)


@plant
def a_worker_lost(case, found):
    if case.library or case.plain:
        return None
    asked = with_errors(found, rb"asked=(\d+)", 1)
    return asked and with_errors(asked, rb"closed=(\d+)", 1)


@plant
def no_report(_case, found):
    return replace(found, errors=b"") if b"total" in found.errors else None


@plant
def a_report_that_nobody_asked_for(case, found):
    line = b"vertices=1 links=0 rounds=0 shards=0 asked=0 answered=0 alone=0 closed=0 total=0\n"
    return None if found.status or case.report else replace(found, errors=line)


@plant
def a_failed_read_a_line_later(_case, found):
    return with_errors(found, rb"line (\d+): read failed", 1)


@plant
def a_failed_read_ignored(case, found):
    if found.status != 3 or b"read" not in found.errors:
        return None
    whole = result_for_text(case.text)
    return Found(whole.status, whole.output, whole.errors, found.told)


@plant
def a_failed_write_a_byte_later(_case, found):
    return with_errors(found, rb"write failed after (\d+)", 1)


@plant
def another_byte_before_a_failed_write(_case, found):
    return replace(found, output=b"P" + found.output[1:]) if found.status == 3 and found.output else None


@plant
def a_failed_write_with_status_0(_case, found):
    return replace(found, status=0) if b"write failed" in found.errors else None


@plant
def out_of_memory_without_a_failed_allocation(case, found):
    if found.status or case.library == "refusing" and found.failed:
        return None
    return replace(found, status=4, output=b"", errors=NO_MEMORY)


@plant
def no_memory_without_its_line(_case, found):
    return replace(found, errors=b"") if found.status == 4 else None


@plant
def a_round_past_the_bound(case, found):
    late = b"boruvka: round 2 is past the bound\n"
    return None if found.status or case.plain else replace(found, status=5, output=b"", errors=late)


@plant
def a_thread_that_was_not_joined(case, found):
    return replace(found, told=found.told + b"J") if case.library == "failing" else None


@plant
def a_file_left_out(case, found):
    fewer = result_for_files(case.files[:-1]) if case.files and not found.status else None
    return replace(found, output=fewer.output) if fewer and fewer.output != found.output else None


@plant
def an_error_without_its_file(case, found):
    names = [f"boruvka: {escaped(name)}: ".encode() for name, _ in case.files]
    lead = next((it for it in names if found.errors.startswith(it)), None)
    return replace(found, errors=b"boruvka: " + found.errors[len(lead) :]) if lead else None


@plant
def an_error_of_another_file(case, found):
    names = [f"boruvka: {escaped(name)}: ".encode() for name, _ in case.files]
    lead = next((it for it in names if found.errors.startswith(it)), None)
    other = next((it for it in names if it != lead), None)
    return replace(found, errors=other + found.errors[len(lead) :]) if lead and other else None


@plant
def vertices_exchanged(_case, found):
    errors = re.sub(rb"(\d+)( vertices in place of )(\d+)", rb"\3\2\1", found.errors)
    return replace(found, errors=errors) if errors != found.errors else None


@plant
def another_file_that_is_not_there(case, found):
    return replace(found, errors=found.errors[:-1] + b"x\n") if case.files and found.status == 3 else None


@plant
def an_end_by_a_signal(_case, found):
    return replace(found, status=-signal.SIGSEGV)
