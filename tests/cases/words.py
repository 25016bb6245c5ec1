"""Arguments, files and messages: exit statuses 0 to 3 because of the arguments, FILE, or its contents."""
import gzip
import os
import random

from cases.running import (
    SMALL_FOREST,
    SMALL_NET,
    SMALL_REPORT,
    Program,
    Report,
    case,
    drawn_graph,
    escaped,
    expect,
    file_of,
    forest_of,
    forest_text,
    ran,
    run,
    written,
)


@case
def standard_input_to_standard_output(_room):
    for words in [[], ["--plain"]]:
        expect(ran(words, SMALL_NET), 0, SMALL_FOREST, b"")


@case
def a_file_by_its_name(room):
    written(f"{room}/net.gr", SMALL_NET)
    for words in [[], ["--plain"]]:
        expect(ran([*words, "net.gr"], cwd=room), 0, SMALL_FOREST, b"")


@case
def the_file_that_is_named_and_no_other(room):
    # the names have a common beginning or end, or differ by case, a space, a dot or a folder. First each file is a graph of its
    # own. Then all except the named one are pipes that nobody writes to: whoever opens one waits
    names = ["net.gr", "net.gr2", "net.g", "et.gr", "net", "Net.gr", "net.gr ", " net.gr", ".net.gr", "-", "-net.gr", "n\u00e9t.gr"]
    names += [f"{folder}/{name}" for folder in ["sub", "net.gr.d"] for name in ["net.gr", "net", "-"]]
    for place in range(len(names) + 1):
        os.makedirs(f"{room}/{place}/sub")
        os.makedirs(f"{room}/{place}/net.gr.d")
        for weight, name in enumerate(names):
            if place in (weight, len(names)):
                written(f"{room}/{place}/{name}", b"p sp 2 1\na 1 2 %d\n" % weight)
            else:
                os.mkfifo(f"{room}/{place}/{name}")
    for weight, name in enumerate(names):
        for place in [weight, len(names)]:
            for spelled in [name, f"./{name}", f"sub/../{name}", f"{room}/{place}/{name}"]:
                if spelled != "-":
                    found = ran(["--plain", "--", spelled], b"p sp 0 0\n", cwd=f"{room}/{place}", seconds=10)
                    expect(found, 0, b"p sp 2 1\na 1 2 %d\n" % weight, b"")
    expect(ran(["net.gr"], b"p sp 0 0\n", cwd=f"{room}/0", seconds=10), 0, b"p sp 2 1\na 1 2 0\n", b"")


@case
def the_report_of_a_file(room):
    written(f"{room}/net.gr", SMALL_NET)
    expect(ran(["--plain", "--report", "net.gr"], cwd=room), 0, SMALL_FOREST, SMALL_REPORT)


@case
def a_file_whose_name_has_300_bytes(room):
    os.mkdir(f"{room}/{'a' * 139}")
    name = f"{'a' * 139}/{'b' * 160}"
    assert len(name) == 300
    written(f"{room}/{name}", SMALL_NET)
    expect(ran(["--plain", name], cwd=room), 0, SMALL_FOREST, b"")


@case
def drawn_graphs(_room):
    for seed, vertices, arcs in [(1, 3, 40), (2, 40, 30), (3, 300, 2000), (4, 5000, 60000)]:
        file, text = drawn_graph(seed, vertices, arcs)
        status, output, errors = ran(["--plain", "--report"], file)
        expect((status, output, b""), 0, text, b"")
        Report(errors).expect_total(text)


def expect_of_all_modes(file, text):
    """Expects this text for the file, with its total, with one thread and over workers, of which none is lost."""
    for words, workers in [(["--plain"], 0), ([], 2), (["--workers", "3", "--shards", "5"], 3), (["--workers", "0", "--shards", "3"], 0)]:
        status, output, errors = ran([*words, "--report"], file)
        expect((status, output, b""), 0, text, b"")
        Report(errors).expect_total(text)
        Report(errors).expect_no_worker_lost(workers)


@case
def weights_of_64_bits(_room):
    for seed, most in [(11, 2**31), (12, 2**33), (13, 2**63 - 1)]:
        expect_of_all_modes(*drawn_graph(seed, 700, 6000, most))


@case
def weights_at_the_limits(_room):
    # the least and the greatest, repeated, and those around the limits of 32 bits
    weights = [-(2**63), -(2**63) + 1, -(2**31) - 1, -(2**31), -1, 0, 2**31 - 1, 2**31, 2**63 - 2, 2**63 - 1]
    for seed, some in [(14, weights), (15, weights[:1] + weights[-1:]), (16, weights[-1:]), (17, weights[:1])]:
        draw = random.Random(seed)
        rows = [(draw.randint(1, 300), draw.randint(1, 300), draw.choice(some)) for _ in range(1500)]
        expect_of_all_modes(file_of(300, rows), forest_text(300, forest_of(300, rows)))


@case
def the_first_weights_beyond_64_bits(_room):
    for words in [["--plain"], []]:
        for weight in [-(2**63), 2**63 - 1, 2**31, -(2**31) - 1]:
            file = b"p sp 2 1\na 1 2 %d\n" % weight
            expect(ran(words, file), 0, file, b"")
        for weight in [-(2**63) - 1, 2**63, 2**64, 10**40]:
            expect(ran(words, b"p sp 2 1\na 1 2 %d\n" % weight), 1, b"", b"boruvka: line 2: WeightOutOfRange\n")


def expect_total_of_a_million(room, vertices, rows, links):
    """Expects these keys for the forest of a million links, and Python's sum of their weights as the total."""
    name = written(f"{room}/net.gr", file_of(vertices, rows))
    text, total = forest_text(vertices, links), sum(weight for weight, _, _ in links)
    for words in [["--plain"], ["--plain", "--threads", "4"], ["--workers", "2", "--shards", "2"]]:
        status, output, errors = ran([*words, "--report", name])
        expect((status, output, b""), 0, text, b"")
        report = Report(errors)
        if (report.vertices, report.links, report.total) != (vertices, 1_000_000, total):
            raise AssertionError(f"{words}: {vertices} vertices, 1,000,000 links and a total of {total}: {vars(report)}")
        report.expect_no_worker_lost(2)


@case
def the_total_of_a_path_of_a_million_links(room):
    # all of them are in the forest
    draw = random.Random(7)
    rows = [(v, v + 1, draw.randint(-(2**63), 2**63 - 1)) for v in range(1, 1_000_001)]
    expect_total_of_a_million(room, 1_000_001, rows, sorted((weight, u, v) for u, v, weight in rows))


@case
def the_total_of_a_million_drawn_links_of_63_bits(room):
    # (2^18 vertices; v is drawn around u, so that no link is a loop)
    draw = random.Random(63)
    rows = []
    for _ in range(1_000_000):
        u, step, weight = draw.getrandbits(18), draw.randint(1, 2**18 - 1), draw.getrandbits(63)
        rows.append((u + 1, (u + step) % 2**18 + 1, weight))
    expect_total_of_a_million(room, 2**18, rows, forest_of(2**18, rows))


@case
def the_text_of_a_forest_is_written_again(_room):
    _, text = drawn_graph(5, 400, 900)
    for words in [["--plain"], []]:
        status, output, errors = ran([*words, "--report"], text)
        expect((status, output, b""), 0, text, b"")
        report = Report(errors)
        report.expect_total(text)
        if report.links != text.count(b"a "):
            raise AssertionError(f"all links of a forest's text are in its forest: {vars(report)}")


@case
def the_help(_room):
    for word in ["--help", "-h"]:
        status, output, errors = ran([word], SMALL_NET)
        expect((status, b"", errors), 0, b"", b"")
        lines = output.decode().split("\n")
        first = "Compute the minimum spanning forest of a weighted graph in DIMACS .gr format."
        file = "  [FILE]...  Input graph; standard input if omitted or -; with --plain, several are joined"
        for line in [first, "Usage: boruvka [OPTIONS] [FILE]...", file]:
            if line not in lines:
                raise AssertionError(f"the help has no line {line!r}")
        options = [line.split("  ")[0] for line in map(str.strip, lines) if line.startswith("-")]
        wanted = ["--plain", "--threads <N>", "--workers <N>", "--shards <S>", "--report", "--progress", "-h, --help", "-V, --version"]
        if options != wanted:
            raise AssertionError(f"the help has the options {options}")


@case
def the_examples_of_the_help(room):
    """A compressed file is tested first, since a pipe hides that gzip fails."""
    examples = ran(["--help"])[1].decode().split("Examples:\n")[1].split("\n\n")[0]
    plain, compressed = (line.strip() for line in examples.splitlines())
    os.symlink(Program.path, f"{room}/boruvka")
    pasted = {"cwd": room, "env": {**os.environ, "PATH": f"{room}:{os.environ['PATH']}"}}
    for example, name, right, wrong in [
        (plain, "net.gr", SMALL_NET, b"p sp 2 2\na 1 2 5\n"),
        (compressed, "net.gr.gz", gzip.compress(SMALL_NET, 0), gzip.compress(SMALL_NET, 0).replace(b"1 2 17", b"1 2 71")),
    ]:
        for text, status, forest in [(right, 0, SMALL_FOREST), (wrong, 1, None)]:
            written(f"{room}/{name}", text)
            written(f"{room}/forest.gr", b"old\n")
            found = run(["sh", "-c", example], **pasted)
            with open(f"{room}/forest.gr", "rb") as it:
                left = it.read()
            if found[0] != status or left not in ([forest] if forest else [b"", b"old\n"]):
                raise AssertionError(f"{example}: {found!r:.300} {left!r:.300}")


# The contents of the file


@case
def a_malformed_file(room):
    expect(ran(["--plain"], b"a 1 2 3\np sp 2 1\n"), 1, b"", b"boruvka: line 1: NoProblemYet\n")
    expect(ran(["--plain"], b""), 1, b"", b"boruvka: line 1: MissingProblem\n")
    written(f"{room}/short.gr", b"p sp 2 2\na 1 2 5")
    expect(ran(["--plain", "--report", "short.gr"], cwd=room), 1, b"", b"boruvka: line 3: MissingArcs\n")


@case
def each_truncation_of_a_file(_room):
    """It is rejected, except between the marks, where docs/GR_FORMAT.md says that this goes unnoticed."""
    marked = b"c a net\np sp 3 0|0|2\na 1 2 17\na 2 3 -0|45\nc the end\n|"
    parts = marked.split(b"|")
    unseen = [range(len(parts[0]), len(parts[0]) + 2), range(len(b"".join(parts[:3])), len(b"".join(parts)))]
    for length in range(len(b"".join(parts))):
        status, _, errors = ran(["--plain"], b"".join(parts)[:length])
        is_seen = not any(length in it for it in unseen)
        if (status, errors.startswith(b"boruvka: line ")) != (int(is_seen), is_seen):
            raise AssertionError(f"cut after {length} bytes: {status} {errors!r:.200}")


# Invalid arguments


@case
def invalid_arguments(_room):
    usage = b"\n\nUsage: boruvka [OPTIONS] [FILE]...\n\nFor more information, try '--help'.\n"
    for word, shown in [("--wrong", "--wrong"), ("-o", "-o"), ("-j4", "-j"), ("--max", "--max"), ("--output=a.gr", "--output")]:
        expect(ran([word], SMALL_NET), 2, b"", f"error: unexpected argument '{shown}' found".encode() + usage)
    tip = b"\n\n  tip: a similar argument exists: '--plain'"
    given = usage.replace(b"[OPTIONS]", b"--plain")
    expect(ran(["--plane"], SMALL_NET), 2, b"", b"error: unexpected argument '--plane' found" + tip + given)
    numbers = [["--threads", "0"], ["--threads=65"], ["--threads", "x"], ["--threads=-1"], ["--threads"]]
    for words in [["--workers=65"], ["--workers=-1"], ["--shards=0"], ["--shards", "4097"], ["--workers"], *numbers]:
        for more in [[], ["--plain"]]:
            status, output, errors = ran([*more, *words], SMALL_NET)
            expect((status, output, errors[:7]), 2, b"", b"error: ")


@case
def what_is_wrong_with_a_number(_room):
    help_ = b"\n\nFor more information, try '--help'.\n"
    for option, shown, value, reason in [
        ("threads", "N", "65", "65 is not in 1 to 64"),
        ("threads", "N", "0", "0 is not in 1 to 64"),
        ("workers", "N", "65", "65 is not in 0 to 64"),
        ("shards", "S", "4097", "4097 is not in 1 to 4096"),
        ("threads", "N", "four", "not a whole number"),
        ("shards", "S", "6.5", "not a whole number"),
        ("workers", "N", "-1", "-1 is not in 0 to 64"),
        # what was typed is shown as it is
        ("threads", "N", "1..=64", "not a whole number"),
        ("threads", "N", "a': number too", "not a whole number"),
        ("threads", "N", "9" * 30, "the number is too large"),
        ("workers", "N", "-" + "9" * 30, "the number is too small"),
    ]:
        text = f"error: invalid value '{value}' for '--{option} <{shown}>': {reason}".encode()
        expect(ran(["--plain", f"--{option}={value}"], SMALL_NET), 2, b"", text + help_)


@case
def threads_without_plain(_room):
    text = b"error: --threads needs --plain\n\nUsage: boruvka [OPTIONS] [FILE]...\n\nFor more information, try '--help'.\n"
    for words in [["--threads", "2"], ["--threads=1"], ["--workers", "0", "--threads", "64"], ["--report", "--threads", "3", "no/such/file"]]:
        expect(ran(words, SMALL_NET), 2, b"", text)
    for words in [["--threads", "2", "--help"], ["--threads=3", "--version"]]:
        expect(ran(words, SMALL_NET), 0, ran(words[-1:])[1], b"")


@case
def the_help_with_other_arguments(_room):
    for words in [["--help", "--wrong"], ["--report", "--help"], ["no/such/file", "-h", "--shards"]]:
        status, output, errors = ran(words, SMALL_NET)
        expect((status, b"", errors), 0, b"", b"")
        if output != ran(["--help"], b"")[1]:
            raise AssertionError(f"{words}: another help: {output!r:.300}")
    status, output, errors = ran(["--wrong", "--help"], SMALL_NET)
    if (status, output) != (2, b"") or not errors:
        raise AssertionError(f"a wrong word before the help: {status} {output!r:.100} {errors!r:.100}")


@case
def an_argument_that_is_not_utf_8(_room):
    expect(ran([b"--plain", b"\xff.gr"], SMALL_NET), 2, b"", b"boruvka: an argument is not UTF-8\n")
    for before in [9, 10, 99, 1000]:
        expect(ran([*["--"] * before, b"\xff.gr"], SMALL_NET), 2, b"", b"boruvka: an argument is not UTF-8\n")


@case
def as_many_arguments_as_there_are_options(room):
    # with the program's name FILE is the tenth or eleventh argument, and what follows isn't lost either
    written(f"{room}/net.gr", SMALL_NET)
    numbers = ["--threads", "2", "--workers", "3", "--shards", "4", "--plain", "--report"]
    for before in [[], ["--"]]:
        expect(ran([*numbers, *before, "net.gr"], b"p sp 0 0\n", cwd=room), 0, SMALL_FOREST, SMALL_REPORT)
    for more in [["b.gr"], ["--", "b.gr"]]:
        expect(ran([*numbers, "net.gr", *more], cwd=room), 3, b"", b"boruvka: cannot open b.gr\n")
    status, output, errors = ran([*numbers, "net.gr", "--help"], cwd=room)
    expect((status, output, errors), 0, ran(["--help"])[1], b"")


# A FILE that can't be opened


@case
def a_file_that_cannot_be_opened(room):
    expect(ran(["--plain", "none.gr"], SMALL_NET, cwd=room), 3, b"", b"boruvka: cannot open none.gr\n")
    expect(ran(["--plain", ""], SMALL_NET, cwd=room), 3, b"", b"boruvka: cannot open \n")
    expect(ran(["--plain", "./-"], SMALL_NET, cwd=room), 3, b"", b"boruvka: cannot open ./-\n")


@case
def a_minus_is_standard_input(room):
    with open(f"{room}/-", "wb") as it:
        it.write(b"no graph")
    expect(ran(["--plain", "-"], SMALL_NET, cwd=room), 0, SMALL_FOREST, b"")
    expect(ran(["--workers", "1", "--", "-"], SMALL_NET, cwd=room), 0, SMALL_FOREST, b"")
    expect(ran(["--plain", "./-"], SMALL_NET, cwd=room), 1, b"", b"boruvka: line 1: UnknownLine\n")


@case
def a_name_of_300_bytes_that_cannot_be_opened(room):
    name = "n" * 300
    expect(ran(["--plain", name], SMALL_NET, cwd=room), 3, b"", f"boruvka: cannot open {name}\n".encode())


@case
def control_characters_of_a_name_that_cannot_be_opened(room):
    # (an argument can't contain a 0)
    around = "".join(map(chr, range(1, 0x180)))
    for name in ["a.gr\nboruvka: done\x1b[2K\r", "\u009b1A\\x1b\u20ac\U0001f600", around, "\x1b" * 5000, "\u20ac" * 3000]:
        expect(ran(["--plain", name.encode()], SMALL_NET, cwd=room), 3, b"", f"boruvka: cannot open {escaped(name)}\n".encode())
    expect(ran(["\x1b[2K"], SMALL_NET, cwd=room), 3, b"", b"boruvka: cannot open \\x1b[2K\n")


@case
def a_directory_instead_of_a_file(room):
    expect(ran(["--plain", "."], SMALL_NET, cwd=room), 3, b"", b"boruvka: line 1: read failed\n")
