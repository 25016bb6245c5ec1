"""How the cases run the program, and what they compare.

A case is a function that gets an empty folder of its own. Its name says what it tests. It compares exit statuses, standard
output and standard error with what is written in it, never with earlier output of the program. The forest of a random graph
is computed here, by Kruskal's algorithm over Python's own sort.
"""
import os
import random
import re
import shutil
import subprocess
import unicodedata

TESTS = os.path.dirname(os.path.dirname(os.path.realpath(__file__)))
ROOT = os.path.dirname(TESTS)
SECONDS = 60

SMALL_NET = b"c a small net\np sp 6 8\na 1 2 17\nc the usual shape\na 1 3 10\na 2 4 2\na 3 5 0\na 4 3 0\na 4 6 3\na 5 2 0\na 5 6 20\n"
SMALL_FOREST = b"p sp 6 5\na 2 5 0\na 3 4 0\na 3 5 0\na 4 6 3\na 1 3 10\n"
SMALL_REPORT = b"vertices=6 links=8 rounds=0 shards=0 asked=0 answered=0 alone=0 closed=0 total=13\n"
NO_MEMORY = b"boruvka: no memory\n"
NOTHING_WRITTEN = b"boruvka: write failed after 0 bytes\n"

CASES = []


class Skipped(Exception):
    """A case needs something that isn't on this machine."""


class Program:
    """The program under test. Its path is set before the first case runs."""

    path = f"{ROOT}/crates/boruvka/out/boruvka"


def case(function):
    CASES.append(function)
    return function


def run(words, source=b"", output=subprocess.PIPE, seconds=SECONDS, **more):
    """Returns exit status, standard output and standard error. The source is bytes for a pipe, or an open file."""
    given = {"input": source} if isinstance(source, bytes) else {"stdin": source}
    ended = subprocess.run(words, stdout=output, stderr=subprocess.PIPE, timeout=seconds, **given, **more)
    return ended.returncode, ended.stdout, ended.stderr


def ran(words, source=b"", output=subprocess.PIPE, **more):
    """Does the same for the program with these arguments."""
    return run([Program.path, *words], source, output, **more)


def with_library(room, words, source, environment, library="failing", **more):
    """Runs a command with tests/failing.c preloaded. Returns its result and what that library recorded: an `x` for each call
    that failed, a `T` for each text for the user that went to a socket, and a `J` if a thread wasn't joined at the end. With
    tests/refusing.c there is an `x` for each allocation that failed."""
    reader, writer = os.pipe()
    env = {**os.environ, "LD_PRELOAD": built(room, library), "TOLD": str(writer), "REFUSED": str(writer), **environment}
    try:
        found = run(words, source, env=env, pass_fds=[writer], **more)
    finally:
        os.close(writer)
    with os.fdopen(reader, "rb") as it:
        return found, it.read()


def expect(found, status, output, errors):
    wanted = (status, output, errors)
    if found != wanted:
        raise AssertionError(f"wanted {wanted!r:.600}\n    found  {found!r:.600}")


def built(room, name):
    """Returns the library of tests/NAME.c to preload, which is built once."""
    made = f"{room}/../{name}.so"
    if not os.path.exists(made):
        compiler = next((it for it in (os.environ.get("CC"), "cc", "gcc", "clang") if it and shutil.which(it)), None)
        if not compiler:
            raise AssertionError(f"there is no C compiler (cc, gcc or clang) to build tests/{name}.c")
        subprocess.run([compiler, "-O1", "-shared", "-fPIC", "-o", made, f"{TESTS}/{name}.c"], check=True)
    return made


def written(path, source):
    with open(path, "wb") as it:
        it.write(source)
    return path


def escaped(name):
    """Returns a file's name as the program shows it: with the bytes of control characters, as Unicode has them, in hex."""
    return "".join("".join(map("\\x{:02x}".format, it.encode())) if unicodedata.category(it) == "Cc" else it for it in name)


class Components:
    """Which vertices are joined so far."""

    def __init__(self, vertices):
        self.parent = list(range(vertices + 1))

    def root(self, v):
        parent = self.parent
        while parent[v] != v:
            parent[v] = parent[parent[v]]
            v = parent[v]
        return v

    def join(self, u, v):
        """Joins them, and returns whether they weren't joined before."""
        u, v = self.root(u), self.root(v)
        self.parent[u] = v
        return u != v


def forest_of(vertices, arcs):
    """Returns the forest of these arcs (U, V, W), by Kruskal's algorithm: the keys of its links, ascending."""
    components = Components(vertices)
    keys = sorted((w, min(u, v), max(u, v)) for u, v, w in arcs if u != v)
    return [key for key in keys if components.join(*key[1:])]


def forest_text(vertices, links):
    """Returns the text of a forest with these keys."""
    return (f"p sp {vertices} {len(links)}\n" + "".join(f"a {low} {high} {weight}\n" for weight, low, high in links)).encode()


def file_of(vertices, arcs):
    """Returns a file with these arcs (U, V, W)."""
    return (f"p sp {vertices} {len(arcs)}\n" + "".join(f"a {u} {v} {w}\n" for u, v, w in arcs)).encode()


def drawn_graph(seed, vertices, arcs, most=50):
    """Returns a random file with loops, repeats and equal weights of at most `most` in size, and the text of its forest."""
    draw = random.Random(seed)
    rows = [(draw.randint(1, vertices), draw.randint(1, vertices), draw.randint(-most, most)) for _ in range(arcs)]
    return file_of(vertices, rows), forest_text(vertices, forest_of(vertices, rows))


def total_of(text):
    """Returns the total weight of a forest's text."""
    return sum(int(line.split()[3]) for line in text.splitlines() if line.startswith(b"a "))


REPORT = re.compile(rb"vertices=(\d+) links=(\d+) rounds=(\d+) shards=(\d+) asked=(\d+) answered=(\d+) alone=(\d+) closed=(\d+) total=(-?\d+)\n")


class Report:
    """The fields of a report line."""

    def __init__(self, line):
        found = REPORT.fullmatch(line)
        if not found:
            raise AssertionError(f"no report line: {line!r:.300}")
        counts = [int(it) for it in found.groups()]
        self.vertices, self.links, self.rounds, self.shards, self.asked, self.answered, self.alone, self.closed, self.total = counts

    def expect_equations(self, shards, workers):
        """Expects the equations of a run over workers."""
        equations = {
            "shards": self.shards == shards,
            "asked = answered + closed": self.asked == self.answered + self.closed,
            "answered + alone = (rounds + 1) * shards": self.answered + self.alone == (self.rounds + 1) * shards,
            "closed is at most the number of workers": self.closed <= workers,
            "2^rounds is at most max(1, vertices)": 2**self.rounds <= max(1, self.vertices),
        }
        for name, holds in equations.items():
            if not holds:
                raise AssertionError(f"not so: {name}: {vars(self)}")

    def expect_no_worker_lost(self, workers):
        """Expects that no line was closed and, if there are workers, no shard was scanned alone. A right forest doesn't show
        that."""
        if self.closed or workers and self.alone:
            raise AssertionError(f"{workers} workers: one was lost: {vars(self)}")

    def expect_total(self, text):
        """Expects the total weight of this text."""
        if self.total != total_of(text):
            raise AssertionError(f"the links weigh {total_of(text)}: {vars(self)}")
