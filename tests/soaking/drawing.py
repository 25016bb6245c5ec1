"""Draws cases: graphs, their spellings, texts that may be malformed, the program's arguments, and what fails in a run."""
import random
import shlex
from dataclasses import dataclass, field
from errno import EINTR

from cases.calls import ERRORS
from cases.sockets import NOTHING
from soaking.judging import FIELD, LEAST_WEIGHT, MOST_ARCS, MOST_VERTICES, MOST_WEIGHT, SIGNED, Fault, judged, number_of

# and how often they come
SORTS = {"plain": 5, "workers": 4, "failing": 4, "out of memory": 3, "malformed": 8, "several files": 5}
FAR = 10**9
MOST_WORKERS, MOST_SHARDS = 64, 4096
PAGE = 4096


@dataclass
class Case:
    sort: str
    text: bytes  # if there are several files, that of standard input
    words: list
    given: str  # how the text goes in: "piped" or "redirected" to standard input, or the name of a file
    plain: bool
    workers: int
    shards: int
    report: bool
    library: str = ""
    fails: dict = field(default_factory=dict)
    files: list = field(default_factory=list)  # if there are several files, their names and texts, in order

    @property
    def is_named(self):
        return self.given not in ("piped", "redirected")

    def shown(self):
        """Returns the arguments as for a shell, after the environment that makes calls fail."""
        fails = [f"{name}={value}" for name, value in self.fails.items()]
        source = {"piped": ["|"], "redirected": ["<"]}.get(self.given, [])
        return " ".join([*source, *fails, "boruvka", *map(shlex.quote, self.words)])


def log_drawn(draw, most):
    """Draws a number from 1 to `most`, small ones far more often."""
    return min(most, int((most + 1) ** draw.random()))


# An arc's endpoints and weight, by the number of vertices and the index in the list
ENDS = {
    "any": lambda draw, n, at: (draw.randint(1, n), draw.randint(1, n)),
    "ring": lambda draw, n, at: (at % n + 1, (at + 1) % n + 1),
    "star": lambda draw, n, at: (1, draw.randint(1, n)),
    "near": lambda draw, n, at: (at % n + 1, min(n, at % n + draw.randint(1, 4))),
    "pieces": lambda draw, n, at: (at % n + 1, min(n, at % n // 7 * 7 + draw.randint(1, 7))),
    "few": lambda draw, n, at: (draw.randint(1, min(n, 5)), draw.randint(1, min(n, 5))),
    "loops": lambda draw, n, at: (at % n + 1, at % n + 1 if at % 3 else draw.randint(1, n)),
}
WEIGHTS = {
    "one": lambda draw, at: -7,
    "few": lambda draw, at: draw.randint(-2, 2),
    "small": lambda draw, at: draw.randint(-50, 50),
    "any": lambda draw, at: draw.randint(LEAST_WEIGHT, MOST_WEIGHT),
    "narrow": lambda draw, at: draw.randint(-(2**31), 2**31 - 1),
    "about 32 bits": lambda draw, at: draw.choice([-(2**31) - 1, -(2**31), 0, 2**31 - 1, 2**31, 2**32]),
    "limits": lambda draw, at: draw.choice([LEAST_WEIGHT, LEAST_WEIGHT + 1, 0, MOST_WEIGHT - 1, MOST_WEIGHT]),
    "zeros": lambda draw, at: ((at + 1) & -(at + 1)).bit_length(),  # (by the index: on a ring this takes the most rounds)
    "rising": lambda draw, at: at,
    "falling": lambda draw, at: -at,
}


def drawn_size(draw, sort):
    """Draws the numbers of vertices and arcs. (Large ones take several reads and writes, any of which may fail.)"""
    often = [75, 5, 20] if sort == "failing" else [85, 12, 3]
    vertices = draw.choices([draw.randint(0, 40), draw.randint(41, 300), draw.randint(301, 2000)], often)[0]
    return vertices, draw.choice([0, vertices, *(draw.randint(0, times * vertices) for times in (1, 4, 10))])


def drawn_arcs(draw, vertices, count):
    """Draws arcs. Some are repeated or reversed, and the vertices may be renumbered."""
    ends, weight = draw.choice(list(ENDS.values())), draw.choice(list(WEIGHTS.values()))
    again, names = draw.choice([0, 0, 0.1, 0.5]), list(range(1, vertices + 1))
    if draw.random() < 0.5:
        draw.shuffle(names)
    arcs = []
    for at in range(count):
        u, v = ends(draw, vertices, at)
        arc = names[u - 1], names[v - 1], weight(draw, at)
        if arcs and draw.random() < again:
            u, v, before = draw.choice(arcs)
            arc = draw.choice([(u, v, before), (v, u, before), (v, u, arc[2])])
        arcs.append(arc)
    return arcs


# Spellings

NOISE = bytes(it for it in range(256) if it != 10)


def blanks(draw, least):
    return bytes(draw.choices(b" \t\r", [6, 2, 1], k=least + draw.choice([0, 0, 0, 1, 3])))


def noise(draw):
    if draw.random() < 0.002:
        return draw.randbytes(draw.randint(0, 70_000)).replace(b"\n", b"")
    return bytes(draw.choices(NOISE, k=draw.randint(0, 20)))


def silent_line(draw):
    return draw.choice([b"", blanks(draw, 1), b"c", b"c p sp 3 3", b"ca 1 2 3", blanks(draw, 0) + b"c" + noise(draw)])


def odd_number(draw, number, is_signed):
    sign = b"-" if number < 0 or is_signed and number == 0 and draw.random() < 0.3 else b""
    return sign + b"0" * draw.choice([0, 0, 0, 1, 2, 9, 40]) + b"%d" % abs(number)


def odd_line(draw, word, numbers):
    fields = [word, *(odd_number(draw, number, at == 2) for at, number in enumerate(numbers))]
    fields[:1] = fields[0].split()
    line = blanks(draw, 0)
    for at, field in enumerate(fields):
        line += (blanks(draw, 1) if at else b"") + field
    return line + blanks(draw, 0)


def spelled(draw, vertices, arcs):
    """Draws a text that describes this graph."""
    odd, silent = draw.choice([0, 0, 0.03, 0.3, 1]), draw.choice([0, 0, 0.03, 0.3])
    lines = []
    for word, numbers in [(b"p sp", (vertices, len(arcs))), *((b"a", arc) for arc in arcs)]:
        while silent and draw.random() < silent:
            lines.append(silent_line(draw))
        if odd and draw.random() < odd:
            lines.append(odd_line(draw, word, numbers))
        else:
            lines.append(word + b"".join(b" %d" % it for it in numbers))
    while silent and draw.random() < silent:
        lines.append(silent_line(draw))
    return b"\n".join(lines) + draw.choice([b"\n", b"\n", b"\n", b""])


# Texts that may be malformed

BYTES = b"0123456789-+ \t\r\n\n  pac.ex\0\v\f\x1c\x85\xa0\xff"
LINES = b"""
c|p|a|x|P sp 2 1|p sp 2 1|p max 2 1|p sp 2|p sp 2 1 0|p sp -1 0|p sp 2 1 c|a 1 2 3|a 1 2|a 1 2 3 4|a 0 1 1
a 1 2 99999999999|a 9999999999 1 x|a 1 1 -9223372036854775809|a 1 2 9223372036854775808|aa 1 2 3|pp sp 1 1|sp 1 1|e 1 2 3|a,1,2,3|A 1 2 3|1 2 3|\t|\xc2\xa0
""".replace(b"\n", b"|").split(b"|")
WORDS = b"- --1 -+1 +1 1- 1.0 1e1 0x1 1_0 c p a sp \xd9\xa3 \xc2\xb2 \0 1\0 1\x7f 1\xa0".split(b" ") + [b"\v1", b"1\f"]
BOUNDS = [0, 1, MOST_VERTICES, MOST_ARCS, 2**31, 2**32, 2**63, 2**64, 10**19, 10**40]


def with_other_byte(draw, text):
    """Replaces, drops or inserts a byte."""
    at, kept = draw.randint(0, len(text)), draw.randint(0, 1)
    return text[:at] + draw.choice([b"", bytes([draw.choice(BYTES)])]) + text[at + kept :]


def with_other_lines(draw, text):
    """Exchanges two lines, or drops, repeats or inserts a line."""
    lines = text.split(b"\n")
    at, other = draw.randrange(len(lines)), draw.randrange(len(lines))
    if draw.random() < 0.3:
        lines[at], lines[other] = lines[other], lines[at]
    else:
        lines[at : at + 1] = draw.choice([[], [lines[at]] * 2, [draw.choice(LINES), lines[at]]])
    return b"\n".join(lines)


def bound(draw, text):
    """Draws a number at a limit or next to it: a fixed limit, or a number of the text."""
    number = draw.choice([*BOUNDS, *map(number_of, SIGNED.findall(text[:40]))]) + draw.randint(-1, 1)
    return odd_number(draw, draw.choice([1, 1, -1]) * number, True)


def with_other_field(draw, text):
    """Replaces a field by another number or text, drops it, or repeats it; often a field of the problem line."""
    lines = text.split(b"\n")
    at = 0 if draw.random() < 0.3 else draw.randrange(len(lines))
    fields = FIELD.findall(lines[at])
    if not fields:
        return text
    place = draw.randrange(len(fields))
    new = draw.choice([[bound(draw, text)], [bound(draw, text)], [draw.choice(WORDS)], [], [fields[place]] * 2])
    lines[at] = blanks(draw, 1).join([*fields[:place], *new, *fields[place + 1 :]])
    return b"\n".join(lines)


def cut_off(draw, text):
    return text[: draw.randint(0, len(text))]


def begun_otherwise(draw, text):
    return draw.choice([b"\xef\xbb\xbf", b"\0", b"\n", b"c ", b"\r\n", b" "]) + text


# and how often they come
CHANGES = {with_other_byte: 8, with_other_lines: 6, with_other_field: 12, cut_off: 2, begun_otherwise: 1}


def changed(draw, text):
    for _ in range(draw.choice([1, 1, 1, 2, 3])):
        text = draw.choices(list(CHANGES), list(CHANGES.values()))[0](draw, text)
    return text


def within_memory(text):
    """Returns the text and how many vertices it has. If these are very many, the text gets one more arc line."""
    try:
        vertices = judged(text).vertices
        return (text, vertices) if vertices <= 2**20 else (text + b"\na", 0)
    except Fault:
        return text, 0


# Several files

NAMES = ["a.gr", "b.gr", "c.gr", "./d.gr", "a b.gr", "größe.gr", "\x1b[2K.gr", "\u0085\n.gr", "e: line 1.gr", "-"]


def parts_of(draw, arcs):
    """Divides the arcs into 2 to 9 lists at random. Some may be empty, and some arcs may be in two lists."""
    parts = [[] for _ in range(draw.randint(2, 9))]
    some = draw.sample(parts, draw.randint(1, len(parts)))
    for arc in arcs:
        draw.choice(some).append(arc)
    for part in draw.sample(parts, draw.choice([0, 0, 1, 2])):
        part += draw.sample(arcs, draw.randint(0, len(arcs)))
    return parts


def with_error(draw, vertices, text):
    """Draws a text that can't be joined with others of so many vertices, if at all, or None for a missing file."""
    kind = draw.choices(["changed", "other", "none"], [5, 4, 1])[0]
    if kind == "changed":
        return within_memory(changed(draw, text))[0]
    if kind == "other":
        other = draw.choice([0, vertices + 1, max(0, vertices - 1), draw.randint(0, 2000)])
        return spelled(draw, other, drawn_arcs(draw, other, draw.randint(0, 9) if other else 0))
    return None


def drawn_files(draw):
    """Draws two to nine files with their names: an arc list divided at random. In some cases files have errors."""
    vertices, count = drawn_size(draw, "several files")
    parts = parts_of(draw, drawn_arcs(draw, vertices, count))
    texts = [spelled(draw, vertices, it) for it in parts]
    for text, part in zip(texts, parts):
        if (judged(text).vertices, judged(text).arcs) != (vertices, part):
            raise AssertionError(f"the judge reads another graph than was spelled: {text!r:.600}")
    if draw.random() < 0.5:
        for at in draw.sample(range(len(texts)), draw.choice([1, 1, 2])):
            texts[at] = with_error(draw, vertices, texts[at])
    files = list(zip(draw.sample(NAMES, len(texts)), texts))
    # the same file again, or standard input, which may be given once
    return files + [draw.choice(files)] * (draw.random() < 0.1)


def drawn_several(draw):
    """Draws a case of several files, sometimes with threads."""
    files = [("-", text or b"") if name == "-" else (name, text) for name, text in drawn_files(draw)]
    case = Case("several files", dict(files).get("-", b""), [], draw.choice(["piped", "redirected"]), True, 2, 64, draw.random() < 0.5, files=files)
    groups = drawn_groups(draw, case)
    if draw.random() < 0.4:
        groups.append(["--threads", str(draw.choice([1, 2, 3, 8, 64]))])
    # the names between the other arguments, in their order
    places = sorted(draw.randint(0, len(groups)) for _ in files)
    for at, (name, _) in enumerate(files):
        groups.insert(places[at] + at, [name])
    case.words = sum(groups, [])
    return case


# Modes and failures

MAKERS = ["socket", "bind", "listen", "getsockname", "setsockopt", "nodelay", "connect", "hangup", "getsockopt", "accept", "thread", "stranger"]
STREAMS, SOCKETS = ["read", "write"], ["recv", "send"]


def drawn_groups(draw, case):
    """Draws the arguments of a case in any order. Those that belong together are in a list."""
    groups = [["--plain"]] if case.plain else []
    if not case.plain and (case.workers, case.shards) == (2, 64):
        given = draw.choice([[], ["--workers"], ["--shards"]])
    else:
        given = ["--workers", "--shards"] if not case.plain or draw.random() < 0.1 else []
    for word, number in [("--workers", case.workers), ("--shards", case.shards)]:
        if word in given:
            groups.append(draw.choice([[word, str(number)], [f"{word}={number}"]]))
    groups += [["--report"]] * case.report + [[case.given]] * case.is_named
    draw.shuffle(groups)
    return groups


def drawn_workers(draw):
    """Draws the number of workers and of shards."""
    if draw.random() < 0.15:
        return 2, 64
    some = draw.randint(0, 4), draw.randint(5, 16), draw.randint(17, MOST_WORKERS), MOST_WORKERS
    workers = draw.choices(some, [85, 10, 4, 1])
    shards = log_drawn(draw, draw.choices([16, 200, MOST_SHARDS], [70, 25, 5])[0])
    return workers[0], draw.choices([shards, MOST_SHARDS], [99, 1])[0]


def drawn_call(draw, case):
    """Draws the call that fails. For large texts and one thread, it is more often a call of a stream."""
    if case.plain or draw.random() < (0.8 if len(case.text) > 8000 else 0.3):
        return draw.choice(STREAMS)
    return draw.choice([*MAKERS, *SOCKETS * 5])


def drawn_failure(draw, case, vertices):
    """Draws which calls fail, and how."""
    call = drawn_call(draw, case)
    error = draw.choice([*ERRORS, NOTHING] if call in STREAMS + SOCKETS else ERRORS)
    # a byte at a time, if there aren't too many
    is_short = draw.random() < 0.15 and len(case.text) < 20_000 and (case.plain or (vertices + 10) * case.shards < 5000)
    most = {"read": len(case.text) + 2 if is_short else 6, "write": 3, "recv": 1000, "send": 1000}
    number = log_drawn(draw, most.get(call, 2 * case.workers + 4))
    # (some of these are retried as long as they are interrupted)
    last = number if call in MAKERS and error == EINTR else FAR
    last = draw.choice([number, number + draw.randint(1, 3), last])
    fails = {"FAIL_CALL": call, "FAIL_NUMBER": number, "FAIL_ERROR": error, "FAIL_LAST": last}
    return {**fails, "SHORT": 1} if is_short else fails


def drawn_failures(draw, case):
    """Draws which allocations fail."""
    first = log_drawn(draw, 40 if case.plain else 1000)
    return {"REFUSE_FIRST": first, "REFUSE_LAST": draw.choice([first, first, first + draw.randint(1, 9), FAR])}


def drawn_case(seed, number):
    """Draws a case, which depends only on the seed and its number."""
    draw = random.Random(f"{seed} {number}")
    sort = draw.choices(list(SORTS), list(SORTS.values()))[0]
    if sort == "several files":
        return drawn_several(draw)
    text, vertices = drawn_text(draw, sort)
    often = {"plain": 1, "workers": 0, "malformed": 0.8}.get(sort, 0.4)
    is_plain = draw.random() < often or vertices > 2000
    given = draw.choice(["piped", "redirected", "graph.gr", draw.choice(["-", "a b.gr", "größe.gr", "./graph.gr"])])
    case = Case(sort, text, [], given, is_plain, *drawn_workers(draw), draw.random() < 0.5)
    if sort == "failing":
        case.library, case.fails = "failing", drawn_failure(draw, case, vertices)
    if sort == "out of memory":
        case.library, case.fails = "refusing", drawn_failures(draw, case)
    # more than a page may come through a pipe in pieces, and then it isn't known after which piece a read fails
    if case.given == "piped" and case.fails.get("FAIL_CALL") == "read" and len(text) > PAGE:
        case.given = "redirected"
    case.words = sum(drawn_groups(draw, case), [])
    return case


def drawn_text(draw, sort):
    """Draws a text for a case of this sort. Returns it with its number of vertices, which is rough if it is malformed."""
    vertices, count = drawn_size(draw, sort)
    arcs = drawn_arcs(draw, vertices, count)
    text = spelled(draw, vertices, arcs)
    graph = judged(text)
    if (graph.vertices, graph.arcs) != (vertices, arcs):
        raise AssertionError(f"the judge reads another graph than was spelled: {text!r:.600}")
    if sort == "malformed" or sort in ("failing", "out of memory") and draw.random() < 0.15:
        return within_memory(changed(draw, text))
    return text, vertices
