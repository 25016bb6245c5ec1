"""What a run on a text has to give: the forest of its graph, or its first error. Written from docs/GR_FORMAT.md alone."""
import re
from dataclasses import dataclass

from cases.running import Components, escaped, forest_of, forest_text

FIELD = re.compile(rb"[^ \t\r]+")
DIGITS = re.compile(rb"[0-9]+")
SIGNED = re.compile(rb"-?[0-9]+")
MOST_VERTICES, MOST_ARCS = 2**26, 2**30
LEAST_WEIGHT, MOST_WEIGHT = -(2**63), 2**63 - 1


class Fault(Exception):
    """The first error of a text."""

    def __init__(self, line, kind):
        super().__init__(line, kind)
        self.line, self.kind = line, kind


def number_of(field):
    """Returns the number in a field. Twenty digits exceed every limit, whatever follows them."""
    digits = field.lstrip(b"-").lstrip(b"0")[:20]
    return int(digits or b"0") * (-1 if field.startswith(b"-") else 1)


class Graph:
    """What the lines of a text have said so far."""

    def __init__(self):
        self.vertices, self.stated, self.arcs = None, None, []

    def error_of(self, line):
        """Returns the error of the next line, or None. Then the line's content is added."""
        fields = FIELD.findall(line)
        if not fields or fields[0].startswith(b"c"):
            return None
        if fields[0] == b"p":
            return self.error_of_problem(fields)
        if fields[0] == b"a":
            return self.error_of_arc(fields)
        return "UnknownLine"

    def error_of_problem(self, fields):
        if self.vertices is not None:
            return "SecondProblem"
        if len(fields) != 4 or fields[1] != b"sp" or not all(DIGITS.fullmatch(it) for it in fields[2:]):
            return "BadProblem"
        vertices, arcs = number_of(fields[2]), number_of(fields[3])
        if vertices > MOST_VERTICES or arcs > MOST_ARCS:
            return "TooLarge"
        self.vertices, self.stated = vertices, arcs
        return None

    def error_of_arc(self, fields):
        if self.vertices is None:
            return "NoProblemYet"
        if len(self.arcs) == self.stated:
            return "TooManyArcs"
        if len(fields) != 4 or not all(DIGITS.fullmatch(it) for it in fields[1:3]) or not SIGNED.fullmatch(fields[3]):
            return "BadArc"
        u, v, weight = map(number_of, fields[1:])
        if not (1 <= u <= self.vertices and 1 <= v <= self.vertices):
            return "EndOutOfRange"
        if not LEAST_WEIGHT <= weight <= MOST_WEIGHT:
            return "WeightOutOfRange"
        self.arcs.append((u, v, weight))
        return None


def judged(text, is_whole=True):
    """Returns the graph of a text, or raises its first error. If the text is truncated, only complete lines are judged."""
    *lines, rest = text.split(b"\n")
    if rest and is_whole:
        lines.append(rest)
    graph = Graph()
    for number, line in enumerate(lines, 1):
        kind = graph.error_of(line)
        if kind:
            raise Fault(number, kind)
    if is_whole and graph.vertices is None:
        raise Fault(len(lines) + 1, "MissingProblem")
    if is_whole and len(graph.arcs) < graph.stated:
        raise Fault(len(lines) + 1, "MissingArcs")
    return graph


@dataclass
class Answer:
    """The expected result of a run: its status, both outputs and, if it succeeds, what a report adds."""

    status: int
    output: bytes
    errors: bytes
    vertices: int = 0
    links: int = 0
    forest: tuple = ()


def refusal(why, status=1):
    return Answer(status, b"", f"boruvka: {why}\n".encode())


def result_for_text(text):
    """Returns the expected result for a text if nothing fails."""
    try:
        graph = judged(text)
    except Fault as it:
        return refusal(f"line {it.line}: {it.kind}")
    return result_for_graph(graph.vertices, graph.arcs)


def result_for_graph(vertices, arcs):
    """Returns the expected result for a graph if nothing fails."""
    forest = forest_of(vertices, arcs)
    links = sum(u != v for u, v, _ in arcs)
    return Answer(0, forest_text(vertices, forest), b"", vertices, links, forest)


def result_for_files(files):
    """Returns the expected result for several files, each a name and a text, or None for a missing file. The first error is
    reported. Standard input, which is `-`, may be given once."""
    vertices, arcs, names = None, [], []
    for name, text in files:
        if text is None or name == "-" and name in names:
            return refusal(f"cannot open {escaped(name)}", 3)
        names.append(name)
        try:
            graph = judged(text)
        except Fault as it:
            return refusal(f"{escaped(name)}: line {it.line}: {it.kind}")
        if vertices not in (None, graph.vertices):
            return refusal(f"{escaped(name)}: {graph.vertices} vertices in place of {vertices}")
        vertices = graph.vertices
        arcs += graph.arcs
    return result_for_graph(vertices, arcs)


def result_for_failed_read(text):
    """Returns the expected result if a read fails after this text."""
    try:
        judged(text, is_whole=False)
    except Fault as it:
        return refusal(f"line {it.line}: {it.kind}")
    ended = text.count(b"\n")
    return refusal(f"line {ended + 1}: read failed", 3)


def rounds_of(vertices, forest):
    """Returns how many of Borůvka's rounds take links. They pick only links of the forest, so the forest is enough."""
    components, left, rounds = Components(vertices), forest, 0
    while left:
        picks = {}
        for key in left:
            for end in key[1:]:
                picks.setdefault(components.root(end), key)
        for _, low, high in picks.values():
            components.join(low, high)
        left = [key for key in left if components.root(key[1]) != components.root(key[2])]
        rounds += 1
    return rounds
