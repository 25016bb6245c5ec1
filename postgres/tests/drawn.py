"""Random tables, each with its forest, components, merges and trees. An independent reference computes these: Kruskal's
algorithm with Python's sort, numbers and dictionaries."""
import json
import random
from decimal import Decimal

TABLES = 300
LEAST, MOST = -(2**63), 2**63 - 1
FLOATS = [0.0, -0.0, 5e-324, 1e-320, 2.2250738585072014e-308, 0.1, 0.1 + 2**-56, 0.5, 1.0, 1.5, 2.0, 3.0, 2.0**53, 1.7976931348623157e308, float("inf")]
NUMERICS = ["0", "0.1", "0.10", "0.30000", "0.300001", "1", "1.00", "123456789012345", "0.000000000000001", "1e20", "99999.9999999999", "Infinity"]
WHOLES = [0, 1, 2, 3, 2**53 - 1, 2**53, 2**53 + 1, 2**53 + 2, 2**62, MOST - 1, MOST]
# The number of workers, the order of endpoints, and the order of rows.
SOME_SWAPPED = "CASE WHEN id % 2 = 0 THEN source ELSE target END, CASE WHEN id % 2 = 0 THEN target ELSE source END"
PLANS = [(0, "source, target", ""), (1, "target, source", ""), (3, SOME_SWAPPED, ""), (0, SOME_SWAPPED, "ORDER BY hashint8(id)"), (3, "target, source", "ORDER BY hashint8(id)")]


def drawn_table(seed):
    """Rows (id, source, target, float, whole, numeric, exact), where `exact` is a whole cost that a double can hold."""
    draw = random.Random(seed)
    n, m = draw.choice([(1, 3), (2, 9), (6, 12), (20, 30), (40, 160), (60, 60)])
    vertices = draw.sample([LEAST, LEAST + 1, -1, 0, 1, MOST - 1, MOST, *range(100, 200)], n)
    ids = draw.sample([LEAST, -2, -1, 0, MOST, *range(1, 4 * m)], draw.randint(0 if n > 1 else 1, m))
    few = draw.choice([1, 3, len(FLOATS)])
    floats = draw.sample(FLOATS, few) + ([draw.random() for _ in range(9)] if draw.random() < 0.3 else [])
    return [(it, draw.choice(vertices), draw.choice(vertices), draw.choice(floats), draw.choice(WHOLES[-few:]), draw.choice(NUMERICS[-few:]),
             draw.choice([0, 1, 2, 2**53, 2**60])) for it in ids]


class Reference:
    """The results for one table of edges (id, source, target, cost)."""

    def __init__(self, edges):
        self.cluster = {v: v for _, source, target, _ in edges for v in (source, target)}
        self.size = dict.fromkeys(self.cluster, 1)
        self.forest, self.merges, self.cuts = [], [], [dict(self.cluster)]
        for cost, low, high, id_ in sorted((cost, min(s, t), max(s, t), id_) for id_, s, t, cost in edges):
            a, b = sorted((self.cluster[low], self.cluster[high]))
            if a == b:
                continue
            self.forest.append((id_, low, high, cost))
            self.cluster = {v: a if name == b else name for v, name in self.cluster.items()}
            self.size[a] += self.size[b]
            self.merges.append((len(self.forest), a, b, id_, float(cost), self.size[a]))
            self.cuts.append(self.cluster)

    def members(self, edges):
        """The rows (seq, name, vertex) after this many edges of the forest."""
        return [(i, *it) for i, it in enumerate(sorted((name, v) for v, name in self.cuts[edges].items()), 1)]

    def tree(self, root, depth=MOST):
        found, queue = [], [(0, root, None, 0.0, 0.0)]
        while queue:
            here = queue.pop(0)
            found.append((here[0], root, here[1], -1 if here[2] is None else here[2], *here[3:]))
            if here[0] < depth:
                beside = [(id_, a + b - here[1], float(cost)) for id_, a, b, cost in self.forest if here[1] in (a, b) and id_ != here[2]]
                queue += [(here[0] + 1, v, id_, cost, here[4] + cost) for id_, v, cost in beside]
        return found


def rows_of(output):
    """The rows that psql printed, grouped by the number of their table."""
    found = {}
    for line in output.splitlines():
        table, *fields = line.split("|")
        found.setdefault(int(table), []).append(tuple(float(it) if any(c in it for c in ".enE") else int(it) for it in fields))
    return found


def is_so(found, wanted):
    if found != wanted:
        raise AssertionError(f"wanted {wanted!r:.900}\n    found  {found!r:.900}")


def expect_same(what, found, wanted):
    wanted = {table: rows for table, rows in wanted.items() if rows}
    for table in {*found, *wanted}:
        if found.get(table, []) != wanted.get(table, []):
            raise AssertionError(f"{what}, drawn table {table}: wanted {wanted.get(table)!r:.600}\n    found  {found.get(table)!r:.600}")


def fill(server, tables):
    lines = ["CREATE TABLE drawn (tab int, id bigint, source bigint, target bigint, f float8, w bigint, n numeric, e bigint);", "COPY drawn FROM STDIN;"]
    lines += ["\t".join(map(str, (number, *row))) for number, rows in enumerate(tables) for row in rows]
    server.expect("\n".join([*lines, "\\.", "CREATE INDEX ON drawn (tab); ALTER TABLE drawn SET (parallel_workers = 3); ANALYZE drawn;"]))


def expect_aggregates(server, tables):
    """The ids are the same for each order of rows and endpoints, each plan, and each type of costs."""
    casts = {"f": (3, float), "w": (4, int), "n": (5, Decimal), "-f": (3, lambda it: -float(it)), "-w": (4, lambda it: -it)}
    settings = "SET parallel_setup_cost = 0; SET parallel_tuple_cost = 0; SET min_parallel_table_scan_size = 0; SET max_parallel_workers_per_gather = {};"
    for column, (place, value) in casts.items():
        wanted = {number: [it[0] for it in Reference([(*row[:3], value(row[place])) for row in rows]).forest] for number, rows in enumerate(tables) if rows}
        for workers, ends, order in PLANS:
            script = f"{settings.format(workers)} SELECT tab, array_to_json(boruvka_forest(id, {ends}, {column})) FROM (SELECT * FROM drawn {order}) it GROUP BY tab;"
            found = {int(table): json.loads(ids) for table, ids in (line.split("|") for line in server.expect(script).splitlines())}
            if found != wanted:
                [first, *_] = [it for it in wanted if found.get(it) != wanted[it]]
                raise AssertionError(f"drawn table {first}, {column}, {workers} workers, {ends}, {order}: wanted {wanted[first]}, found {found.get(first)}")


def expect_functions(server, tables):
    for column, place, value in [("f", 3, float), ("e", 6, int)]:
        references = [Reference([(*row[:3], value(row[place])) for row in rows]) for rows in tables]
        query = f"format('SELECT id, source, target, {column} AS cost FROM drawn WHERE tab = %s ORDER BY hashint8(id)', tab)"

        def found(call, extra=""):
            return rows_of(server.expect(f"SELECT tab, it.* FROM generate_series(0, {len(tables) - 1}) tab{extra}, {call.replace('EDGES', query)} it"))

        expect_same("kruskal", found("boruvka_kruskal(EDGES)"), {i: [(it[0], float(it[3])) for it in one.forest] for i, one in enumerate(references)})
        expect_same("components", found("boruvka_components(EDGES)"), {i: one.members(-1) for i, one in enumerate(references)})
        expect_same("linkage", found("boruvka_linkage(EDGES)"), {i: one.merges for i, one in enumerate(references)})
        for height in (0, 1.5, float("inf")):
            wanted = {i: one.members(sum(it[3] <= height for it in one.forest)) for i, one in enumerate(references)}
            expect_same(f"clusters up to {height}", found(f"boruvka_clusters(EDGES, height => '{height}')"), wanted)
        middle = [(len(one.size) + len(one.size) - len(one.forest)) // 2 for one in references]
        wanted = {i: one.members(len(one.size) - middle[i]) for i, one in enumerate(references)}
        counts = f"unnest('{{{','.join(map(str, middle))}}}'::int[]) WITH ORDINALITY AS middle (count, place)"
        calls = f"SELECT tab, it.* FROM {counts}, LATERAL (SELECT place - 1) AS t (tab), boruvka_clusters({query}, clusters => count) it"
        expect_same("clusters by their number", rows_of(server.expect(calls)), wanted)
        for depth in (2, MOST):
            roots = [sorted({one.cluster[v] for v in one.cluster}) for one in references]
            wanted = {i: [(seq, *it) for seq, it in enumerate((it for root in roots[i] for it in one.tree(root, depth)), 1)] for i, one in enumerate(references)}
            call = f"boruvka_tree(EDGES, ARRAY(SELECT DISTINCT component FROM boruvka_components(EDGES) ORDER BY component), {depth})"
            expect_same(f"trees down to {depth}", found(call), wanted)


def expect_drawn(server, first=0, count=TABLES):
    tables = [drawn_table(seed) for seed in range(first, first + count)]
    fill(server, tables)
    expect_aggregates(server, tables)
    expect_functions(server, tables)
    server.expect("DROP TABLE drawn")
