"""The graph of pgRouting's manual with the results that the manual shows, and pgRouting's results for random tables, if it is
installed.

Both have to agree on whatever does not depend on the choice among equal edges: the number and cost of the forest's edges, the
components, and trees without equal costs."""

SAMPLE = """CREATE TABLE sample (id int, source int, target int, cost float8, reverse_cost float8);
INSERT INTO sample VALUES (1, 5, 6, 1, 1), (2, 6, 10, -1, 1), (3, 10, 15, -1, 1), (4, 6, 7, 1, 1), (5, 10, 11, 1, -1), (6, 1, 3, 1, 1),
(7, 3, 7, 1, 1), (8, 7, 11, 1, 1), (9, 11, 16, 1, 1), (10, 7, 8, 1, 1), (11, 11, 12, 1, -1), (12, 8, 12, 1, -1), (13, 12, 17, 1, -1),
(14, 8, 9, 1, 1), (15, 16, 17, 1, 1), (16, 15, 16, 1, 1), (17, 2, 4, 1, 1), (18, 13, 14, 1, 1);"""
# The edges that have a cost in at least one direction, as pgRouting reads them.
EDGES = "SELECT id, source, target, CASE WHEN cost < 0 THEN reverse_cost WHEN reverse_cost < 0 THEN cost ELSE least(cost, reverse_cost) END AS cost FROM sample"


def expect_sample(server):
    """The manual's graph has 17 vertices in the components 1, 2 and 13. All costs are 1, so any forest costs 14."""
    server.expect(SAMPLE)
    found = server.expect(f"SELECT count(*), sum(cost) FROM boruvka_kruskal('{EDGES}')").strip()
    components = server.expect(f"SELECT component, string_agg(node::text, ' ' ORDER BY node) FROM boruvka_components('{EDGES}') GROUP BY 1 ORDER BY 1").splitlines()
    wanted = ["1|1 3 5 6 7 8 9 10 11 12 15 16 17", "2|2 4", "13|13 14"]
    if (found, components) != ("14|14", wanted):
        raise AssertionError(f"{found}, {components}")


def expect_as_pgrouting(server):
    expect_sample(server)
    if not server.expect("SELECT name FROM pg_available_extensions WHERE name = 'pgrouting'"):
        return "pgRouting isn't installed"
    server.expect("CREATE EXTENSION pgrouting CASCADE")
    for seed in range(20):
        server.expect(f"""SELECT setseed({seed / 20}); CREATE TABLE other AS
            SELECT i AS id, (random() * 60)::bigint AS source, (random() * 60)::bigint AS target, {'random()' if seed % 2 else '(random() * 3)::int'}::float8 AS cost
            FROM generate_series(1, {40 + 8 * seed}) i; DELETE FROM other WHERE source = target""")
        for what, ours, theirs in [
            ("kruskal", "count(*), sum(cost)::numeric(20, 9) FROM boruvka_kruskal(", "count(*), sum(cost)::numeric(20, 9) FROM pgr_kruskal("),
            ("components", "component, node FROM boruvka_components(", "component, node FROM pgr_connectedComponents("),
            *([("tree", "depth, start_vid, node, edge, cost, agg_cost::numeric(20, 9) FROM boruvka_tree(", "depth, start_vid, node, edge, cost, agg_cost::numeric(20, 9) FROM pgr_kruskalBFS(")] if seed % 2 else []),
        ]:
            more = ", (SELECT max(source) FROM other)" if what == "tree" else ""
            answers = [set(server.expect(f"SELECT {it}'SELECT * FROM other'{more})").splitlines()) for it in (ours, theirs)]
            if answers[0] != answers[1]:
                raise AssertionError(f"{what}, seed {seed}: only ours {sorted(answers[0] - answers[1])[:5]}, only pgRouting's {sorted(answers[1] - answers[0])[:5]}")
        server.expect("DROP TABLE other")
    return None
