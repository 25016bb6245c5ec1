-- A small network, whose forest is 7, 5, 4, 6, 2 and costs 13.
CREATE TABLE network (id bigint, source bigint, target bigint, cost float8);
INSERT INTO network VALUES (1, 1, 2, 17), (2, 1, 3, 10), (3, 2, 4, 2), (4, 3, 5, 0), (5, 4, 3, 0), (6, 4, 6, 3), (7, 5, 2, 0), (8, 5, 6, 20);
SELECT boruvka_forest(id, source, target, cost) FROM network;
SELECT boruvka_forest(id, target, source, cost ORDER BY id DESC) FROM network;
SELECT sum(cost) FROM network WHERE id = ANY (SELECT unnest(boruvka_forest(id, source, target, cost)) FROM network);

-- No edges, one edge, loops, parallel edges.
SELECT boruvka_forest(id, source, target, cost) FROM network WHERE false;
SELECT boruvka_forest(1, 2, 3, 4.5::float8);
SELECT boruvka_forest(1, 2, 2, 4.5::float8);
SELECT boruvka_forest(id, source, target, cost::float8)
FROM (VALUES (1, 1, 2, 5), (2, 2, 1, 4), (3, 1, 2, 4), (4, 1, 1, 0), (5, 2, 2, -9)) AS edges (id, source, target, cost);

-- Groups, of which some are small or are empty after FILTER.
SELECT region, boruvka_forest(id, source, target, cost), boruvka_forest(id, source, target, cost) FILTER (WHERE cost > 2)
FROM (VALUES ('a', 1, 1, 2, 3.0::float8), ('a', 2, 2, 3, 1), ('a', 3, 3, 1, 2), ('b', 4, 1, 2, 1), ('c', 5, 7, 7, 4)) AS edges (region, id, source, target, cost)
GROUP BY region ORDER BY region;

-- A window: the forest of a network that grows.
SELECT id, boruvka_forest(id, source, target, cost) OVER (ORDER BY id) FROM network ORDER BY id;

-- All costs are equal, and the edges close cycles. Ties are broken by the lower endpoint, then the higher one, then the id.
SELECT boruvka_forest(id, source, target, 1::float8)
FROM (VALUES (1, 3, 4), (2, 4, 1), (3, 2, 1), (4, 3, 2), (5, 1, 2), (6, 3, 1)) AS edges (id, source, target);
SELECT boruvka_forest(id, source, target, 1::float8)
FROM (VALUES (10, 4, 3), (9, 3, -1), (8, -1, 4), (7, -2, -1)) AS edges (id, source, target);

-- The least and the greatest bigint as ids.
SELECT boruvka_forest(id, source, target, cost::float8)
FROM (VALUES (9223372036854775807, -9223372036854775808, 9223372036854775807, 1),
             (-9223372036854775808, 9223372036854775807, 0, 2),
             (0, 0, -9223372036854775808, 3)) AS edges (id, source, target, cost);

-- Costs of each kind in their order. -0 and 0 are equal, so edge 9 comes before edge 8, because its endpoints are lower.
SELECT boruvka_forest(id, id, id - 1, cost) FROM (VALUES (1, '-Infinity'::float8), (2, -1.5), (3, -5e-324), (5, 5e-324), (6, 1e-310), (7, 'Infinity'), (4, 0)) AS edges (id, cost);
SELECT boruvka_forest(id, source, target, cost) FROM (VALUES (8, 3, 4, '-0'::float8), (9, 1, 2, 0)) AS edges (id, source, target, cost);

-- Whole costs are exact above 2^53, where float8 would round them.
SELECT boruvka_forest(id, 1, 2, cost) FROM (VALUES (1, 9007199254740993), (2, 9007199254740992), (3, 9007199254740994)) AS edges (id, cost);
SELECT boruvka_forest(id, 1, 2, cost) FROM (VALUES (1, 9223372036854775807), (2, 9223372036854775806)) AS edges (id, cost);
SELECT boruvka_forest(id, 1, 2, cost) FROM (VALUES (1, -9223372036854775807), (2, -9223372036854775808)) AS edges (id, cost);

-- Types with an implicit cast, and numeric costs.
SELECT boruvka_forest(id, source, target, cost)
FROM (VALUES (1::smallint, 1::int, 2::bigint, 2::smallint), (2, 2, 3, 1), (3, 3, 1, 0)) AS edges (id, source, target, cost);
SELECT boruvka_forest(id, id, id + 1, cost::real) FROM generate_series(1, 3) id, LATERAL (SELECT 4 - id) AS it (cost);
SELECT boruvka_forest(id, 1, 2, cost)
FROM (VALUES (1, 0.300000000000001), (2, 0.3), (3, 0.30), (4, 99999999999999.9)) AS edges (id, cost);
SELECT boruvka_forest(id, id, id - 1, cost) FROM (VALUES (1, 'Infinity'::numeric), (2, '-Infinity'), (3, -0.1), (4, 1e20), (5, 0.0)) AS edges (id, cost);

-- A row that is there twice counts once.
SELECT boruvka_forest(id, source, target, cost) FROM (SELECT * FROM network UNION ALL SELECT * FROM network) AS twice;
DROP TABLE network;
