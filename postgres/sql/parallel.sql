-- 19,997 edges of a strip of 5,000 by 2 vertices, in four partitions. Many costs are equal.
CREATE TABLE strip (id bigint, source bigint, target bigint, cost float8) PARTITION BY HASH (id);
CREATE TABLE strip_0 PARTITION OF strip FOR VALUES WITH (MODULUS 4, REMAINDER 0);
CREATE TABLE strip_1 PARTITION OF strip FOR VALUES WITH (MODULUS 4, REMAINDER 1);
CREATE TABLE strip_2 PARTITION OF strip FOR VALUES WITH (MODULUS 4, REMAINDER 2);
CREATE TABLE strip_3 PARTITION OF strip FOR VALUES WITH (MODULUS 4, REMAINDER 3);
INSERT INTO strip SELECT 4 * i + k, 2 * i + (k = 1)::int, 2 * i + CASE k WHEN 0 THEN 1 WHEN 1 THEN 3 WHEN 2 THEN 2 ELSE 3 END, (i * (k + 3)) % 7
FROM generate_series(0, 4999) i, generate_series(0, 3) k WHERE i < 4999 OR k = 0;
ANALYZE strip;
SET parallel_setup_cost = 0;
SET parallel_tuple_cost = 0;
SET min_parallel_table_scan_size = 0;

SET max_parallel_workers_per_gather = 0;
EXPLAIN (COSTS OFF) SELECT boruvka_forest(id, source, target, cost) FROM strip_0;
CREATE TABLE answers AS SELECT 'no worker' AS plan, boruvka_forest(id, source, target, cost) AS ids FROM strip;
INSERT INTO answers SELECT 'no worker, swapped', boruvka_forest(id, target, source, cost ORDER BY hashint8(id)) FROM strip;

SET max_parallel_workers_per_gather = 1;
INSERT INTO answers SELECT '1 worker', boruvka_forest(id, source, target, cost) FROM strip;
SET max_parallel_workers_per_gather = 3;
EXPLAIN (COSTS OFF) SELECT boruvka_forest(id, source, target, cost) FROM strip_0;
INSERT INTO answers SELECT '3 workers', boruvka_forest(id, source, target, cost) FROM strip;
INSERT INTO answers SELECT '3 workers, whole costs', boruvka_forest(id, source, target, cost::bigint) FROM strip;
INSERT INTO answers SELECT '3 workers, numeric costs', boruvka_forest(id, source, target, cost::numeric) FROM strip;
SET parallel_leader_participation = off;
INSERT INTO answers SELECT '3 workers, without the leader', boruvka_forest(id, source, target, cost) FROM strip;
RESET parallel_leader_participation;

-- Each partition is aggregated, then the results are combined.
SET max_parallel_workers_per_gather = 0;
SET enable_partitionwise_aggregate = on;
EXPLAIN (COSTS OFF) SELECT boruvka_forest(id, source, target, cost) FROM strip;
INSERT INTO answers SELECT 'partition by partition', boruvka_forest(id, source, target, cost) FROM strip;

INSERT INTO answers SELECT 'a function', array_agg(edge) FROM boruvka_kruskal('SELECT * FROM strip');
SET max_parallel_workers_per_gather = 3;
INSERT INTO answers SELECT 'a function, 3 workers', array_agg(edge) FROM boruvka_kruskal('SELECT * FROM strip');
SELECT count(DISTINCT ids), count(*), min(cardinality(ids)), max(cardinality(ids)) FROM answers;
-- Another program found the same cost.
SELECT sum(cost) FROM strip JOIN (SELECT unnest(ids) AS id FROM (SELECT ids FROM answers LIMIT 1) AS it) AS forest USING (id);

-- Groups that are split among workers.
SELECT id % 3 AS part, cardinality(boruvka_forest(id, source, target, cost)) FROM strip GROUP BY part ORDER BY part;
SET max_parallel_workers_per_gather = 0;
SELECT id % 3 AS part, cardinality(boruvka_forest(id, source, target, cost)) FROM strip GROUP BY part ORDER BY part;
DROP TABLE strip, answers;
