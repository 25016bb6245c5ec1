-- Each error has a code, the id of the edge and a hint.
CREATE TABLE good (id bigint, source bigint, target bigint, cost float8);
INSERT INTO good VALUES (1, 1, 2, 1), (2, 2, 3, 2);

-- The aggregate: NULL, NaN, too many digits, duplicate ids.
SELECT boruvka_forest(id, source, target, cost) FROM (TABLE good UNION ALL VALUES (NULL::bigint, 1, 3, 4::float8)) AS it;
\echo :LAST_ERROR_SQLSTATE
SELECT boruvka_forest(id, source, target, cost) FROM (TABLE good UNION ALL VALUES (7, NULL::bigint, 3, 4::float8)) AS it;
\echo :LAST_ERROR_SQLSTATE
SELECT boruvka_forest(id, source, target, cost) FROM (TABLE good UNION ALL VALUES (7, 1, NULL::bigint, 4::float8)) AS it;
\echo :LAST_ERROR_SQLSTATE
SELECT boruvka_forest(id, source, target, cost) FROM (TABLE good UNION ALL VALUES (7, 1, 3, NULL::float8)) AS it;
\echo :LAST_ERROR_SQLSTATE
SELECT boruvka_forest(id, source, target, cost) FROM (TABLE good UNION ALL VALUES (7, 1, 3, 'NaN'::float8)) AS it;
\echo :LAST_ERROR_SQLSTATE
SELECT boruvka_forest(id, source, target, cost::numeric) FROM (TABLE good UNION ALL VALUES (7, 1, 3, 'NaN'::float8)) AS it;
\echo :LAST_ERROR_SQLSTATE
SELECT boruvka_forest(7, 1, 3, 0.3000000000000001);
\echo :LAST_ERROR_SQLSTATE
SELECT boruvka_forest(7, 1, 3, -1e400);
\echo :LAST_ERROR_SQLSTATE
SELECT boruvka_forest(7, 1, 3, 1e-400);
\echo :LAST_ERROR_SQLSTATE
SELECT boruvka_forest(7, source, target, cost) FROM good;
\echo :LAST_ERROR_SQLSTATE
-- The aggregate does not report a duplicate id if one of the two edges is not in the forest.
SELECT boruvka_forest(7, 1, 2, cost) FROM good;
SELECT boruvka_forest(id, source, target, 'heavy'::text) FROM good;
\echo :LAST_ERROR_SQLSTATE

-- The functions: the same errors in a query, and errors in its columns.
SELECT * FROM boruvka_kruskal('TABLE good UNION ALL VALUES (NULL::bigint, 1, 3, 4::float8)');
\echo :LAST_ERROR_SQLSTATE
SELECT * FROM boruvka_components('TABLE good UNION ALL VALUES (7, NULL::bigint, 3, 4::float8)');
\echo :LAST_ERROR_SQLSTATE
SELECT * FROM boruvka_linkage('TABLE good UNION ALL VALUES (7, 1, NULL::bigint, 4::float8)');
\echo :LAST_ERROR_SQLSTATE
SELECT * FROM boruvka_tree('TABLE good UNION ALL VALUES (7, 1, 3, NULL::float8)', 1);
\echo :LAST_ERROR_SQLSTATE
SELECT * FROM boruvka_clusters('TABLE good UNION ALL VALUES (7, 1, 3, ''NaN''::float8)', 1);
\echo :LAST_ERROR_SQLSTATE
SELECT * FROM boruvka_kruskal('TABLE good UNION ALL VALUES (7, 1, 3, -0.5)');
\echo :LAST_ERROR_SQLSTATE
SELECT * FROM boruvka_kruskal('SELECT 7 AS id, 1 AS source, 3 AS target, -5 AS cost');
\echo :LAST_ERROR_SQLSTATE
SELECT * FROM boruvka_kruskal('SELECT 7 AS id, 1 AS source, 3 AS target, 0.1234567890123456 AS cost');
\echo :LAST_ERROR_SQLSTATE
SELECT * FROM boruvka_kruskal('SELECT 7 AS id, 1 AS source, 3 AS target, 9007199254740993 AS cost');
\echo :LAST_ERROR_SQLSTATE
SELECT * FROM boruvka_kruskal('SELECT 7 AS id, 1 AS source, 3 AS target, 9223372036854775807 AS cost');
\echo :LAST_ERROR_SQLSTATE
SELECT * FROM boruvka_components('SELECT 7 AS id, 1 AS source, 3 AS target, 9223372036854775807 AS cost');
SELECT * FROM boruvka_kruskal('TABLE good UNION ALL VALUES (2, 1, 3, 40)');
\echo :LAST_ERROR_SQLSTATE
SELECT * FROM boruvka_kruskal('TABLE good UNION ALL VALUES (-9223372036854775808, 1, 3, 40), (8388608, 1, 3, 1), (-9223372036854775808, 1, 3, 41)');
\echo :LAST_ERROR_SQLSTATE
SELECT * FROM boruvka_kruskal('TABLE good UNION ALL VALUES (8388607, 1, 3, 40), (0, 1, 4, 1), (8388607, 1, 3, 41)');
\echo :LAST_ERROR_SQLSTATE
SELECT * FROM boruvka_kruskal('SELECT *, cost AS reverse_cost FROM good');
\echo :LAST_ERROR_SQLSTATE
SELECT * FROM boruvka_kruskal('SELECT id, source, target FROM good WHERE false');
\echo :LAST_ERROR_SQLSTATE
SELECT * FROM boruvka_kruskal('SELECT *, 1 AS cost FROM good');
\echo :LAST_ERROR_SQLSTATE
SELECT * FROM boruvka_kruskal('SELECT id, source::text, target, cost FROM good');
\echo :LAST_ERROR_SQLSTATE
SELECT * FROM boruvka_kruskal('SELECT id::float8, source, target, cost FROM good');
\echo :LAST_ERROR_SQLSTATE
SELECT * FROM boruvka_kruskal('SELECT id, source, target, cost::money FROM good');
\echo :LAST_ERROR_SQLSTATE

-- Texts that are not a single query.
SELECT * FROM boruvka_kruskal(NULL);
\echo :LAST_ERROR_SQLSTATE
SELECT * FROM boruvka_kruskal('');
\echo :LAST_ERROR_SQLSTATE
SELECT * FROM boruvka_kruskal('good');
\echo :LAST_ERROR_SQLSTATE
SELECT * FROM boruvka_kruskal('TABLE good; TABLE good');
\echo :LAST_ERROR_SQLSTATE
SELECT * FROM boruvka_kruskal('DELETE FROM good');
\echo :LAST_ERROR_SQLSTATE
SELECT * FROM boruvka_kruskal('DELETE FROM good RETURNING *');
\echo :LAST_ERROR_SQLSTATE
SELECT * FROM boruvka_kruskal('EXPLAIN TABLE good');
\echo :LAST_ERROR_SQLSTATE
SELECT * FROM boruvka_kruskal('TABLE nowhere');
\echo :LAST_ERROR_SQLSTATE
SELECT * FROM boruvka_kruskal('SELECT id, source, target, 1 / (2 - id) AS cost FROM good');
\echo :LAST_ERROR_SQLSTATE
TABLE good;

-- Other arguments.
SELECT * FROM boruvka_clusters('TABLE good');
\echo :LAST_ERROR_SQLSTATE
SELECT * FROM boruvka_clusters('TABLE good', 1, 1);
\echo :LAST_ERROR_SQLSTATE
SELECT * FROM boruvka_clusters('TABLE good', 'NaN');
\echo :LAST_ERROR_SQLSTATE
SELECT * FROM boruvka_clusters('TABLE good', clusters => 0);
\echo :LAST_ERROR_SQLSTATE
SELECT * FROM boruvka_clusters('TABLE good', clusters => 4);
\echo :LAST_ERROR_SQLSTATE
SELECT * FROM boruvka_tree('TABLE good', 0);
\echo :LAST_ERROR_SQLSTATE
SELECT * FROM boruvka_tree('TABLE good', NULL::bigint);
\echo :LAST_ERROR_SQLSTATE
SELECT * FROM boruvka_tree('TABLE good', NULL::bigint[]);
\echo :LAST_ERROR_SQLSTATE
SELECT * FROM boruvka_tree('TABLE good', 1, -1);
\echo :LAST_ERROR_SQLSTATE
SELECT * FROM boruvka_tree('TABLE good', 1, NULL);
\echo :LAST_ERROR_SQLSTATE

-- The session goes on after an error, also in a block that catches it.
DO $$ BEGIN PERFORM * FROM boruvka_kruskal('TABLE good UNION ALL VALUES (7, 1, 3, ''NaN''::float8)');
EXCEPTION WHEN invalid_parameter_value THEN RAISE NOTICE 'caught: %', SQLERRM; END $$;
SELECT * FROM boruvka_kruskal('TABLE good');
DROP TABLE good;
