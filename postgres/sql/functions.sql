-- A network with a second component, parallel edges, and a loop at a vertex without other edges.
CREATE TABLE network (id int, source int, target int, cost float4);
INSERT INTO network VALUES (1, 1, 2, 17), (2, 1, 3, 10), (3, 2, 4, 2), (4, 3, 5, 0), (5, 4, 3, 0), (6, 4, 6, 3), (7, 5, 2, 0), (8, 5, 6, 20),
    (9, 8, 7, 1.5), (10, 7, 8, 2.5), (11, 9, 9, 0);
SELECT * FROM boruvka_kruskal('SELECT * FROM network');
SELECT * FROM boruvka_components('SELECT * FROM network');
SELECT * FROM boruvka_linkage('SELECT * FROM network');
SELECT * FROM boruvka_clusters('SELECT * FROM network', height => 0);
SELECT * FROM boruvka_clusters('SELECT * FROM network', 3);
SELECT * FROM boruvka_clusters('SELECT * FROM network', clusters => 4);
SELECT count(DISTINCT cluster) FROM boruvka_clusters('SELECT * FROM network', clusters => 9);
SELECT count(DISTINCT cluster) FROM boruvka_clusters('SELECT * FROM network', clusters => 3);
SELECT * FROM boruvka_tree('SELECT * FROM network', 4);
SELECT * FROM boruvka_tree('SELECT * FROM network', 4, max_depth => 1);
SELECT * FROM boruvka_tree('SELECT * FROM network', 4, max_depth => 0);
SELECT * FROM boruvka_tree('SELECT * FROM network', ARRAY[8, 1, 8, 9], 2);
SELECT * FROM boruvka_tree('SELECT * FROM network', ARRAY[]::bigint[]);
-- The trees of all components, from the least vertex of each.
SELECT start_vid, node, edge FROM boruvka_tree('SELECT * FROM network', ARRAY(SELECT DISTINCT component FROM boruvka_components('SELECT * FROM network') ORDER BY 1));

-- No edges.
SELECT * FROM boruvka_kruskal('SELECT * FROM network WHERE false');
SELECT * FROM boruvka_components('SELECT * FROM network WHERE false');
SELECT * FROM boruvka_linkage('SELECT * FROM network WHERE false');
SELECT * FROM boruvka_clusters('SELECT * FROM network WHERE false', height => 1);
SELECT * FROM boruvka_clusters('SELECT * FROM network WHERE false', clusters => 0);
SELECT * FROM boruvka_tree('SELECT * FROM network WHERE false', ARRAY[]::bigint[]);

-- Other types, another order of columns, another column, a semicolon, and a query that is not a plain SELECT.
SELECT * FROM boruvka_kruskal('SELECT ''a name'' AS name, cost::numeric, target::smallint, source::bigint, id FROM network WHERE id > 8;');
SELECT * FROM boruvka_kruskal('WITH edges AS (SELECT * FROM network) TABLE edges') LIMIT 1;

-- Infinity is the last cost. Whole costs stay exact.
SELECT * FROM boruvka_kruskal('SELECT * FROM (VALUES (1, 1, 2, ''Infinity''::float8), (2, 2, 3, 0), (3, 1, 3, ''Infinity'')) AS it (id, source, target, cost)');
SELECT edge, cost::bigint FROM boruvka_kruskal('SELECT * FROM (VALUES (1, 1, 2, 9007199254740993), (2, 1, 2, 9007199254740992)) AS it (id, source, target, cost)');

-- A call for each row of another query, and a call in the query of another call.
SELECT name, edge FROM (VALUES ('low', 2), ('high', 20)) AS it (name, most), boruvka_kruskal(format('SELECT * FROM network WHERE cost <= %s AND id > 5', most));
SELECT * FROM boruvka_components('SELECT edge AS id, edge AS source, edge + 1 AS target, cost FROM boruvka_kruskal(''SELECT * FROM network WHERE id > 5'')');
DROP TABLE network;
