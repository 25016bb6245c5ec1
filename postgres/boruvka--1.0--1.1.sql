\echo Use "ALTER EXTENSION boruvka UPDATE TO '1.1'" to load this file. \quit

CREATE FUNCTION boruvka_kruskal(edges_sql text, OUT edge bigint, OUT cost double precision) RETURNS SETOF record
AS 'MODULE_PATHNAME' LANGUAGE C VOLATILE COST 1000;

CREATE FUNCTION boruvka_components(edges_sql text, OUT seq bigint, OUT component bigint, OUT node bigint) RETURNS SETOF record
AS 'MODULE_PATHNAME' LANGUAGE C VOLATILE COST 1000;

CREATE FUNCTION boruvka_linkage(
    edges_sql text,
    OUT seq bigint, OUT cluster bigint, OUT joined bigint, OUT edge bigint, OUT height double precision, OUT size bigint
) RETURNS SETOF record
AS 'MODULE_PATHNAME' LANGUAGE C VOLATILE COST 1000;

CREATE FUNCTION boruvka_clusters(
    edges_sql text, height double precision DEFAULT NULL, clusters bigint DEFAULT NULL,
    OUT seq bigint, OUT cluster bigint, OUT node bigint
) RETURNS SETOF record
AS 'MODULE_PATHNAME' LANGUAGE C VOLATILE COST 1000;

CREATE FUNCTION boruvka_tree(
    edges_sql text, root_vids bigint[], max_depth bigint DEFAULT 9223372036854775807,
    OUT seq bigint, OUT depth bigint, OUT start_vid bigint, OUT node bigint, OUT edge bigint,
    OUT cost double precision, OUT agg_cost double precision
) RETURNS SETOF record
AS 'MODULE_PATHNAME' LANGUAGE C VOLATILE COST 1000;

CREATE FUNCTION boruvka_tree(
    edges_sql text, root_vid bigint, max_depth bigint DEFAULT 9223372036854775807,
    OUT seq bigint, OUT depth bigint, OUT start_vid bigint, OUT node bigint, OUT edge bigint,
    OUT cost double precision, OUT agg_cost double precision
) RETURNS SETOF record
LANGUAGE SQL VOLATILE COST 1000
BEGIN ATOMIC
    SELECT * FROM boruvka_tree(edges_sql, ARRAY[root_vid], max_depth);
END;

COMMENT ON FUNCTION boruvka_kruskal(text)
IS 'edges of the minimum spanning forest, lightest first';
COMMENT ON FUNCTION boruvka_components(text)
IS 'component of each vertex, named by its least vertex';
COMMENT ON FUNCTION boruvka_linkage(text)
IS 'clusters that each edge of the forest joins (single linkage)';
COMMENT ON FUNCTION boruvka_clusters(text, double precision, bigint)
IS 'cluster of each vertex, up to a height or down to a number of clusters (single linkage)';
COMMENT ON FUNCTION boruvka_tree(text, bigint[], bigint)
IS 'trees of the minimum spanning forest from these roots, breadth first';
COMMENT ON FUNCTION boruvka_tree(text, bigint, bigint)
IS 'tree of the minimum spanning forest from this root, breadth first';
