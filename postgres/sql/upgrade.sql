-- Version 1.0 has only the aggregate. The update adds the functions.
SELECT extversion FROM pg_extension WHERE extname = 'boruvka';
CREATE VIEW here AS SELECT string_agg(proname || '(' || pg_get_function_identity_arguments(oid) || ')', E'\n' ORDER BY proname, oid::regprocedure::text) AS functions
FROM pg_proc WHERE proname LIKE 'boruvka\_%' AND prokind IN ('a', 'f') AND NOT 'internal'::regtype = ANY (proargtypes);
CREATE TABLE before AS TABLE here;
DROP EXTENSION boruvka;
TABLE here;
CREATE EXTENSION boruvka VERSION '1.0';
TABLE here;
SELECT boruvka_forest(1, 2, 3, 4::bigint);
ALTER EXTENSION boruvka UPDATE;
TABLE here;
SELECT functions = (SELECT functions FROM before) AS same FROM here;
SELECT extversion FROM pg_extension WHERE extname = 'boruvka';
-- The functions work after the extension moved to another schema.
CREATE SCHEMA elsewhere;
ALTER EXTENSION boruvka SET SCHEMA elsewhere;
SELECT elsewhere.boruvka_forest(1, 2, 3, 4::bigint);
SELECT * FROM elsewhere.boruvka_tree('SELECT 1 AS id, 2 AS source, 3 AS target, 4 AS cost', 3);
ALTER EXTENSION boruvka SET SCHEMA public;
DROP SCHEMA elsewhere;
DROP VIEW here;
DROP TABLE before;
