\echo Use "CREATE EXTENSION boruvka" to load this file. \quit

CREATE FUNCTION boruvka_add(internal, bigint, bigint, bigint, double precision) RETURNS internal
AS 'MODULE_PATHNAME' LANGUAGE C PARALLEL SAFE;

CREATE FUNCTION boruvka_add(internal, bigint, bigint, bigint, bigint) RETURNS internal
AS 'MODULE_PATHNAME' LANGUAGE C PARALLEL SAFE;

CREATE FUNCTION boruvka_add(internal, bigint, bigint, bigint, numeric) RETURNS internal
AS 'MODULE_PATHNAME' LANGUAGE C PARALLEL SAFE;

CREATE FUNCTION boruvka_combine(internal, internal) RETURNS internal
AS 'MODULE_PATHNAME' LANGUAGE C PARALLEL SAFE;

CREATE FUNCTION boruvka_serialize(internal) RETURNS bytea
AS 'MODULE_PATHNAME' LANGUAGE C STRICT PARALLEL SAFE;

CREATE FUNCTION boruvka_deserialize(bytea, internal) RETURNS internal
AS 'MODULE_PATHNAME' LANGUAGE C STRICT PARALLEL SAFE;

CREATE FUNCTION boruvka_ids(internal) RETURNS bigint[]
AS 'MODULE_PATHNAME' LANGUAGE C PARALLEL SAFE;

CREATE AGGREGATE boruvka_forest(id bigint, source bigint, target bigint, cost double precision) (
    SFUNC = boruvka_add, STYPE = internal, FINALFUNC = boruvka_ids, COMBINEFUNC = boruvka_combine,
    SERIALFUNC = boruvka_serialize, DESERIALFUNC = boruvka_deserialize, PARALLEL = SAFE
);

CREATE AGGREGATE boruvka_forest(id bigint, source bigint, target bigint, cost bigint) (
    SFUNC = boruvka_add, STYPE = internal, FINALFUNC = boruvka_ids, COMBINEFUNC = boruvka_combine,
    SERIALFUNC = boruvka_serialize, DESERIALFUNC = boruvka_deserialize, PARALLEL = SAFE
);

CREATE AGGREGATE boruvka_forest(id bigint, source bigint, target bigint, cost numeric) (
    SFUNC = boruvka_add, STYPE = internal, FINALFUNC = boruvka_ids, COMBINEFUNC = boruvka_combine,
    SERIALFUNC = boruvka_serialize, DESERIALFUNC = boruvka_deserialize, PARALLEL = SAFE
);

COMMENT ON AGGREGATE boruvka_forest(bigint, bigint, bigint, double precision)
IS 'ids of the edges in the minimum spanning forest, lightest first; duplicate ids of other edges are not reported';
COMMENT ON AGGREGATE boruvka_forest(bigint, bigint, bigint, bigint)
IS 'ids of the edges in the minimum spanning forest, lightest first; duplicate ids of other edges are not reported';
COMMENT ON AGGREGATE boruvka_forest(bigint, bigint, bigint, numeric)
IS 'ids of the edges in the minimum spanning forest, lightest first; duplicate ids of other edges are not reported';
