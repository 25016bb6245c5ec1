/* SPDX-License-Identifier: MIT OR Apache-2.0 */
/* cost.c: costs as whole numbers in the same order. */
#include "graph.h"

#include <math.h>

#include "catalog/pg_type.h"
#include "utils/builtins.h"

const char *const column_names[] = {"id", "source", "target", "cost"};

void reject_null(int column, int64 id) {
    ereport(ERROR, errcode(ERRCODE_NULL_VALUE_NOT_ALLOWED),
            column == ID ? errmsg("the id of an edge is NULL")
                         : errmsg("the %s of edge " INT64_FORMAT " is NULL", column_names[column], id),
            errhint("Leave such edges out by WHERE %s IS NOT NULL.", column_names[column]));
}

static int64 key_of_float(double cost, int64 id) {
    int64 key = boruvka_key(cost);

    if (key == BORUVKA_NAN)
        ereport(ERROR, errcode(ERRCODE_INVALID_PARAMETER_VALUE),
                errmsg("edge " INT64_FORMAT " has the cost NaN, which cannot be ordered", id),
                errhint("Leave such edges out, or give them the cost 'Infinity', which comes last."));
    return key;
}

/* A numeric has the key of its nearest double, if that has the same 15 digits. Two such numerics never share a double, so
 * rounding keeps their order. */
static int64 key_of_numeric(Datum cost, int64 id) {
    Datum nearest = DirectFunctionCall1(numeric_float8_no_overflow, cost);

    if (!isnan(DatumGetFloat8(nearest)) &&
        !DatumGetBool(DirectFunctionCall2(numeric_eq, DirectFunctionCall1(float8_numeric, nearest), cost)))
        ereport(ERROR, errcode(ERRCODE_NUMERIC_VALUE_OUT_OF_RANGE),
                errmsg("edge " INT64_FORMAT " has the numeric cost %s, which is not a float8 of at most 15 digits", id,
                       DatumGetCString(DirectFunctionCall1(numeric_out, cost))),
                errhint("Round it by cost::float8, or make it a whole number, for example by (cost * 1000)::bigint."));
    return key_of_float(DatumGetFloat8(nearest), id);
}

int64 key_of(Datum cost, Oid type, int64 id) {
    switch (type) {
        case INT2OID: return DatumGetInt16(cost);
        case INT4OID: return DatumGetInt32(cost);
        case INT8OID: return DatumGetInt64(cost);
        case FLOAT4OID: return key_of_float(DatumGetFloat4(cost), id);
        case FLOAT8OID: return key_of_float(DatumGetFloat8(cost), id);
        default: return key_of_numeric(cost, id);
    }
}

/* The cost of an edge. It is an error if no double is equal to it. */
double cost_of(const Graph *graph, const Edge *edge) {
    double cost = graph->has_whole_costs ? (double) edge->key : boruvka_weight(edge->key);

    if (graph->has_whole_costs && (cost == 0x1p63 || (int64) cost != edge->key))
        ereport(ERROR, errcode(ERRCODE_NUMERIC_VALUE_OUT_OF_RANGE),
                errmsg("edge " INT64_FORMAT " has the cost " INT64_FORMAT ", which float8 would round", edge->id, edge->key),
                errhint("Use the aggregate boruvka_forest, which returns only ids."));
    return cost;
}
