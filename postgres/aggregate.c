/* SPDX-License-Identifier: MIT OR Apache-2.0 */
/* aggregate.c: boruvka_forest(id, source, target, cost), the ids of the edges in the forest, lightest first.
 *
 * The forest of the parts' forests is the forest of all edges. So a parallel worker sends only the forest of its edges. The
 * final function keeps the forest in the state, and more edges may follow, as over a window. */
#include "graph.h"

#include "catalog/pg_type.h"
#include "libpq/pqformat.h"
#include "utils/array.h"

PG_MODULE_MAGIC;
void _PG_init(void);

/* The library is compiled for x86-64-v2. On an older processor its first call would crash the server. */
void _PG_init(void) {
    if (!__builtin_cpu_supports("sse4.2") || !__builtin_cpu_supports("popcnt"))
        ereport(ERROR, errcode(ERRCODE_FEATURE_NOT_SUPPORTED), errmsg("boruvka needs a processor with SSE4.2 and POPCNT"),
                errhint("Run the server on a newer processor, or let its virtual machine expose these features."));
}

/* The state, which is new before the first edge. */
static Graph *state_of(FunctionCallInfo fcinfo) {
    MemoryContext context;

    if (!AggCheckCallContext(fcinfo, &context))
        elog(ERROR, "a support function of boruvka_forest was called outside of an aggregate");
    return PG_ARGISNULL(0) ? graph_create(context) : (Graph *) PG_GETARG_POINTER(0);
}

PG_FUNCTION_INFO_V1(boruvka_add);
Datum boruvka_add(PG_FUNCTION_ARGS) {
    Graph *graph = state_of(fcinfo);
    int64 id = PG_GETARG_INT64(1 + ID);

    for (int i = 0; i < N_COLUMNS; i++)
        if (PG_ARGISNULL(1 + i)) reject_null(i, id);
    graph_add_edge(graph, id, PG_GETARG_INT64(1 + SOURCE), PG_GETARG_INT64(1 + TARGET),
                   key_of(PG_GETARG_DATUM(1 + COST), get_fn_expr_argtype(fcinfo->flinfo, 1 + COST), id));
    PG_RETURN_POINTER(graph);
}

PG_FUNCTION_INFO_V1(boruvka_combine);
Datum boruvka_combine(PG_FUNCTION_ARGS) {
    Graph *graph = state_of(fcinfo);
    const Graph *other = PG_ARGISNULL(1) ? graph : (Graph *) PG_GETARG_POINTER(1);

    for (size_t i = 0; other != graph && more(i, other->n_edges); i++) {
        const Edge *edge = &other->edges[i];

        graph_add_edge(graph, edge->id, other->ids[edge->low], other->ids[edge->high], edge->key);
    }
    PG_RETURN_POINTER(graph);
}

PG_FUNCTION_INFO_V1(boruvka_serialize);
Datum boruvka_serialize(PG_FUNCTION_ARGS) {
    Graph *graph = state_of(fcinfo);
    StringInfoData sent;

    graph_keep_forest(graph);
    pq_begintypsend(&sent);
    for (size_t i = 0; more(i, graph->n_edges); i++) {
        const Edge *edge = &graph->edges[i];

        pq_sendint64(&sent, (uint64) edge->id);
        pq_sendint64(&sent, (uint64) graph->ids[edge->low]);
        pq_sendint64(&sent, (uint64) graph->ids[edge->high]);
        pq_sendint64(&sent, (uint64) edge->key);
    }
    PG_RETURN_BYTEA_P(pq_endtypsend(&sent));
}

PG_FUNCTION_INFO_V1(boruvka_deserialize);
Datum boruvka_deserialize(PG_FUNCTION_ARGS) {
    bytea *given = PG_GETARG_BYTEA_PP(0);
    StringInfoData sent = {VARDATA_ANY(given), (int) VARSIZE_ANY_EXHDR(given), (int) VARSIZE_ANY_EXHDR(given), 0};
    Graph *graph = graph_create(CurrentMemoryContext);

    for (size_t i = 0; more(i, (size_t) sent.len / (N_COLUMNS * sizeof(int64))); i++) {
        int64 id = pq_getmsgint64(&sent), low = pq_getmsgint64(&sent), high = pq_getmsgint64(&sent);

        graph_add_edge(graph, id, low, high, pq_getmsgint64(&sent));
    }
    PG_RETURN_POINTER(graph);
}

PG_FUNCTION_INFO_V1(boruvka_ids);
Datum boruvka_ids(PG_FUNCTION_ARGS) {
    Graph *graph = state_of(fcinfo), *seen = graph_create(CurrentMemoryContext);
    Datum *ids;

    graph_keep_forest(graph);
    ids = allocate(graph->n_edges, sizeof(Datum));
    for (size_t i = 0; more(i, graph->n_edges); i++) {
        int64 id = graph->edges[i].id;

        if (graph_add_vertex(seen, id, id) != i)
            ereport(ERROR, errcode(ERRCODE_UNIQUE_VIOLATION), errmsg("two edges of the forest have the id " INT64_FORMAT, id),
                    errhint("Give each edge its own id, for example by row_number()."));
        ids[i] = Int64GetDatum(id);
    }
    PG_RETURN_ARRAYTYPE_P(construct_array(ids, (int) graph->n_edges, INT8OID, sizeof(int64), FLOAT8PASSBYVAL, TYPALIGN_DOUBLE));
}
