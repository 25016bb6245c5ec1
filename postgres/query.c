/* SPDX-License-Identifier: MIT OR Apache-2.0 */
/* query.c: the forest of the edges that a query returns, in pgRouting's columns.
 *
 * The executor calls receive_edge for each row. The query's result is not stored. */
#include "graph.h"

#include "catalog/pg_operator.h"
#include "catalog/pg_type.h"
#include "executor/spi.h"
#include "funcapi.h"
#include "utils/builtins.h"
#include "utils/memutils.h"
#include "utils/tuplesort.h"

/* The ids of most tables are below this limit. A bitmap of them has 1 MB, and is much faster than a sort. */
#define SEEN_IDS (1 << 23)

typedef struct EdgeReceiver {
    DestReceiver pub;
    Graph *graph;
    uint8 *seen;         /* one bit for each id from 0 to SEEN_IDS - 1 */
    Tuplesortstate *ids; /* all other ids */
    MemoryContext row;   /* reset after each row */
    int columns[N_COLUMNS];
    Oid types[N_COLUMNS];
} EdgeReceiver;

enum { NONE = 0, SEVERAL = -1 };

static int find_column(TupleDesc shape, const char *name) {
    int found = NONE;

    for (int i = 0; i < shape->natts; i++)
        if (namestrcmp(&TupleDescAttr(shape, i)->attname, name) == 0)
            found = found == NONE ? i + 1 : SEVERAL;
    return found;
}

static bool is_whole(Oid type) { return type == INT2OID || type == INT4OID || type == INT8OID; }

static void start_edges(DestReceiver *self, int operation pg_attribute_unused(), TupleDesc shape) {
    EdgeReceiver *receiver = (EdgeReceiver *) self;

    for (int i = 0; i < N_COLUMNS; i++) {
        int column = receiver->columns[i] = find_column(shape, column_names[i]);
        Oid type = receiver->types[i] = column < 1 ? InvalidOid : TupleDescAttr(shape, column - 1)->atttypid;

        if (column < 1)
            ereport(ERROR, errcode(column == NONE ? ERRCODE_UNDEFINED_COLUMN : ERRCODE_AMBIGUOUS_COLUMN),
                    errmsg("edges_sql returns %s column \"%s\"", column == NONE ? "no" : "more than one", column_names[i]),
                    errhint("It has to return the columns id, source, target and cost, each once."));
        if (!is_whole(type) && (i != COST || (type != FLOAT4OID && type != FLOAT8OID && type != NUMERICOID)))
            ereport(ERROR, errcode(ERRCODE_DATATYPE_MISMATCH),
                    errmsg("the column \"%s\" has the type %s", column_names[i], format_type_be(type)),
                    errhint("Cast it: %s::%s.", column_names[i], i == COST ? "float8" : "bigint"));
    }
    receiver->graph->has_whole_costs = is_whole(receiver->types[COST]);
    if (find_column(shape, "reverse_cost") != NONE)
        ereport(ERROR, errcode(ERRCODE_INVALID_PARAMETER_VALUE),
                errmsg("edges_sql returns a column \"reverse_cost\", but the edges of a forest have no direction"),
                errhint("Return one cost, for example least(cost, reverse_cost) AS cost."));
}

static void reject_id(int64 id) {
    ereport(ERROR, errcode(ERRCODE_UNIQUE_VIOLATION), errmsg("two edges have the id " INT64_FORMAT, id),
            errhint("Give each edge its own id, for example by row_number(), or keep one edge per id by DISTINCT ON (id)."));
}

static void check_new(EdgeReceiver *receiver, int64 id) {
    if (id < 0 || id >= SEEN_IDS)
        tuplesort_putdatum(receiver->ids, Int64GetDatum(id), false);
    else if ((receiver->seen[id / 8] & 1 << id % 8) != 0)
        reject_id(id);
    else
        receiver->seen[id / 8] |= 1 << id % 8;
}

static bool receive_edge(TupleTableSlot *slot, DestReceiver *self) {
    EdgeReceiver *receiver = (EdgeReceiver *) self;
    MemoryContext caller = MemoryContextSwitchTo(receiver->row);
    int64 values[N_COLUMNS] = {0};

    for (int i = 0; i < N_COLUMNS; i++) {
        bool is_null;
        Datum value = slot_getattr(slot, receiver->columns[i], &is_null);

        if (is_null) reject_null(i, values[ID]);
        values[i] = key_of(value, receiver->types[i], values[ID]);
    }
    if (values[COST] < 0)
        ereport(ERROR, errcode(ERRCODE_INVALID_PARAMETER_VALUE), errmsg("edge " INT64_FORMAT " has a negative cost", values[ID]),
                errhint("pgRouting ignores such edges. To do the same, add WHERE cost >= 0. "
                        "The aggregate boruvka_forest accepts negative costs."));
    graph_add_edge(receiver->graph, values[ID], values[SOURCE], values[TARGET], values[COST]);
    check_new(receiver, values[ID]);
    MemoryContextSwitchTo(caller);
    MemoryContextReset(receiver->row);
    return true;
}

static void end_edges(DestReceiver *self pg_attribute_unused()) {}

static void check_others(Tuplesortstate *ids) {
    Datum id, last = 0;
    bool is_null;

    tuplesort_performsort(ids);
    for (size_t i = 0; more(i, SIZE_MAX) && tuplesort_getdatum(ids, true, &id, &is_null, NULL); i++, last = id)
        if (i > 0 && id == last) reject_id(DatumGetInt64(id));
    tuplesort_end(ids);
}

/* The forest of the edges that the first argument of a function, a query, returns. */
Graph *forest_of_query(FunctionCallInfo fcinfo) {
    EdgeReceiver receiver = {.pub = {receive_edge, start_edges, end_edges, end_edges, DestNone}};
    SPIExecuteOptions options = {.read_only = true, .dest = &receiver.pub};
    char *query = PG_ARGISNULL(0) ? "" : text_to_cstring(PG_GETARG_TEXT_PP(0));
    SPIPlanPtr plan;

    InitMaterializedSRF(fcinfo, 0);
    receiver.graph = graph_create(CurrentMemoryContext);
    SPI_connect();
    plan = SPI_prepare_cursor(query, 0, NULL, CURSOR_OPT_PARALLEL_OK);
    if (plan == NULL || !SPI_is_cursor_plan(plan))
        ereport(ERROR, errcode(ERRCODE_INVALID_PARAMETER_VALUE), errmsg("edges_sql is not a single query that returns rows"),
                errhint("Pass a query that returns the columns id, source, target and cost."));
    receiver.seen = palloc0(SEEN_IDS / 8);
    receiver.row = AllocSetContextCreate(CurrentMemoryContext, "boruvka row", ALLOCSET_SMALL_SIZES);
    receiver.ids = tuplesort_begin_datum(INT8OID, Int8LessOperator, InvalidOid, false, work_mem, NULL, TUPLESORT_NONE);
    SPI_execute_plan_extended(plan, &options);
    check_others(receiver.ids);
    SPI_finish();
    graph_keep_forest(receiver.graph);
    return receiver.graph;
}

/* Add a row without NULLs to the result of a function. */
void put_row(FunctionCallInfo fcinfo, Datum *row) {
    static bool is_null[8];
    ReturnSetInfo *result = (ReturnSetInfo *) fcinfo->resultinfo;

    CHECK_FOR_INTERRUPTS();
    tuplestore_putvalues(result->setResult, result->setDesc, row, is_null);
}
