/* SPDX-License-Identifier: MIT OR Apache-2.0 */
/* graph.h: a buffer of edges that is reduced to their minimum spanning forest when it is full. */
#ifndef BORUVKA_GRAPH_H
#define BORUVKA_GRAPH_H

#include "postgres.h"

#include <boruvka.h>

#include "fmgr.h"
#include "miscadmin.h"

/* The most edges in one call of the library, which takes about 10 ms and can't be canceled. Tests set lower limits. */
#ifndef BATCH_EDGES
#define BATCH_EDGES 65536
#endif
#ifndef MAX_VERTICES
#define MAX_VERTICES BORUVKA_MAX_VERTICES
#endif

#define NO_VERTEX PG_UINT32_MAX

/* The columns of an edge, in the order of the aggregate's arguments. */
enum { ID, SOURCE, TARGET, COST, N_COLUMNS };
extern const char *const column_names[];

typedef struct Edge {
    int64 id, key;    /* keys have the order of costs */
    uint32 low, high; /* the endpoints, the lower id first, as indices into Graph.ids */
} Edge;

typedef struct Graph {
    MemoryContext context; /* the arrays are in it */
    int64 *ids;            /* of the vertices */
    uint32 *slots;         /* a hash table: 0, or 1 + an index into ids */
    uint64 seed;           /* of its hash function */
    uint32 n_slots;        /* a power of 2; ids has room for half as many */
    uint32 n_vertices;
    Edge *edges;
    size_t n_edges, max_edges;
    size_t n_forest;       /* the first n_forest edges are a forest, in ascending order */
    bool has_whole_costs;  /* if so, a key is the cost */
} Graph;

/* Return whether i < count, for the head of a loop. A query that was canceled ends here. */
static inline bool more(size_t i, size_t count) {
    if (i % 65536 == 0) CHECK_FOR_INTERRUPTS();
    return i < count;
}

/* graph.c */
extern void *allocate(size_t count, size_t size);
extern Graph *graph_create(MemoryContext context);
extern uint32 graph_find_vertex(const Graph *graph, int64 vertex);
extern uint32 graph_add_vertex(Graph *graph, int64 vertex, int64 edge);
extern void graph_add_edge(Graph *graph, int64 id, int64 source, int64 target, int64 key);
extern void sort_edges(Edge *edges, size_t count, const int64 *ids);
extern void graph_keep_forest(Graph *graph);
extern uint32 *components_create(const Graph *graph);
extern uint32 find_component(uint32 *parents, uint32 vertex);
extern void join_components(uint32 *parents, const Edge *edge, const int64 *ids, uint32 *kept, uint32 *joined);

/* cost.c */
extern int64 key_of(Datum cost, Oid type, int64 id);
extern double cost_of(const Graph *graph, const Edge *edge);
extern void reject_null(int column, int64 id) pg_attribute_noreturn();

/* query.c */
extern Graph *forest_of_query(FunctionCallInfo fcinfo);
extern void put_row(FunctionCallInfo fcinfo, Datum *row);

#endif
