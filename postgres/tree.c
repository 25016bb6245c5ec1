/* SPDX-License-Identifier: MIT OR Apache-2.0 */
/* tree.c: the trees of the forest from given roots, breadth first, and lighter edges first. */
#include "graph.h"

#include "utils/array.h"

typedef struct Visit {
    uint32 vertex, depth;
    const Edge *edge; /* the one that leads here */
    double sum;       /* of the costs from the root on */
} Visit;

/* The edges of vertex v are those of edges[first[v]] up to edges[first[v + 1] - 1]. */
typedef struct Walk {
    const Graph *graph;
    uint32 *first, *edges;
    Visit *queue;
    int64 max_depth, seq;
} Walk;

/* A vertex's count of edges starts two places further on. The sums of counts are one place further on, and each reaches its
 * own place when the vertex's edges are put in. */
static Walk walk_create(const Graph *graph, int64 max_depth) {
    Walk walk = {graph, allocate((size_t) graph->n_vertices + 1, sizeof(uint32)), allocate(2 * graph->n_edges, sizeof(uint32)),
                 allocate(graph->n_vertices, sizeof(Visit)), max_depth, 0};

    for (size_t i = 0; more(i, graph->n_edges); i++) {
        walk.first[graph->edges[i].low + 2]++;
        walk.first[graph->edges[i].high + 2]++;
    }
    for (uint32 i = 0; more(i, graph->n_vertices); i++) walk.first[i + 2] += walk.first[i + 1];
    for (size_t i = 0; more(i, graph->n_edges); i++) {
        walk.edges[walk.first[graph->edges[i].low + 1]++] = (uint32) i;
        walk.edges[walk.first[graph->edges[i].high + 1]++] = (uint32) i;
    }
    return walk;
}

/* Put (seq, depth, start_vid, node, edge, cost, agg_cost) for each vertex of a tree. */
static void put_tree(FunctionCallInfo fcinfo, Walk *walk, uint32 root) {
    static const Edge none = {.id = -1};
    const Graph *graph = walk->graph;
    uint32 end = 1;

    walk->queue[0] = (Visit) {root, 0, &none, 0};
    for (uint32 at = 0; at < end; at++) {
        Visit here = walk->queue[at];

        put_row(fcinfo, (Datum[]) {Int64GetDatum(++walk->seq), Int64GetDatum(here.depth), Int64GetDatum(graph->ids[root]),
                                   Int64GetDatum(graph->ids[here.vertex]), Int64GetDatum(here.edge->id),
                                   Float8GetDatum(cost_of(graph, here.edge)), Float8GetDatum(here.sum)});
        for (uint32 i = walk->first[here.vertex]; here.depth < walk->max_depth && i < walk->first[here.vertex + 1]; i++) {
            const Edge *edge = &graph->edges[walk->edges[i]];
            uint32 vertex = edge->low == here.vertex ? edge->high : edge->low;

            if (edge != here.edge)
                walk->queue[end++] = (Visit) {vertex, here.depth + 1, edge, here.sum + cost_of(graph, edge)};
        }
    }
}

PG_FUNCTION_INFO_V1(boruvka_tree);
Datum boruvka_tree(PG_FUNCTION_ARGS) {
    ArrayType *roots = PG_ARGISNULL(1) ? NULL : PG_GETARG_ARRAYTYPE_P(1);
    Walk walk;
    bool *seen;

    if (roots == NULL || array_contains_nulls(roots) || PG_ARGISNULL(2) || PG_GETARG_INT64(2) < 0)
        ereport(ERROR, errcode(ERRCODE_INVALID_PARAMETER_VALUE), errmsg("a root or max_depth is NULL, or max_depth is negative"),
                errhint("Pass the ids of vertices. Omit max_depth for whole trees."));
    walk = walk_create(forest_of_query(fcinfo), PG_GETARG_INT64(2));
    seen = allocate(walk.graph->n_vertices, sizeof(bool));
    for (int i = 0; i < ArrayGetNItems(ARR_NDIM(roots), ARR_DIMS(roots)); i++) {
        int64 id = ((int64 *) ARR_DATA_PTR(roots))[i];
        uint32 root = graph_find_vertex(walk.graph, id);

        if (root == NO_VERTEX)
            ereport(ERROR, errcode(ERRCODE_INVALID_PARAMETER_VALUE), errmsg("the root " INT64_FORMAT " is in no edge", id),
                    errhint("Pass the id of a vertex, or for all trees the components of boruvka_components."));
        if (!seen[root]) put_tree(fcinfo, &walk, root);
        seen[root] = true;
    }
    return (Datum) 0;
}
