/* SPDX-License-Identifier: MIT OR Apache-2.0 */
/* clusters.c: the forest, its components, and the clusters that its edges join (single linkage). */
#include "graph.h"

#include <math.h>

PG_FUNCTION_INFO_V1(boruvka_kruskal);
Datum boruvka_kruskal(PG_FUNCTION_ARGS) {
    const Graph *graph = forest_of_query(fcinfo);

    for (size_t i = 0; i < graph->n_edges; i++)
        put_row(fcinfo, (Datum[]) {Int64GetDatum(graph->edges[i].id), Float8GetDatum(cost_of(graph, &graph->edges[i]))});
    return (Datum) 0;
}

/* Put (seq, name, vertex) for each vertex after these edges of the forest have joined components. Members are sorted as edges
 * are: by the component's name, then by the vertex. */
static Datum put_members(FunctionCallInfo fcinfo, const Graph *graph, size_t n_edges) {
    uint32 *parents = components_create(graph), kept, joined;
    Edge *members = allocate(graph->n_vertices, sizeof(Edge));

    for (size_t i = 0; more(i, n_edges); i++) join_components(parents, &graph->edges[i], graph->ids, &kept, &joined);
    for (uint32 i = 0; more(i, graph->n_vertices); i++)
        members[i] = (Edge) {0, graph->ids[find_component(parents, i)], i, i};
    sort_edges(members, graph->n_vertices, graph->ids);
    for (uint32 i = 0; i < graph->n_vertices; i++)
        put_row(fcinfo, (Datum[]) {Int64GetDatum((int64) i + 1), Int64GetDatum(members[i].key),
                                   Int64GetDatum(graph->ids[members[i].low])});
    return (Datum) 0;
}

PG_FUNCTION_INFO_V1(boruvka_components);
Datum boruvka_components(PG_FUNCTION_ARGS) {
    const Graph *graph = forest_of_query(fcinfo);

    return put_members(fcinfo, graph, graph->n_edges);
}

/* How many edges of the forest cost at most this height. */
static size_t edges_up_to(const Graph *graph, double height) {
    size_t count = 0;

    if (isnan(height))
        ereport(ERROR, errcode(ERRCODE_INVALID_PARAMETER_VALUE), errmsg("height is NaN"),
                errhint("Pass the highest cost of an edge that joins two clusters."));
    while (more(count, graph->n_edges) && cost_of(graph, &graph->edges[count]) <= height) count++;
    return count;
}

/* How many edges of the forest leave this number of clusters. */
static size_t edges_down_to(const Graph *graph, int64 clusters) {
    int64 least = (int64) graph->n_vertices - (int64) graph->n_edges;

    if (clusters < least || clusters > graph->n_vertices)
        ereport(ERROR, errcode(ERRCODE_INVALID_PARAMETER_VALUE),
                errmsg("%u vertices cannot form " INT64_FORMAT " clusters", graph->n_vertices, clusters),
                errhint("Pass a number from " INT64_FORMAT " to %u.", least, graph->n_vertices));
    return (size_t) (graph->n_vertices - clusters);
}

PG_FUNCTION_INFO_V1(boruvka_clusters);
Datum boruvka_clusters(PG_FUNCTION_ARGS) {
    const Graph *graph;

    if (PG_ARGISNULL(1) == PG_ARGISNULL(2))
        ereport(ERROR, errcode(ERRCODE_INVALID_PARAMETER_VALUE), errmsg("boruvka_clusters needs either height or clusters"),
                errhint("Pass one of them, for example height => 100 or clusters => 3."));
    graph = forest_of_query(fcinfo);
    return put_members(fcinfo, graph, PG_ARGISNULL(2) ? edges_up_to(graph, PG_GETARG_FLOAT8(1))
                                                      : edges_down_to(graph, PG_GETARG_INT64(2)));
}

/* Puts (seq, cluster, joined, edge, height, size) for each edge of the forest. */
PG_FUNCTION_INFO_V1(boruvka_linkage);
Datum boruvka_linkage(PG_FUNCTION_ARGS) {
    const Graph *graph = forest_of_query(fcinfo);
    uint32 *parents = components_create(graph), kept, joined;
    int64 *sizes = allocate(graph->n_vertices, sizeof(int64));

    for (uint32 i = 0; more(i, graph->n_vertices); i++) sizes[i] = 1;
    for (size_t i = 0; i < graph->n_edges; i++) {
        const Edge *edge = &graph->edges[i];

        join_components(parents, edge, graph->ids, &kept, &joined);
        sizes[kept] += sizes[joined];
        put_row(fcinfo, (Datum[]) {Int64GetDatum((int64) i + 1), Int64GetDatum(graph->ids[kept]),
                                   Int64GetDatum(graph->ids[joined]), Int64GetDatum(edge->id),
                                   Float8GetDatum(cost_of(graph, edge)), Int64GetDatum(sizes[kept])});
    }
    return (Datum) 0;
}
