/* SPDX-License-Identifier: MIT OR Apache-2.0 */
/* graph.c: vertices, edges, and their minimum spanning forest.
 *
 * Edges are ordered by cost, then by the lower and by the higher id of their endpoints, then by their own id. No two
 * different edges are equal in this order, so the forest depends only on the set of edges.
 *
 * The library's forest of a batch of edges is proved. Everything else in this folder is only tested. */
#include "graph.h"

#include "common/pg_prng.h"
#include "utils/memutils.h"

static inline int compare_edges(const Edge *a, const Edge *b, const int64 *ids) {
    if (a->key != b->key) return a->key < b->key ? -1 : 1;
    if (a->low != b->low) return ids[a->low] < ids[b->low] ? -1 : 1;
    if (a->high != b->high) return ids[a->high] < ids[b->high] ? -1 : 1;
    return (a->id > b->id) - (a->id < b->id);
}

#define ST_SORT sort_edges
#define ST_ELEMENT_TYPE Edge
#define ST_COMPARE(a, b, ids) compare_edges(a, b, ids)
#define ST_COMPARE_ARG_TYPE const int64
#define ST_SCOPE
#define ST_DEFINE
#define ST_CHECK_FOR_INTERRUPTS
#include "lib/sort_template.h"

/* Zeroed memory for one element more than `count`, which may be 0. */
void *allocate(size_t count, size_t size) {
    return MemoryContextAllocExtended(CurrentMemoryContext, (count + 1) * size, MCXT_ALLOC_HUGE | MCXT_ALLOC_ZERO);
}

Graph *graph_create(MemoryContext context) {
    Graph *graph = MemoryContextAllocZero(context, sizeof(Graph));

    graph->context = context;
    graph->seed = pg_prng_uint64(&pg_global_prng_state);
    graph->n_slots = graph->max_edges = 32;
    graph->slots = MemoryContextAllocZero(context, graph->n_slots * sizeof(uint32));
    graph->ids = MemoryContextAlloc(context, graph->n_slots / 2 * sizeof(int64));
    graph->edges = MemoryContextAlloc(context, graph->max_edges * sizeof(Edge));
    return graph;
}

/* The slot of a vertex, or the empty one that it would get. Four consecutive ids share a cache line. */
static uint32 *find_slot(const Graph *graph, int64 vertex) {
    uint64 hash = (uint64) vertex >> 2 ^ graph->seed;
    uint32 mask = graph->n_slots - 1, at;

    hash = (hash ^ (hash >> 33)) * UINT64CONST(0xff51afd7ed558ccd);
    hash = (hash ^ (hash >> 33)) * UINT64CONST(0xc4ceb9fe1a85ec53);
    at = ((uint32) (hash >> 32) << 2 | ((uint32) vertex & 3)) & mask;
    while (graph->slots[at] != 0 && graph->ids[graph->slots[at] - 1] != vertex) at = (at + 1) & mask;
    return &graph->slots[at];
}

/* The index of a vertex, or NO_VERTEX, which is 0 - 1. */
uint32 graph_find_vertex(const Graph *graph, int64 vertex) { return *find_slot(graph, vertex) - 1; }

/* Double the number of vertices that have room, and return the slot of a new vertex. */
static uint32 *double_vertices(Graph *graph, int64 vertex) {
    size_t size = 2 * sizeof(uint32) * graph->n_slots;

    graph->ids = repalloc_huge(graph->ids, graph->n_slots * sizeof(int64));
    pfree(graph->slots);
    graph->slots = MemoryContextAllocExtended(graph->context, size, MCXT_ALLOC_HUGE | MCXT_ALLOC_ZERO);
    graph->n_slots *= 2;
    for (uint32 i = 0; more(i, graph->n_vertices); i++) *find_slot(graph, graph->ids[i]) = i + 1;
    return find_slot(graph, vertex);
}

/* Add a vertex unless it is there, and return its index. The id of its edge is for the error. */
uint32 graph_add_vertex(Graph *graph, int64 vertex, int64 edge) {
    uint32 *slot = find_slot(graph, vertex);

    if (*slot != 0) return *slot - 1;
    if (graph->n_vertices == MAX_VERTICES)
        ereport(ERROR, errcode(ERRCODE_PROGRAM_LIMIT_EXCEEDED),
                errmsg("edge " INT64_FORMAT " exceeds the limit of %d vertices", edge, MAX_VERTICES),
                errhint("Pass fewer edges in one call, for example those of one region."));
    if (graph->n_vertices == graph->n_slots / 2) slot = double_vertices(graph, vertex);
    graph->ids[graph->n_vertices++] = vertex;
    return (*slot = graph->n_vertices) - 1;
}

/* A loop only adds its vertex. A full buffer keeps only its forest, and grows if more than half of it is still full. */
void graph_add_edge(Graph *graph, int64 id, int64 source, int64 target, int64 key) {
    uint32 low = graph_add_vertex(graph, Min(source, target), id), high = graph_add_vertex(graph, Max(source, target), id);

    if (low == high) return;
    if (graph->n_edges == graph->max_edges) {
        if (graph->n_edges >= BATCH_EDGES) graph_keep_forest(graph);
        if (graph->n_edges > graph->max_edges / 2)
            graph->edges = repalloc_huge(graph->edges, (graph->max_edges *= 2) * sizeof(Edge));
    }
    graph->edges[graph->n_edges++] = (Edge) {id, key, low, high};
}

/* Sort the new edges, and merge them with the forest. */
static void merge_forest(Graph *graph) {
    Edge *edges = graph->edges, *old = allocate(graph->n_forest, sizeof(Edge));
    size_t next = graph->n_forest;

    sort_edges(edges + next, graph->n_edges - next, graph->ids);
    for (size_t i = 0; more(i, graph->n_forest); i++) old[i] = edges[i];
    for (size_t i = 0, at = 0; more(at, SIZE_MAX) && i < graph->n_forest; at++)
        edges[at] = next < graph->n_edges && compare_edges(&edges[next], &old[i], graph->ids) < 0 ? edges[next++] : old[i++];
    pfree(old);
}

/* A union-find structure, in which each vertex is a component of its own. A root is its own parent. */
uint32 *components_create(const Graph *graph) {
    uint32 *parents = allocate(graph->n_vertices, sizeof(uint32));

    for (uint32 i = 0; more(i, graph->n_vertices); i++) parents[i] = i;
    return parents;
}

/* The root of a vertex's component. The path to it gets shorter. */
uint32 find_component(uint32 *parents, uint32 vertex) {
    while (parents[vertex] != vertex) vertex = parents[vertex] = parents[parents[vertex]];
    return vertex;
}

/* Join the components of an edge's endpoints. The root that stays is the vertex with the least id. */
void join_components(uint32 *parents, const Edge *edge, const int64 *ids, uint32 *kept, uint32 *joined) {
    uint32 a = find_component(parents, edge->low), b = find_component(parents, edge->high);

    *kept = ids[a] < ids[b] ? a : b;
    *joined = ids[a] < ids[b] ? b : a;
    parents[*joined] = *kept;
}

/* Edges between components. For the library, the vertices are these components, and an edge's weight is its index. */
typedef struct Batch {
    uint32 *parents;            /* which vertices have the same component */
    uint32 *components;         /* in this batch */
    uint32 *numbers;            /* components[numbers[c]] is c if the component c is in this batch */
    uint32 *labels;             /* what the library returns for them */
    uint32 count;               /* of components */
    struct boruvka_link *links;
} Batch;

static Batch batch_create(const Graph *graph) {
    size_t most = Min(graph->n_edges, BATCH_EDGES), most_components = Min(graph->n_vertices, 2 * most);

    return (Batch) {.parents = components_create(graph),
                    .components = allocate(most_components, sizeof(uint32)),
                    .numbers = allocate(graph->n_vertices, sizeof(uint32)),
                    .labels = allocate(most_components, sizeof(uint32)),
                    .links = allocate(most, sizeof(struct boruvka_link))};
}

/* The number of a component in a batch, from 1 on. */
static uint32 number_of(Batch *batch, uint32 component) {
    uint32 number = batch->numbers[component];

    if (number >= batch->count || batch->components[number] != component) {
        number = batch->numbers[component] = batch->count++;
        batch->components[number] = component;
    }
    return number + 1;
}

/* What the library returned, unless it is an error. The library does not allocate the server's memory. */
static uint32 checked(int64 answer) {
    if (answer == BORUVKA_NO_MEMORY)
        ereport(ERROR, errcode(ERRCODE_OUT_OF_MEMORY), errmsg("out of memory"),
                errdetail("The library failed to allocate memory for a batch of edges."),
                errhint("Run fewer queries at the same time."));
    if (answer < 0) elog(ERROR, "the library returned " INT64_FORMAT, answer);
    return (uint32) answer;
}

/* Keep only the edges of the forest, in their order. Each batch has the next edges that connect different components. */
void graph_keep_forest(Graph *graph) {
    MemoryContext scratch, caller;
    Edge *edges = graph->edges;
    size_t kept = 0;
    Batch batch;

    if (graph->n_forest == graph->n_edges) return;
    merge_forest(graph);
    scratch = AllocSetContextCreate(CurrentMemoryContext, "boruvka batches", ALLOCSET_SMALL_SIZES);
    caller = MemoryContextSwitchTo(scratch);
    batch = batch_create(graph);
    for (size_t next = 0; next < graph->n_edges;) {
        uint32 count = 0, left;

        batch.count = 0;
        for (; count < BATCH_EDGES && more(next, graph->n_edges); next++) {
            uint32 a = find_component(batch.parents, edges[next].low), b = find_component(batch.parents, edges[next].high);

            if (a != b) batch.links[count++] = (struct boruvka_link) {(int64) next, number_of(&batch, a), number_of(&batch, b)};
        }
        left = checked(boruvka_forest(batch.count, batch.links, count));
        for (uint32 i = 0; i < left; i++) edges[kept++] = edges[batch.links[i].weight];
        if (next == graph->n_edges) break;
        checked(boruvka_labels(batch.count, batch.links, left, batch.labels));
        for (uint32 i = 0; i < batch.count; i++) batch.parents[batch.components[i]] = batch.components[batch.labels[i] - 1];
    }
    graph->n_edges = graph->n_forest = kept;
    MemoryContextSwitchTo(caller);
    MemoryContextDelete(scratch);
}
