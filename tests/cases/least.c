/* Finds the least memory that a call needs, and compares it with what the call allocates by malloc. For a graph it prints a line
 *
 *     SHAPE N M  LEAST PEAK  LEAST PEAK  LEAST PEAK  LEAST PEAK  LEAST PEAK
 *
 * for these calls, in this order: the forest of links, the forest of their text, the merges of the forest, the indices of the
 * forest in columns, and the labels of the forest. LEAST is the least memory, in bytes of whole pages, in which the call of
 * libboruvka_within.a succeeds. PEAK is the most memory that the call of libboruvka.a had at once from malloc and realloc. Both
 * calls have to give the same result, and LEAST may not exceed what include/boruvka.h calls enough.
 *
 *     least SHAPE N M    SHAPE is grid (M is ignored), drawn, star, path, ring, pair, after, or late (N is above 300)
 *
 * What a call needs, since blocks are placed one below the other and only the last one can be freed:
 * - 16 bytes per link for the list. The list of a text doubles in place, so it has up to 32.
 * - 12 bytes and 1 byte for each link that a part looks at. No two parts look at the same link, so that is 13 per link.
 * - 4 bytes per vertex for the numbers of the first part, for those of a later part, and for those of its second round.
 * - 4096 bytes temporarily, 64 more, and less than a page at the end.
 * - For a text, after the second and third numbers are freed, the text of the forest, up to twice its length.
 * An arc line has at least 8 bytes, so 45 bytes per link are less than 6 times the length of a text; the lines of a large forest
 * are longer. `late` needs all of this for a list: the first part has nearly all links, between two vertices, and the second
 * part needs two rounds. `pair` needs it for a text: two short lines by turns, slightly more of them than a power of two.
 *
 * Merges need blocks that stay until the end: 16 bytes per link for the list, 4 and 8 per vertex for parents and roots, and 12
 * for each link or for each vertex, whichever are fewer.
 *
 * Indices need 24 bytes for each link of the forest and one byte per vertex after the forest is found. The blocks of the list
 * are still there then, except the numbers of later parts: 4 bytes per vertex are those of the first part. `after` needs all of
 * this: its first part has links between two vertices, and its second part joins all others.
 *
 * Labels need 29 bytes per link and 4 per vertex as a list does, then 4 for each component and 4 per vertex for the labels. A
 * forest has one component for each vertex that it has more than links, so that is 25 bytes per link and 12 per vertex. Links
 * that contain a cycle need 29 per link until it is found.
 *
 * A_LINK, A_VERTEX, A_BYTE, PLACED_LINK, PLACED_VERTEX, MERGED_LINK, MERGED_VERTEX and MORE are the figures of
 * include/boruvka.h. The program is linked with --wrap=malloc, --wrap=realloc and --wrap=free. */
#include <boruvka.h>
#include <inttypes.h>
#include <stdio.h>
#include <stdlib.h>
#include <string.h>

#define CHECK(holds) ((holds) ? (void)0 : wrong(#holds, __LINE__))

enum { PAGE = 4096, HEAD = 16 };

void *__real_malloc(size_t size);
void *__real_realloc(void *block, size_t size);
void __real_free(void *block);

static size_t live, peak;

static void wrong(const char *what, int line) {
    fprintf(stderr, "least.c, line %d: not so: %s\n", line, what);
    exit(1);
}

/* The size of each block is stored before it. */
static void *counted(unsigned char *block, size_t size) {
    if (block == 0) {
        return 0;
    }
    memcpy(block, &size, sizeof size);
    live += size;
    peak = peak < live ? live : peak;
    return block + HEAD;
}

static size_t size_of(const void *block) {
    size_t size;
    memcpy(&size, (const unsigned char *)block - HEAD, sizeof size);
    return size;
}

void *__wrap_malloc(size_t size) {
    return counted(__real_malloc(HEAD + size), size);
}

void __wrap_free(void *block) {
    if (block != 0) {
        live -= size_of(block);
        __real_free((unsigned char *)block - HEAD);
    }
}

/* A growing block counts only what it grows by, as if it grew in place. */
void *__wrap_realloc(void *block, size_t size) {
    if (block == 0) {
        return __wrap_malloc(size);
    }
    const size_t before = size_of(block);
    unsigned char *made = __real_realloc((unsigned char *)block - HEAD, HEAD + size);
    if (made == 0) {
        return 0;
    }
    live -= before;
    return counted(made, size);
}

/* With a forest of `count` links. */
struct graph {
    uint32_t n;
    size_t m, length, count;
    struct boruvka_link *links, *forest;
    char *text;
    /* the links in columns */
    uint32_t *low, *high;
    int64_t *weight;
};

static void *block_of(size_t size) {
    void *block = aligned_alloc(16, (size + 16) / 16 * 16);
    CHECK(block != 0);
    return block;
}

/* (none of these blocks is counted) */
static void give_back(void *block) {
    __real_free(block);
}

static uint64_t drawn(uint64_t *seed) {
    *seed ^= *seed << 13;
    *seed ^= *seed >> 7;
    *seed ^= *seed << 17;
    return *seed;
}

static void put_grid(struct graph *graph, uint64_t *seed) {
    uint32_t side = 1;
    while ((side + 1) * (side + 1) <= graph->n) {
        side++;
    }
    graph->n = side * side;
    graph->m = 0;
    for (uint32_t v = 1; v <= graph->n; v++) {
        if (v % side) {
            graph->links[graph->m++] = (struct boruvka_link){(int64_t)(drawn(seed) % 1000), v, v + 1};
        }
        if (v + side <= graph->n) {
            graph->links[graph->m++] = (struct boruvka_link){(int64_t)(drawn(seed) % 1000), v, v + side};
        }
    }
}

/* The solver samples every so many links to choose the weight up to which links are light. All others are lighter than these. */
static void put_late(struct graph *graph) {
    const size_t step = graph->m / 256 + 1, last = (graph->n / step + 1) * step;
    uint32_t at = 2;
    for (size_t i = 0; i < graph->m; i++) {
        struct boruvka_link link = {(int64_t)i, 1, 2};
        if (i % step == 0) {
            link.weight += (int64_t)graph->m;
        }
        if (i % step == 0 && i >= last) {
            at++;
            link = (struct boruvka_link){link.weight + (int64_t)(at % 2 * graph->m), at, at + 1};
        }
        graph->links[i] = link;
    }
}

static void put(struct graph *graph, const char *shape) {
    uint64_t seed = 1;
    if (!strcmp(shape, "grid")) {
        put_grid(graph, &seed);
        return;
    }
    if (!strcmp(shape, "late")) {
        put_late(graph);
        return;
    }
    for (size_t i = 0; i < graph->m; i++) {
        const int64_t weight = (int64_t)(drawn(&seed) % 1000);
        const uint32_t at = (uint32_t)(i % (graph->n - 1)) + 1;
        const uint32_t low = (uint32_t)(drawn(&seed) % graph->n) + 1, high = (uint32_t)(drawn(&seed) % graph->n) + 1;
        struct boruvka_link link = {weight, low, high};
        if (!strcmp(shape, "star")) {
            link = (struct boruvka_link){weight, graph->n, at};
        } else if (!strcmp(shape, "path")) {
            link = (struct boruvka_link){weight, at, at + 1};
        } else if (!strcmp(shape, "ring")) {
            const uint32_t from = (uint32_t)(2 * i % graph->n);
            link = (struct boruvka_link){0, from + 1, (from + 1) % graph->n + 1};
        } else if (!strcmp(shape, "pair")) {
            link = (struct boruvka_link){0, 1, 2 + (uint32_t)i % 2};
        } else if (!strcmp(shape, "after")) {
            const uint32_t path = i + graph->n > graph->m ? (uint32_t)(i + graph->n - graph->m) : 0;
            link = path ? (struct boruvka_link){weight + (int64_t)graph->m, path, path + 1} : (struct boruvka_link){(int64_t)i, 1, 2};
        }
        graph->links[i] = link;
    }
}

static void put_columns(struct graph *graph) {
    graph->low = block_of(graph->m * sizeof *graph->low);
    graph->high = block_of(graph->m * sizeof *graph->high);
    graph->weight = block_of(graph->m * sizeof *graph->weight);
    for (size_t i = 0; i < graph->m; i++) {
        graph->low[i] = graph->links[i].low;
        graph->high[i] = graph->links[i].high;
        graph->weight[i] = graph->links[i].weight;
    }
}

static struct graph graph_of(const char *shape, uint32_t n, size_t m) {
    struct graph graph = {.n = n, .m = m, .links = block_of((m + 2 * (size_t)n) * sizeof *graph.links)};
    put(&graph, shape);
    graph.forest = block_of(graph.m * sizeof *graph.forest);
    memcpy(graph.forest, graph.links, graph.m * sizeof *graph.forest);
    const int64_t count = boruvka_forest(graph.n, graph.forest, graph.m);
    CHECK(count >= 0);
    graph.count = (size_t)count;
    put_columns(&graph);
    graph.text = block_of(64 + 45 * graph.m);
    graph.length = (size_t)sprintf(graph.text, "p sp %" PRIu32 " %zu\n", graph.n, graph.m);
    for (size_t i = 0; i < graph.m; i++) {
        const struct boruvka_link link = graph.links[i];
        graph.length += (size_t)sprintf(graph.text + graph.length, "a %" PRIu32 " %" PRIu32 " %" PRId64 "\n", link.low, link.high, link.weight);
    }
    return graph;
}

/* The result of a call in so many bytes, or with malloc if there is no block. The links or the text go to `out`. */
typedef int64_t result_of(const struct graph *graph, void *block, size_t size, void *out);

static int64_t of_links(const struct graph *graph, void *block, size_t size, void *out) {
    memcpy(out, graph->links, graph->m * sizeof *graph->links);
    return block == 0 ? boruvka_forest(graph->n, out, graph->m)
                      : boruvka_forest_within((struct boruvka_memory){block, size}, graph->n, out, graph->m);
}

static int64_t of_text(const struct graph *graph, void *block, size_t size, void *out) {
    struct boruvka_fault fault;
    const size_t room = graph->length + 64;
    const uint8_t *text = (const uint8_t *)graph->text;
    memset(out, 0, room);
    return block == 0 ? boruvka_forest_text(text, graph->length, out, room, &fault)
                      : boruvka_forest_text_within((struct boruvka_memory){block, size}, text, graph->length, out, room, &fault);
}

static int64_t of_merges(const struct graph *graph, void *block, size_t size, void *out) {
    memset(out, 0, graph->count * sizeof(struct boruvka_merge));
    return block == 0 ? boruvka_merges(graph->n, graph->forest, graph->count, out)
                      : boruvka_merges_within((struct boruvka_memory){block, size}, graph->n, graph->forest, graph->count, out, graph->count);
}

static int64_t of_places(const struct graph *graph, void *block, size_t size, void *out) {
    const size_t m = graph->m;
    memset(out, 0, graph->count * sizeof(uint32_t));
    return block == 0 ? boruvka_places_in(graph->n, 1, graph->low, m, graph->high, m, graph->weight, m, out, graph->count)
                      : boruvka_places_within((struct boruvka_memory){block, size}, graph->n, 1, graph->low, m, graph->high, m,
                                              graph->weight, m, out, graph->count);
}

static int64_t of_labels(const struct graph *graph, void *block, size_t size, void *out) {
    memset(out, 0, graph->n * sizeof(uint32_t));
    return block == 0 ? boruvka_labels(graph->n, graph->forest, graph->count, out)
                      : boruvka_labels_within((struct boruvka_memory){block, size}, graph->forest, graph->count, out, graph->n);
}

static void tell(const struct graph *graph, result_of *answer, size_t out_size, size_t told) {
    unsigned char *out = block_of(out_size), *wanted = block_of(out_size);
    live = peak = 0;
    const int64_t count = answer(graph, 0, 0, wanted);
    CHECK(count >= 0 && live == 0);
    size_t short_of = 0, enough = told / PAGE + 1;
    unsigned char *block = block_of(enough * PAGE);
    while (enough - short_of > 1) {
        const size_t pages = (short_of + enough) / 2;
        const int64_t found = answer(graph, block, pages * PAGE, out);
        CHECK(found == count || found == BORUVKA_NO_MEMORY);
        if (found == count) {
            CHECK(!memcmp(out, wanted, out_size));
            enough = pages;
        } else {
            short_of = pages;
        }
    }
    CHECK(enough * PAGE <= told);
    printf("  %zu %zu", enough * PAGE, peak);
    give_back(block);
    give_back(out);
    give_back(wanted);
}

int main(int count, char **words) {
    CHECK(count == 4);
    struct graph graph = graph_of(words[1], (uint32_t)strtoul(words[2], 0, 10), strtoull(words[3], 0, 10));
    printf("%s %" PRIu32 " %zu", words[1], graph.n, graph.m);
    tell(&graph, of_links, graph.m * sizeof *graph.links, A_LINK * graph.m + A_VERTEX * (size_t)graph.n + MORE);
    tell(&graph, of_text, graph.length + 64, A_BYTE * graph.length + A_VERTEX * (size_t)graph.n + MORE);
    tell(&graph, of_merges, graph.count * sizeof(struct boruvka_merge), MERGED_LINK * graph.count + MERGED_VERTEX * (size_t)graph.n + MORE);
    tell(&graph, of_places, graph.count * sizeof(uint32_t), PLACED_LINK * graph.m + PLACED_VERTEX * (size_t)graph.n + MORE);
    tell(&graph, of_labels, graph.n * sizeof(uint32_t), A_LINK * graph.count + A_VERTEX * (size_t)graph.n + MORE);
    printf("\n");
    give_back(graph.links);
    give_back(graph.low);
    give_back(graph.high);
    give_back(graph.weight);
    give_back(graph.forest);
    give_back(graph.text);
    return 0;
}
