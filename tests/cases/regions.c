/* A list that needs more than 64 MiB, in 64 MiB and in four times as much. Vertex v is linked to the next one with a weight of
 * its own below 2^32, and to the one after that with a greater weight. So the forest is the path, and the weight of a link
 * gives its lower endpoint. If a result is wrong, the program exits with status 1. */
#include <boruvka.h>
#include <stdio.h>
#include <stdlib.h>

#define CHECK(holds) ((holds) ? (void)0 : wrong(#holds, __LINE__))

enum { VERTICES = 2000000, LINKS = 2 * VERTICES - 3, MIB = 1 << 20 };

static void wrong(const char *what, int line) {
    fprintf(stderr, "regions.c, line %d: not so: %s\n", line, what);
    exit(1);
}

/* an odd factor maps different numbers to different numbers */
static int64_t weight_of(uint32_t v) { return v * UINT32_C(2654435761); }

static void fill(struct boruvka_link *links) {
    for (uint32_t v = 1; v < VERTICES; v++) {
        *links++ = (struct boruvka_link){weight_of(v), v, v + 1};
        if (v + 2 <= VERTICES) {
            *links++ = (struct boruvka_link){(INT64_C(1) << 32) + v, v + 2, v};
        }
    }
}

int main(void) {
    struct boruvka_link *links = malloc(LINKS * sizeof *links);
    void *block = aligned_alloc(16, (size_t)256 * MIB);
    CHECK(links && block);
    fill(links);
    CHECK(boruvka_forest_within((struct boruvka_memory){block, (size_t)64 * MIB}, VERTICES, links, LINKS) == BORUVKA_NO_MEMORY);
    CHECK(boruvka_forest_within((struct boruvka_memory){block, (size_t)256 * MIB}, VERTICES, links, LINKS) == VERTICES - 1);
    for (size_t i = 0; i < VERTICES - 1; i++) {
        CHECK(links[i].weight == weight_of(links[i].low) && links[i].high == links[i].low + 1 && links[i].high <= VERTICES);
        CHECK(i == 0 || links[i - 1].weight < links[i].weight);
    }
    return 0;
}
