/* The minimum spanning forest of a small network in memory, printed as `boruvka` prints it.
 *
 * With installed libraries that the system finds, after `ldconfig`:
 *
 *     cc -o forest forest.c $(pkg-config --cflags --libs boruvka)
 *     ./forest
 *
 * With the shared library of a PREFIX of your own, where the program looks for it again when it starts:
 *
 *     export PKG_CONFIG_PATH=PREFIX/lib/pkgconfig
 *     cc -o forest forest.c $(pkg-config --cflags --libs boruvka) -Wl,-rpath,PREFIX/lib
 *     ./forest
 *
 * With the static library of a PREFIX, and without pkg-config:
 *
 *     cc -o forest -IPREFIX/include forest.c PREFIX/lib/libboruvka.a
 *     ./forest */
#include <boruvka.h>
#include <inttypes.h>
#include <stdio.h>

enum { VERTICES = 6 };

int main(void) {
    /* the endpoints of a link may be in either order */
    struct boruvka_link links[] = {
        {.weight = 17, .low = 1, .high = 2}, {.weight = 10, .low = 1, .high = 3}, {.weight = 2, .low = 2, .high = 4},
        {.weight = 0, .low = 3, .high = 5},  {.weight = 0, .low = 4, .high = 3},  {.weight = 3, .low = 4, .high = 6},
        {.weight = 0, .low = 5, .high = 2},  {.weight = 20, .low = 5, .high = 6},
    };
    const int64_t count = boruvka_forest(VERTICES, links, sizeof links / sizeof *links);
    if (count < 0) {
        char text[64];
        boruvka_fault_text(count, text, sizeof text);
        fprintf(stderr, "forest: %s\n", text);
        return 1;
    }
    printf("p sp %d %" PRId64 "\n", VERTICES, count);
    for (int64_t i = 0; i < count; i++) {
        printf("a %" PRIu32 " %" PRIu32 " %" PRId64 "\n", links[i].low, links[i].high, links[i].weight);
    }
    return 0;
}
