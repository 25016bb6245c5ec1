/* The minimum spanning forest of a small network, by calls that allocate nothing: they use only the memory that they are
 * given, here a static array. With the library of a PREFIX of your own:
 *
 *     cc -o within -IPREFIX/include within.c PREFIX/lib/libboruvka_within.a
 *     ./within */
#include <boruvka.h>
#include <inttypes.h>
#include <stdio.h>

enum { VERTICES = 6 };

/* four pages; on x86-64 a long double is aligned to 16 bytes, as the call requires */
static union {
    unsigned char bytes[4 * 4096];
    long double aligned;
} pages;

int main(void) {
    const struct boruvka_memory memory = {.start = pages.bytes, .size = sizeof pages.bytes};
    /* the endpoints of a link may be in either order */
    struct boruvka_link links[] = {
        {.weight = 17, .low = 1, .high = 2}, {.weight = 10, .low = 1, .high = 3}, {.weight = 2, .low = 2, .high = 4},
        {.weight = 0, .low = 3, .high = 5},  {.weight = 0, .low = 4, .high = 3},  {.weight = 3, .low = 4, .high = 6},
        {.weight = 0, .low = 5, .high = 2},  {.weight = 20, .low = 5, .high = 6},
    };
    const int64_t count = boruvka_forest_within(memory, VERTICES, links, sizeof links / sizeof *links);
    if (count < 0) {
        char text[64];
        boruvka_fault_text_within(count, text, sizeof text);
        fprintf(stderr, "within: %s\n", text);
        return 1;
    }
    printf("p sp %d %" PRId64 "\n", VERTICES, count);
    for (int64_t i = 0; i < count; i++) {
        printf("a %" PRIu32 " %" PRIu32 " %" PRId64 "\n", links[i].low, links[i].high, links[i].weight);
    }
    return 0;
}
