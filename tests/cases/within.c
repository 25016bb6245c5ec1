/* Calls in memory of many sizes. Each returns the forest, or is out of memory and changes nothing. A call that succeeds in some
 * memory succeeds in more. Bytes around the memory stay unchanged. If a result is wrong, the program exits with status 1.
 *
 *     within sizes     a small network, its text, its columns, and its forest's labels and merges, in each size up to four
 *                      pages, and in two blocks by turns
 *     within enough    lists, texts, columns, labels and merges of many shapes, in as many bytes as include/boruvka.h calls
 *                      enough
 *
 * A_LINK, A_VERTEX, A_BYTE, PLACED_LINK, PLACED_VERTEX, MERGED_LINK, MERGED_VERTEX and MORE are its figures. */
#include <boruvka.h>
#include <inttypes.h>
#include <stdio.h>
#include <stdlib.h>
#include <string.h>

#define CHECK(holds) ((holds) ? (void)0 : wrong(#holds, __LINE__))

enum { PAGE = 4096, EDGE = 64, SIGN = 0xa5, VERTICES = 6, LINKS = 8, FOUND = 5 };

static const char given_text[] = "p sp 6 8\na 1 2 17\na 1 3 10\na 2 4 2\na 3 5 0\na 4 3 0\na 4 6 3\na 5 2 0\na 5 6 20\n";
static const char found_text[] = "p sp 6 5\na 2 5 0\na 3 4 0\na 3 5 0\na 4 6 3\na 1 3 10\n";
static const struct boruvka_link net[LINKS] = {{17, 1, 2}, {10, 1, 3}, {2, 2, 4}, {0, 3, 5}, {0, 4, 3}, {3, 4, 6}, {0, 5, 2}, {20, 5, 6}};
static const struct boruvka_link forest[FOUND] = {{0, 2, 5}, {0, 3, 4}, {0, 3, 5}, {3, 4, 6}, {10, 1, 3}};
static const uint32_t tails[LINKS] = {1, 1, 2, 3, 4, 4, 5, 5}, heads[LINKS] = {2, 3, 4, 5, 3, 6, 2, 6};
static const int64_t weights[LINKS] = {17, 10, 2, 0, 0, 3, 0, 20};
static const uint32_t forest_places[FOUND] = {6, 4, 3, 5, 1};
static const struct boruvka_merge joined[FOUND] = {{1, 4, 2}, {2, 3, 2}, {6, 7, 4}, {5, 8, 5}, {0, 9, 6}};

static void wrong(const char *what, int line) {
    fprintf(stderr, "within.c, line %d: not so: %s\n", line, what);
    exit(1);
}

/* Whether the network's forest is found in so many bytes. If not, nothing changed. */
static int has_forest(unsigned char *block, size_t size) {
    struct boruvka_link links[LINKS];
    memcpy(links, net, sizeof net);
    const int64_t answer = boruvka_forest_within((struct boruvka_memory){block, size}, VERTICES, links, LINKS);
    CHECK(answer == FOUND || answer == BORUVKA_NO_MEMORY);
    CHECK(answer == FOUND ? !memcmp(links, forest, sizeof forest) && !memcmp(links + FOUND, net + FOUND, sizeof net - sizeof forest)
                          : !memcmp(links, net, sizeof net));
    return answer == FOUND;
}

static int has_text(unsigned char *block, size_t size) {
    uint8_t into[sizeof found_text] = {0};
    struct boruvka_fault fault = {1, 1};
    const int64_t answer = boruvka_forest_text_within((struct boruvka_memory){block, size}, (const uint8_t *)given_text, sizeof given_text - 1,
                                                      into, sizeof into, &fault);
    CHECK(answer == (int64_t)sizeof found_text - 1 || answer == BORUVKA_NO_MEMORY);
    CHECK(fault.line == 0 && fault.kind == (answer < 0 ? BORUVKA_NO_MEMORY : 0));
    CHECK(answer < 0 ? into[0] == 0 : !memcmp(into, found_text, sizeof found_text));
    return answer >= 0;
}

static int has_merges(unsigned char *block, size_t size) {
    static const struct boruvka_merge none[FOUND];
    struct boruvka_merge merges[FOUND] = {{0, 0, 0}};
    const int64_t answer = boruvka_merges_within((struct boruvka_memory){block, size}, VERTICES, forest, FOUND, merges, FOUND);
    CHECK(answer == FOUND || answer == BORUVKA_NO_MEMORY);
    CHECK(!memcmp(merges, answer == FOUND ? joined : none, sizeof merges));
    return answer == FOUND;
}

static int has_places(unsigned char *block, size_t size) {
    static const uint32_t none[FOUND];
    uint32_t places[FOUND] = {0};
    const struct boruvka_memory memory = {block, size};
    const int64_t answer = boruvka_places_within(memory, VERTICES, 1, tails, LINKS, heads, LINKS, weights, LINKS, places, FOUND);
    CHECK(answer == FOUND || answer == BORUVKA_NO_MEMORY);
    CHECK(!memcmp(places, answer == FOUND ? forest_places : none, sizeof places));
    return answer == FOUND;
}

/* The labels by the forest's three lightest links. */
static int has_labels(unsigned char *block, size_t size) {
    static const uint32_t none[VERTICES], wanted[VERTICES] = {1, 2, 2, 2, 2, 6};
    uint32_t label[VERTICES] = {0};
    const int64_t answer = boruvka_labels_within((struct boruvka_memory){block, size}, forest, 3, label, VERTICES);
    CHECK(answer == VERTICES || answer == BORUVKA_NO_MEMORY);
    CHECK(!memcmp(label, answer == VERTICES ? wanted : none, sizeof label));
    return answer == VERTICES;
}

/* Errors that come before any allocation also come without memory. */
static void refusals_without_memory(unsigned char *block) {
    struct boruvka_link links[LINKS];
    memcpy(links, net, sizeof net);
    const struct boruvka_memory none = {block, 0};
    CHECK(boruvka_forest_within(none, BORUVKA_MAX_VERTICES + 1, links, LINKS) == BORUVKA_TOO_MANY_VERTICES);
    CHECK(boruvka_forest_within(none, VERTICES - 1, links, LINKS) == BORUVKA_BAD_END);
    CHECK(!memcmp(links, net, sizeof net));
    struct boruvka_merge merges[2] = {joined[0], joined[1]};
    const struct boruvka_link loops[2] = {{1, 1, 2}, {0, 3, 3}};
    CHECK(boruvka_merges_within(none, BORUVKA_MAX_VERTICES + 1, loops, 2, merges, 1) == BORUVKA_LENGTHS_DIFFER);
    CHECK(boruvka_merges_within(none, BORUVKA_MAX_VERTICES + 1, loops, 2, merges, 2) == BORUVKA_TOO_MANY_VERTICES);
    CHECK(boruvka_merges_within(none, 2, loops, 2, merges, 2) == BORUVKA_BAD_END);
    CHECK(boruvka_merges_within(none, 3, loops, 2, merges, 2) == BORUVKA_CYCLE);
    CHECK(!memcmp(merges, joined, sizeof merges));
    uint32_t places[FOUND] = {9, 9, 9, 9, 9};
    CHECK(boruvka_places_within(none, BORUVKA_MAX_VERTICES + 1, 1, tails, 8, heads, 7, weights, 8, places, 5) == BORUVKA_LENGTHS_DIFFER);
    CHECK(boruvka_places_within(none, BORUVKA_MAX_VERTICES + 1, 1, tails, 8, heads, 8, weights, 8, places, 5) == BORUVKA_TOO_MANY_VERTICES);
    CHECK(boruvka_places_within(none, VERTICES, 2, tails, 8, heads, 8, weights, 8, places, 5) == BORUVKA_BAD_END);
    CHECK(boruvka_labels_within(none, net, 8, places, 5) == BORUVKA_BAD_END);
    CHECK(boruvka_labels_within(none, loops, 2, places, 3) == BORUVKA_CYCLE);
    for (size_t i = 0; i < FOUND; i++) {
        CHECK(places[i] == 9);
    }
    CHECK(boruvka_bad_link_within(VERTICES - 1, net, LINKS) == 5 && boruvka_bad_end_within(VERTICES - 1, 1, heads, LINKS) == 5);
    CHECK(boruvka_release_within() == BORUVKA_RELEASE);
    struct boruvka_fault fault = {1, 1};
    CHECK(boruvka_forest_text_within(none, (const uint8_t *)"x\n", 2, block, 0, &fault) == BORUVKA_UNKNOWN_LINE && fault.line == 1);
}

/* The calls, each of which succeeds in some amount of memory. */
typedef int served(unsigned char *block, size_t size);

enum { CALLS = 5 };
static served *const calls[CALLS] = {has_forest, has_text, has_places, has_labels, has_merges};

static void sizes(void) {
    static _Alignas(16) unsigned char pages[EDGE + 4 * PAGE + EDGE];
    int had[CALLS] = {0};
    refusals_without_memory(pages + EDGE);
    for (size_t size = 0; size <= 4 * PAGE; size += size < 3 * 16 || size % PAGE >= PAGE - 20 || size % PAGE < 20 ? 1 : 13) {
        for (size_t call = 0; call < CALLS; call++) {
            memset(pages, SIGN, sizeof pages);
            const int has = calls[call](pages + EDGE, size);
            for (size_t i = 0; i < EDGE; i++) {
                CHECK(pages[i] == SIGN);
            }
            for (size_t i = EDGE + size; i < sizeof pages; i++) {
                CHECK(pages[i] == SIGN);
            }
            CHECK(has >= had[call] || size < PAGE);
            had[call] = has;
        }
    }
    for (size_t call = 0; call < CALLS; call++) {
        CHECK(had[call]);
    }
}

/* After a call its memory belongs to the caller again: a later call in other memory doesn't read or write it. */
static void given_back(void) {
    static _Alignas(16) unsigned char first[4 * PAGE], second[4 * PAGE];
    for (size_t call = 0; call < CALLS; call++) {
        CHECK(calls[call](first, sizeof first));
    }
    memset(first, SIGN, sizeof first);
    for (size_t call = 0; call < CALLS; call++) {
        CHECK(calls[call](second, sizeof second));
    }
    for (size_t i = 0; i < sizeof first; i++) {
        CHECK(first[i] == SIGN);
    }
}

static uint64_t drawn(uint64_t *seed) {
    *seed ^= *seed << 13;
    *seed ^= *seed >> 7;
    *seed ^= *seed << 17;
    return *seed;
}

enum shape { DRAWN, EQUAL, PATH, STAR, TWICE, SHAPES };

static void draw(enum shape shape, uint64_t seed, uint32_t n, struct boruvka_link *links, size_t m) {
    for (size_t i = 0; i < m; i++) {
        const uint32_t at = (uint32_t)(i % (n - 1)) + 1;
        const struct boruvka_link of[SHAPES] = {
            [DRAWN] = {(int64_t)drawn(&seed) >> 40, (uint32_t)(drawn(&seed) % n) + 1, (uint32_t)(drawn(&seed) % n) + 1},
            [EQUAL] = {7, (uint32_t)(drawn(&seed) % n) + 1, (uint32_t)(drawn(&seed) % n) + 1},
            [PATH] = {(int64_t)(drawn(&seed) % 1000), at, at + 1},
            [STAR] = {-(int64_t)i, n, at},
            [TWICE] = i % 2 ? (struct boruvka_link){links[i - 1].weight, links[i - 1].high, links[i - 1].low}
                            : (struct boruvka_link){(int64_t)(drawn(&seed) % 1000), (uint32_t)(drawn(&seed) % n) + 1, at},
        };
        links[i] = of[shape];
    }
}

static unsigned char *block_of(size_t size) {
    unsigned char *block = aligned_alloc(16, (size + 15) / 16 * 16);
    CHECK(block != 0);
    return block;
}

/* The merges of a forest of `count` of these m links, and the error for all m links, if they contain a cycle. */
static void enough_for_merges(uint32_t n, struct boruvka_link *links, size_t m, size_t count) {
    struct boruvka_merge *merges = calloc(m, sizeof *merges);
    CHECK(merges != 0);
    for (size_t k = count;; k = m) {
        const size_t size = MERGED_LINK * k + MERGED_VERTEX * (size_t)n + MORE;
        unsigned char *block = block_of(size);
        const int64_t answer = boruvka_merges_within((struct boruvka_memory){block, size}, n, links, k, merges, k);
        CHECK(k == count ? answer == (int64_t)k : answer == BORUVKA_CYCLE);
        free(block);
        if (k == m) {
            break;
        }
    }
    free(merges);
}

/* The `count` indices of the forest of these m links. */
static void enough_for_places(uint32_t n, const struct boruvka_link *links, size_t m, size_t count) {
    uint32_t *columns = calloc(2 * m + count + 1, sizeof *columns), *places = columns + 2 * m;
    int64_t *w = calloc(m, sizeof *w);
    CHECK(columns != 0 && w != 0);
    for (size_t i = 0; i < m; i++) {
        columns[i] = links[i].low;
        columns[m + i] = links[i].high;
        w[i] = links[i].weight;
    }
    const size_t size = PLACED_LINK * m + PLACED_VERTEX * (size_t)n + MORE;
    unsigned char *block = block_of(size);
    CHECK(boruvka_places_within((struct boruvka_memory){block, size}, n, 1, columns, m, columns + m, m, w, m, places, count) == (int64_t)count);
    free(block);
    free(columns);
    free(w);
}

/* The labels by the forest of `count` of these m links, and the error for all m links, if they contain a cycle. */
static void enough_for_labels(uint32_t n, const struct boruvka_link *links, size_t m, size_t count) {
    uint32_t *label = calloc(n, sizeof *label);
    CHECK(label != 0);
    for (size_t k = count;; k = m) {
        const size_t size = A_LINK * k + A_VERTEX * (size_t)n + MORE;
        unsigned char *block = block_of(size);
        const int64_t answer = boruvka_labels_within((struct boruvka_memory){block, size}, links, k, label, n);
        CHECK(k == count ? answer == n : answer == BORUVKA_CYCLE);
        free(block);
        if (k == m) {
            break;
        }
    }
    free(label);
}

static void enough_for(enum shape shape, uint64_t seed, uint32_t n, size_t m) {
    struct boruvka_link *links = malloc(m * sizeof *links);
    char *text = malloc(64 + 45 * m);
    CHECK(links != 0 && text != 0);
    draw(shape, seed, n, links, m);
    size_t length = (size_t)sprintf(text, "p sp %" PRIu32 " %zu\n", n, m);
    for (size_t i = 0; i < m; i++) {
        length += (size_t)sprintf(text + length, "a %" PRIu32 " %" PRIu32 " %" PRId64 "\n", links[i].low, links[i].high, links[i].weight);
    }
    const size_t of_links = A_LINK * m + A_VERTEX * (size_t)n + MORE, of_text = A_BYTE * length + A_VERTEX * (size_t)n + MORE;
    unsigned char *block = block_of(of_links > of_text ? of_links : of_text);
    struct boruvka_link *given = malloc(m * sizeof *given);
    CHECK(given != 0);
    memcpy(given, links, m * sizeof *given);
    const int64_t count = boruvka_forest_within((struct boruvka_memory){block, of_links}, n, links, m);
    CHECK(count >= 0);
    enough_for_places(n, given, m, (size_t)count);
    enough_for_labels(n, links, m, (size_t)count);
    enough_for_merges(n, links, m, (size_t)count);
    free(given);
    struct boruvka_fault fault;
    uint8_t none;
    CHECK(boruvka_forest_text_within((struct boruvka_memory){block, of_text}, (const uint8_t *)text, length, &none, 0, &fault) > 0);
    free(block);
    free(links);
    free(text);
}

static void enough(void) {
    for (uint64_t seed = 1; seed <= 400; seed++) {
        enough_for((enum shape)(seed % SHAPES), seed, 2 + (uint32_t)(seed * seed % 700), 1 + seed * 37 % 3000);
    }
    /* one more than where lists and texts double */
    for (enum shape shape = DRAWN; shape < SHAPES; shape++) {
        enough_for(shape, 9, 1 << 16, (1 << 16) + 1);
        enough_for(shape, 9, 1 << 10, (1 << 16) + 1);
        enough_for(shape, 9, 1 << 19, 1 << 10);
        enough_for(shape, 9, 93000, 100000);
    }
}

int main(int count, char **words) {
    CHECK(count == 2);
    if (!strcmp(words[1], "sizes")) {
        sizes();
        given_back();
    } else {
        enough();
    }
    return 0;
}
