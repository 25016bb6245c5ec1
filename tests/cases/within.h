/* Included before tests/cases/embedding.c. It replaces calls that allocate by those in caller-provided memory. They get too
 * little memory first, and then twice as much each time. The program ends if a byte before or after that memory is wrong, or
 * if a call that ran out of memory changed something. */
#define _GNU_SOURCE
#include <boruvka.h>
#include <stdio.h>
#include <stdlib.h>
#include <string.h>

enum { EDGE = 64, SIGN = 0xa5 };

/* The most bytes that are compared. */
static const size_t compared = 1 << 24;

static unsigned char *edged(size_t size) {
    unsigned char *block = aligned_alloc(16, (EDGE + size + EDGE + 15) / 16 * 16);
    if (block == 0) {
        abort();
    }
    memset(block, SIGN, EDGE);
    memset(block + EDGE + size, SIGN, EDGE);
    return block;
}

/* The bytes around the memory are unchanged. */
static void given_back(unsigned char *block, size_t size) {
    for (size_t i = 0; i < EDGE; i++) {
        if (block[i] != SIGN || block[EDGE + size + i] != SIGN) {
            fprintf(stderr, "within.h: a byte next to %zu bytes of memory was written\n", size);
            exit(1);
        }
    }
    free(block);
}

static void same(const void *one, const void *other, size_t size) {
    if (memcmp(one, other, size)) {
        fprintf(stderr, "within.h: a call that ran out of memory changed its arguments\n");
        exit(1);
    }
}

static inline int64_t forest_within(uint32_t n, struct boruvka_link *links, size_t m) {
    const size_t kept = m * sizeof *links < compared ? m * sizeof *links : 0;
    void *before = calloc(kept + 1, 1);
    memcpy(before, links, kept);
    int64_t answer = BORUVKA_NO_MEMORY;
    /* also sizes that aren't a whole number of units */
    for (size_t size = 100; answer == BORUVKA_NO_MEMORY && size < (size_t)1 << 36; size = size * 2 + 7) {
        unsigned char *block = edged(size);
        answer = boruvka_forest_within((struct boruvka_memory){block + EDGE, size}, n, links, m);
        given_back(block, size);
        if (answer == BORUVKA_NO_MEMORY) {
            same(before, links, kept);
        }
    }
    free(before);
    return answer;
}

static inline int64_t forest_text_within(const uint8_t *text, size_t length, uint8_t *into, size_t room, struct boruvka_fault *fault) {
    uint8_t *before = calloc(room + 1, 1);
    memcpy(before, into, room);
    int64_t answer = BORUVKA_NO_MEMORY;
    for (size_t size = 100; answer == BORUVKA_NO_MEMORY && size < (size_t)1 << 36; size = size * 2 + 7) {
        unsigned char *block = edged(size);
        answer = boruvka_forest_text_within((struct boruvka_memory){block + EDGE, size}, text, length, into, room, fault);
        given_back(block, size);
        if (answer == BORUVKA_NO_MEMORY) {
            same(before, into, room);
        }
    }
    free(before);
    return answer;
}

static inline int64_t merges_in_within(uint32_t n, const struct boruvka_link *links, size_t k, struct boruvka_merge *merges, size_t room) {
    void *before = calloc(room + 1, sizeof *merges);
    memcpy(before, merges, room * sizeof *merges);
    int64_t answer = BORUVKA_NO_MEMORY;
    for (size_t size = 100; answer == BORUVKA_NO_MEMORY && size < (size_t)1 << 36; size = size * 2 + 7) {
        unsigned char *block = edged(size);
        answer = boruvka_merges_within((struct boruvka_memory){block + EDGE, size}, n, links, k, merges, room);
        given_back(block, size);
        if (answer == BORUVKA_NO_MEMORY) {
            same(before, merges, room * sizeof *merges);
        }
    }
    free(before);
    return answer;
}

static inline int64_t places_in_within(uint32_t n, uint32_t base, const uint32_t *u, size_t u_count, const uint32_t *v, size_t v_count,
                                       const int64_t *w, size_t w_count, uint32_t *places, size_t room) {
    void *before = calloc(room + 1, sizeof *places);
    memcpy(before, places, room * sizeof *places);
    int64_t answer = BORUVKA_NO_MEMORY;
    for (size_t size = 100; answer == BORUVKA_NO_MEMORY && size < (size_t)1 << 36; size = size * 2 + 7) {
        unsigned char *block = edged(size);
        const struct boruvka_memory memory = {block + EDGE, size};
        answer = boruvka_places_within(memory, n, base, u, u_count, v, v_count, w, w_count, places, room);
        given_back(block, size);
        if (answer == BORUVKA_NO_MEMORY) {
            same(before, places, room * sizeof *places);
        }
    }
    free(before);
    return answer;
}

static inline int64_t places_within(uint32_t n, uint32_t base, const uint32_t *u, const uint32_t *v, const int64_t *w, size_t m,
                                    uint32_t *places) {
    const size_t most = n > 0 ? n - 1 : 0;
    return places_in_within(n, base, u, m, v, m, w, m, places, m < most ? m : most);
}

static inline int64_t labels_in_within(const struct boruvka_link *links, size_t k, uint32_t *label, size_t n) {
    const size_t kept = n * sizeof *label < compared ? n * sizeof *label : 0;
    void *before = calloc(kept + 1, 1);
    memcpy(before, label, kept);
    int64_t answer = BORUVKA_NO_MEMORY;
    for (size_t size = 100; answer == BORUVKA_NO_MEMORY && size < (size_t)1 << 36; size = size * 2 + 7) {
        unsigned char *block = edged(size);
        answer = boruvka_labels_within((struct boruvka_memory){block + EDGE, size}, links, k, label, n);
        given_back(block, size);
        if (answer == BORUVKA_NO_MEMORY) {
            same(before, label, kept);
        }
    }
    free(before);
    return answer;
}

static inline int64_t labels_within(uint32_t n, const struct boruvka_link *links, size_t k, uint32_t *label) {
    return labels_in_within(links, k, label, n);
}

static inline int64_t merges_within(uint32_t n, const struct boruvka_link *links, size_t k, struct boruvka_merge *merges) {
    return merges_in_within(n, links, k, merges, k);
}

#define boruvka_bad_end boruvka_bad_end_within
#define boruvka_bad_link boruvka_bad_link_within
#define boruvka_fault_text boruvka_fault_text_within
#define boruvka_forest forest_within
#define boruvka_forest_text forest_text_within
#define boruvka_labels labels_within
#define boruvka_labels_in labels_in_within
#define boruvka_merges merges_within
#define boruvka_merges_in merges_in_within
#define boruvka_places places_within
#define boruvka_places_in places_in_within
#define boruvka_release boruvka_release_within
