/* SPDX-License-Identifier: MIT OR Apache-2.0 */
/* boruvka.h: minimum spanning forests of lists of edges in memory.
 *
 *     struct boruvka_link links[] = {
 *         {.weight = 17, .low = 1, .high = 2}, {.weight = 10, .low = 3, .high = 1}, {.weight = 2, .low = 3, .high = 2}};
 *     int64_t count = boruvka_forest(3, links, 3);
 *
 * The count is 2, and the first two links are the forest: {2, 2, 3} and {10, 1, 3}. Name the fields, as the example does: if
 * you write a weight where an endpoint belongs, the code compiles all the same, and gives another forest.
 *
 * Errors
 * ------
 * A call that returns an int64_t (except boruvka_key) returns a count or, on error, a negative enum boruvka_refusal. After an
 * error all outputs are unchanged, except the parameter `fault`. If several errors apply, the call returns the first one in the
 * order that its comment gives. boruvka_fault_text writes the text of an error.
 *
 * Rules for the caller
 * --------------------
 * The crates boruvka_c and boruvka_within prove what each call returns and writes. The inline calls of this header are tested:
 * boruvka_places, boruvka_labels and boruvka_merges look for an overlap and then make a proved call; boruvka_key and
 * boruvka_weight convert numbers. The proofs assume that the caller follows these rules. Nothing checks them, unless the
 * comment of a call says so.
 * - A pointer points to as many elements as the count after it says, aligned as their type requires. It may be null if the
 *   count is 0; that is tested, not proved.
 * - The call may read and write the elements of a pointer without `const`. Nothing else accesses these elements during the
 *   call, and they overlap nothing that another parameter points to. The call only reads the elements of a `const` pointer.
 *   These may be shared.
 * - malloc, realloc and free belong to one allocator. It aligns each block to the greatest power of two that divides the
 *   block's size, but at most to 16.
 * - No call is made from a signal handler, or in a forked child of a process with threads.
 * - A call has 128 KiB of stack, and the processor supports x86-64-v2.
 *
 * No call keeps state, so threads may make calls at the same time, each on memory of its own.
 *
 * Libraries
 * ---------
 * pkg-config has boruvka and boruvka_within. CMake has boruvka::boruvka, boruvka::static and boruvka::within. */
#ifndef BORUVKA_H
#define BORUVKA_H

#include <stddef.h>
#include <stdint.h>
#include <string.h>

/* (C before C99 has no `inline`) */
#if defined __cplusplus || (defined __STDC_VERSION__ && __STDC_VERSION__ >= 199901L)
#define BORUVKA_INLINE static inline
#elif defined __GNUC__
#define BORUVKA_INLINE static __inline__
#else
#define BORUVKA_INLINE static
#endif

#ifdef __cplusplus
extern "C" {
#endif

#define BORUVKA_RELEASE 10100          /* the release of this header; boruvka_release returns the library's */
#define BORUVKA_VERSION 1              /* the version of these calls; boruvka_version returns the library's */
#define BORUVKA_MAX_VERTICES 67108864  /* 2^26 */
#define BORUVKA_MAX_LINKS 1073741824   /* 2^30 */

/* A link is an edge between two vertices, its endpoints. Vertices are numbered from 1. Links are ordered by weight, then by
 * the lower endpoint, then by the higher endpoint. */
struct boruvka_link {
    int64_t weight;
    uint32_t low, high;
};

/* The errors. Those from -6 to -16 are errors of a line of a .gr text: docs/GR_FORMAT.md explains each under the same name. */
enum boruvka_refusal {
    BORUVKA_NO_MEMORY = -1,
    BORUVKA_BAD_END = -2,           /* an endpoint isn't a vertex; boruvka_bad_link and boruvka_bad_end find it */
    BORUVKA_TOO_MANY_VERTICES = -3, /* more than BORUVKA_MAX_VERTICES */
    BORUVKA_TOO_MANY_LINKS = -4,    /* more than BORUVKA_MAX_LINKS */
    BORUVKA_TOO_LONG = -5,          /* a text has more than 2^40 bytes */
    BORUVKA_UNKNOWN_LINE = -6, BORUVKA_NO_PROBLEM_YET = -7, BORUVKA_SECOND_PROBLEM = -8, BORUVKA_BAD_PROBLEM = -9,
    BORUVKA_TOO_LARGE = -10, BORUVKA_BAD_ARC = -11, BORUVKA_END_OUT_OF_RANGE = -12, BORUVKA_WEIGHT_OUT_OF_RANGE = -13,
    BORUVKA_TOO_MANY_ARCS = -14, BORUVKA_MISSING_PROBLEM = -15, BORUVKA_MISSING_ARCS = -16,
    BORUVKA_LENGTHS_DIFFER = -17, /* u, v and w, or links and merges, have different lengths */
    BORUVKA_TOO_FEW_PLACES = -18, /* the forest has more links than `places` has elements */
    BORUVKA_CYCLE = -19,          /* the links contain a cycle; a loop and a repeated link are cycles too */
    BORUVKA_DESCENDING = -20,     /* a link weighs less than the link before it */
    BORUVKA_OVERLAP = -21         /* an output overlaps an input; only the inline calls check this */
};

/* The error that boruvka_forest_text writes: its code, and the number of the bad line, counted from 1. The line is 0 if the
 * error belongs to no line. Both are 0 on success. */
struct boruvka_fault {
    int64_t kind;
    uint64_t line;
};

/* Two clusters that merge into one cluster of `size` points: first < second. */
struct boruvka_merge {
    uint32_t first, second, size;
};

/* A sum of weights in 128 bits: high * 2^64 + low. */
struct boruvka_sum {
    int64_t high;
    uint64_t low;
};

/* Returns whether two pieces of memory have a byte in common. */
BORUVKA_INLINE int boruvka_overlap(const void *one, size_t size, const void *other, size_t other_size) {
    const uintptr_t a = (uintptr_t)one, b = (uintptr_t)other;
    return size > 0 && other_size > 0 && (a < b ? b - a < size : a - b < other_size);
}

/* Finds the minimum spanning forest of links[0] to links[m - 1], a graph on the vertices 1 to n. The links may come in any
 * order, with their endpoints in either order; loops and repeated links are allowed.
 *
 * On success the forest overwrites the first elements of `links`. It is sorted, and each link has its lower endpoint in `low`.
 * The other elements are unchanged.
 *
 * Returns: the number of links of the forest.
 * Errors, in this order: BORUVKA_TOO_MANY_VERTICES, BORUVKA_TOO_MANY_LINKS, BORUVKA_BAD_END, BORUVKA_NO_MEMORY. */
int64_t boruvka_forest(uint32_t n, struct boruvka_link *links, size_t m);

/* Finds the minimum spanning forest of a graph in three columns, and writes the indices of the forest's edges. The edge at
 * index i joins u[i] and v[i] and has the weight w[i]. The vertices are base to base + n - 1. The edges may come in any order;
 * loops and repeated edges are allowed. `room` is the number of elements of `places`.
 *
 * On success the first elements of `places` are the indices of the forest's edges, counted from 0. They are in the order in
 * which links are ordered. If an edge is repeated with the same weight, in either direction, its first index is written. The
 * other elements of `places` are unchanged.
 *
 * For a graph with m edges, `places` never needs more elements than the lesser of m and n - 1. No input makes the call slow:
 * in addition to finding the forest, it makes two passes over the edges, and at worst sorts them.
 *
 * Returns: the number of edges of the forest.
 * Errors, in this order: BORUVKA_LENGTHS_DIFFER, those of boruvka_forest, BORUVKA_TOO_FEW_PLACES. */
int64_t boruvka_places_in(uint32_t n, uint32_t base, const uint32_t *u, size_t u_count, const uint32_t *v, size_t v_count,
                          const int64_t *w, size_t w_count, uint32_t *places, size_t room);

/* Does what boruvka_places_in does, with m edges. `places` has as many elements as the lesser of m and n - 1.
 *
 * Errors, in this order: BORUVKA_OVERLAP if `places` overlaps u, v or w; those of boruvka_places_in. */
BORUVKA_INLINE int64_t boruvka_places(uint32_t n, uint32_t base, const uint32_t *u, const uint32_t *v, const int64_t *w, size_t m,
                                      uint32_t *places) {
    const size_t most = n > 0 ? n - 1 : 0, room = m < most ? m : most, size = room * sizeof *places;
    if (m <= BORUVKA_MAX_LINKS && (boruvka_overlap(places, size, u, m * sizeof *u) || boruvka_overlap(places, size, v, m * sizeof *v)
                                   || boruvka_overlap(places, size, w, m * sizeof *w))) {
        return BORUVKA_OVERLAP;
    }
    return boruvka_places_in(n, base, u, m, v, m, w, m, places, room);
}

/* Labels each of the vertices 1 to n by its component in the graph of the k links. The links may come in any order, with
 * their endpoints in either order, but contain no cycle: the links of a forest, or some of them.
 *
 * On success label[v - 1] is the least vertex of the component of vertex v.
 *
 * Returns: n.
 * Errors, in this order: BORUVKA_TOO_MANY_VERTICES, BORUVKA_TOO_MANY_LINKS, BORUVKA_BAD_END, BORUVKA_CYCLE for a loop. After
 * these come BORUVKA_CYCLE for another cycle and BORUVKA_NO_MEMORY, in no fixed order. */
int64_t boruvka_labels_in(const struct boruvka_link *links, size_t k, uint32_t *label, size_t n);

/* Does what boruvka_labels_in does. `label` has n elements.
 *
 * Errors, in this order: BORUVKA_OVERLAP if `label` overlaps the links; those of boruvka_labels_in. */
BORUVKA_INLINE int64_t boruvka_labels(uint32_t n, const struct boruvka_link *links, size_t k, uint32_t *label) {
    if (k <= BORUVKA_MAX_LINKS && boruvka_overlap(label, (size_t)n * sizeof *label, links, k * sizeof *links)) {
        return BORUVKA_OVERLAP;
    }
    return boruvka_labels_in(links, k, label, n);
}

/* Finds which clusters of n points the k links merge, one after the other. The links are in ascending order of weight, as
 * boruvka_forest leaves them, and contain no cycle. `room` is the number of elements of `merges`.
 *
 * The clusters 0 to n - 1 are the points; cluster v - 1 is vertex v. On success links[i] merges the two clusters of merges[i]
 * into the cluster n + i. With the weights as heights, n - 1 merges are a linkage matrix. If the links are a minimum spanning
 * forest, it is the matrix of single linkage. Fewer than n - 1 merges describe several trees, and no linkage matrix can do
 * that. To cut the tree into clusters, call boruvka_labels with the first links only.
 *
 * Returns: k.
 * Errors, in this order: BORUVKA_LENGTHS_DIFFER if `room` isn't k, those of boruvka_labels_in, BORUVKA_DESCENDING. */
int64_t boruvka_merges_in(uint32_t n, const struct boruvka_link *links, size_t k, struct boruvka_merge *merges, size_t room);

/* Does what boruvka_merges_in does. `merges` has k elements.
 *
 * Errors, in this order: BORUVKA_OVERLAP if `merges` overlaps the links; those of boruvka_merges_in. */
BORUVKA_INLINE int64_t boruvka_merges(uint32_t n, const struct boruvka_link *links, size_t k, struct boruvka_merge *merges) {
    if (k <= BORUVKA_MAX_LINKS && boruvka_overlap(merges, k * sizeof *merges, links, k * sizeof *links)) {
        return BORUVKA_OVERLAP;
    }
    return boruvka_merges_in(n, links, k, merges, k);
}

/* Writes the exact sum of the weights of k links. Repeated links are counted each time, and endpoints aren't looked at. */
void boruvka_total(const struct boruvka_link *links, size_t k, struct boruvka_sum *total);

/* Returns the index of the first of m links with an endpoint outside 1 to n, or m if there is none. */
size_t boruvka_bad_link(uint32_t n, const struct boruvka_link *links, size_t m);

/* Looks for an endpoint outside base to base + n - 1 in a column of m endpoints. Returns the index of the first one, or m if
 * there is none. */
size_t boruvka_bad_end(uint32_t n, uint32_t base, const uint32_t *ends, size_t m);

/* Finds the minimum spanning forest of a graph in .gr text, and writes it as .gr text into the `room` bytes of `into`. If it
 * doesn't fit, only its first `room` bytes are written. No 0 byte is added.
 *
 * `fault` gets the error and the number of the bad line, or zeros on success.
 *
 * Returns: the length of the forest's text in bytes, whether it fits or not.
 * Errors: that of a bad line, BORUVKA_NO_MEMORY, or BORUVKA_TOO_LONG after 2^40 bytes. The call reads the text from its start,
 * and returns the first error that it meets. */
int64_t boruvka_forest_text(const uint8_t *text, size_t length, uint8_t *into, size_t room, struct boruvka_fault *fault);

/* Writes the text of an error into the `room` bytes of `into`, as snprintf does: a 0 byte ends the text, and a longer text
 * is truncated so that the 0 fits too. The bytes after the 0 are unchanged. If `room` is 0, nothing is written. A number that
 * isn't an error has the text `not an error code`.
 *
 * Returns: the length of the whole text without the 0, at most 29 today. If it is `room` or more, the text was truncated. */
size_t boruvka_fault_text(int64_t kind, char *into, size_t room);

uint32_t boruvka_version(void);

/* Returns the library's release: for release a.b.c it is 10000 * a + 100 * b + c. */
uint32_t boruvka_release(void);

/* ---- Weights that are doubles. */

#define BORUVKA_NAN INT64_MIN /* the key of every NaN */

/* Returns the key of a double, for use as a weight: a smaller number has a smaller key, and 0.0 and -0.0 have the key 0. Every
 * NaN has the key BORUVKA_NAN, and no number has this key. Check for BORUVKA_NAN before a call, because calls treat it as the
 * lightest weight. A sum of keys, as boruvka_total writes it, means nothing. */
BORUVKA_INLINE int64_t boruvka_key(double weight) {
    const uint64_t infinite = (uint64_t)0x7ff << 52;
    uint64_t bits;
    int64_t size;
    memcpy(&bits, &weight, sizeof bits);
    size = (int64_t)(bits << 1 >> 1);
    if ((uint64_t)size > infinite) {
        return BORUVKA_NAN;
    }
    return bits >> 63 ? -size : size;
}

/* Returns the double with this key. For the key 0 it is 0.0. */
BORUVKA_INLINE double boruvka_weight(int64_t key) {
    const uint64_t sign = (uint64_t)1 << 63, none = (uint64_t)0x7ff8 << 48;
    const uint64_t bits = key == BORUVKA_NAN ? none : key < 0 ? sign | (uint64_t)-key : (uint64_t)key;
    double weight;
    memcpy(&weight, &bits, sizeof weight);
    return weight;
}

/* ---- Calls that allocate from memory that the caller provides. They are in libboruvka_within.a. Each does what the call
 * without `_within` in its name does. But boruvka_places_within, boruvka_labels_within and boruvka_merges_within do what
 * boruvka_places_in, boruvka_labels_in and boruvka_merges_in do. The library needs memcpy, memmove and memset, and no malloc. */

/* The memory that a call may use: `size` bytes from `start` on. `start` is never null, and is aligned to 16 bytes. Nothing else
 * accesses these bytes during the call, and no other parameter points into them. Their contents are lost. After the call they
 * belong to the caller again.
 *
 * The call uses whole pages of 4096 bytes. If they are too few, it returns BORUVKA_NO_MEMORY, and all outputs are unchanged
 * except `fault`, so the same call may be made again with more memory. The table below has the bytes per link, arc, vertex
 * or byte of text. These are enough, with 16384 bytes more for each call. This isn't proved: tests measure the tightest cases.
 *
 *     boruvka_forest_within         29 bytes per link and 12 per vertex
 *     boruvka_places_within         29 bytes per arc and 29 per vertex
 *     boruvka_labels_within         29 bytes per link and 12 per vertex
 *     boruvka_merges_within         32 bytes per link and 4 per vertex
 *     boruvka_forest_text_within    6 bytes per byte of the text and 12 per vertex */
struct boruvka_memory {
    void *start;
    size_t size;
};

int64_t boruvka_forest_within(struct boruvka_memory memory, uint32_t n, struct boruvka_link *links, size_t m);
int64_t boruvka_places_within(struct boruvka_memory memory, uint32_t n, uint32_t base, const uint32_t *u, size_t u_count,
                              const uint32_t *v, size_t v_count, const int64_t *w, size_t w_count, uint32_t *places, size_t room);
int64_t boruvka_labels_within(struct boruvka_memory memory, const struct boruvka_link *links, size_t k, uint32_t *label, size_t n);
int64_t boruvka_merges_within(struct boruvka_memory memory, uint32_t n, const struct boruvka_link *links, size_t k,
                              struct boruvka_merge *merges, size_t room);
int64_t boruvka_forest_text_within(struct boruvka_memory memory, const uint8_t *text, size_t length, uint8_t *into, size_t room,
                                   struct boruvka_fault *fault);
size_t boruvka_fault_text_within(int64_t kind, char *into, size_t room);
size_t boruvka_bad_link_within(uint32_t n, const struct boruvka_link *links, size_t m);
size_t boruvka_bad_end_within(uint32_t n, uint32_t base, const uint32_t *ends, size_t m);
uint32_t boruvka_release_within(void);

#ifdef __cplusplus
}
#endif

#endif
