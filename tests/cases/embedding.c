/* Calls the built library, and compares its results with a forest by Kruskal's algorithm over qsort.
 *
 *     embedding list            links on standard input, as `n m` and then m times `low high weight`: prints the forest's text
 *     embedding text ROOM       a .gr text on standard input: prints what fits ROOM bytes of its forest's text, and to standard
 *                               error `result kind line` and the text of the kind
 *     embedding places BASE     the same list as arcs with vertices numbered from BASE on: prints the forest's indices
 *     embedding limits          empty lists, null pointers to no elements, only loops, each error of links, the largest n,
 *                               buffers of all sizes
 *     embedding inlines         what the header itself defines: outputs that overlap inputs, keys of doubles
 *     embedding threads         four threads at once, each with lists of its own
 *     embedding stack           each call in a thread with a stack of 128 KiB
 *     embedding many            ten million links
 *     embedding memory          a list and a text; if memory runs out, it reports that and checks that nothing changed
 *     embedding again           each call 10,000 times with each of its outcomes, after which the process has no more memory
 *                               than after the first hundred
 *     embedding bytes           lists of two sizes, each call with no more memory than its documentation states
 *
 * If a result is wrong, the program says what was wrong and exits with status 1. */
#define _GNU_SOURCE
#include <boruvka.h>
#include <fcntl.h>
#include <float.h>
#include <inttypes.h>
#include <malloc.h>
#include <pthread.h>
#include <stdio.h>
#include <stdlib.h>
#include <string.h>
#include <sys/mman.h>
#include <sys/resource.h>
#include <unistd.h>

#define CHECK(holds) ((holds) ? (void)0 : wrong(#holds, __LINE__))

/* A small network and its forest, as a text and as links. */
static const char given_text[] = "p sp 6 8\na 1 2 17\na 1 3 10\na 2 4 2\na 3 5 0\na 4 3 0\na 4 6 3\na 5 2 0\na 5 6 20\n";
static const char found_text[] = "p sp 6 5\na 2 5 0\na 3 4 0\na 3 5 0\na 4 6 3\na 1 3 10\n";
static const struct boruvka_link net[] = {{17, 1, 2}, {10, 1, 3}, {2, 2, 4}, {0, 3, 5}, {0, 4, 3}, {3, 4, 6}, {0, 5, 2}, {20, 5, 6}};
static const struct boruvka_link forest[] = {{0, 2, 5}, {0, 3, 4}, {0, 3, 5}, {3, 4, 6}, {10, 1, 3}};

/* The network's arcs as columns with vertices 0 to 5, and the indices of its forest, with what comes after them. */
static const uint32_t tails[] = {0, 0, 1, 2, 3, 3, 4, 4}, heads[] = {1, 2, 3, 4, 2, 5, 1, 5};
static const int64_t weights[] = {17, 10, 2, 0, 0, 3, 0, 20};
static const uint32_t forest_places[] = {6, 4, 3, 5, 1, 9, 9, 9}, no_places[] = {9, 9, 9, 9, 9, 9, 9, 9};

/* Links between as many vertices as allowed. Their higher endpoints don't ascend, so the call needs a table of all vertices. */
static const struct boruvka_link wide[] = {{INT64_MAX, BORUVKA_MAX_VERTICES, 1}, {INT64_MIN, 1, BORUVKA_MAX_VERTICES}, {0, 2, BORUVKA_MAX_VERTICES}};
static const char wide_text[] = "p sp 67108864 3\na 67108864 1 9\na 1 67108864 -9\na 2 67108864 0\n";

static void wrong(const char *what, int line) {
    fprintf(stderr, "embedding.c, line %d: not so: %s\n", line, what);
    exit(1);
}

static int by_key(const void *one, const void *other) {
    const struct boruvka_link *a = one, *b = other;
    if (a->weight != b->weight) {
        return a->weight < b->weight ? -1 : 1;
    }
    if (a->low != b->low) {
        return a->low < b->low ? -1 : 1;
    }
    return (a->high > b->high) - (a->high < b->high);
}

static uint32_t root(uint32_t *parents, uint32_t v) {
    while (parents[v] != v) {
        v = parents[v] = parents[parents[v]];
    }
    return v;
}

static void *taken(size_t count, size_t size) {
    void *block = calloc(count + 1, size);
    CHECK(block != 0);
    return block;
}

/* The forest of the links, by Kruskal's algorithm, first in a list of its own. */
static struct boruvka_link *kruskal(uint32_t n, const struct boruvka_link *given, size_t m, size_t *count) {
    struct boruvka_link *links = taken(m, sizeof *links);
    uint32_t *parents = taken((size_t)n + 1, sizeof *parents);
    for (uint32_t v = 0; v <= n; v++) {
        parents[v] = v;
    }
    for (size_t i = 0; i < m; i++) {
        links[i].weight = given[i].weight;
        links[i].low = given[i].low < given[i].high ? given[i].low : given[i].high;
        links[i].high = given[i].low < given[i].high ? given[i].high : given[i].low;
    }
    qsort(links, m, sizeof *links, by_key);
    *count = 0;
    for (size_t i = 0; i < m; i++) {
        const uint32_t u = root(parents, links[i].low), v = root(parents, links[i].high);
        if (u != v) {
            parents[u] = v;
            links[(*count)++] = links[i];
        }
    }
    free(parents);
    return links;
}

static int are_same(const struct boruvka_link *a, const struct boruvka_link *b, size_t m) {
    for (size_t i = 0; i < m; i++) {
        if (by_key(a + i, b + i)) {
            return 0;
        }
    }
    return 1;
}

static uint64_t drawn(uint64_t *seed) {
    *seed ^= *seed << 13;
    *seed ^= *seed >> 7;
    *seed ^= *seed << 17;
    return *seed;
}

/* Random links with loops and repeats, with weights of the given width. */
static struct boruvka_link *draw(uint64_t seed, uint32_t n, size_t m, uint64_t weights) {
    struct boruvka_link *links = taken(m, sizeof *links);
    for (size_t i = 0; i < m; i++) {
        links[i].weight = (int64_t)(weights ? drawn(&seed) % weights - weights / 2 : drawn(&seed));
        links[i].low = (uint32_t)(drawn(&seed) % n) + 1;
        links[i].high = (uint32_t)(drawn(&seed) % n) + 1;
    }
    return links;
}

/* Compares the forest of a random list with that by Kruskal's algorithm. The other elements stay unchanged. */
static void compare(uint64_t seed, uint32_t n, size_t m, uint64_t weights) {
    struct boruvka_link *given = draw(seed, n, m, weights), *links = taken(m, sizeof *links);
    memcpy(links, given, m * sizeof *links);
    size_t count;
    struct boruvka_link *first = kruskal(n, given, m, &count);
    CHECK(boruvka_forest(n, links, m) == (int64_t)count);
    CHECK(are_same(links, first, count));
    CHECK(are_same(links + count, given + count, m - count));
    free(given);
    free(links);
    free(first);
}

/* The links in columns, with vertices from `base` on. The elements of `places` after the indices stay unchanged. */
struct columns {
    uint32_t *u, *v, *places;
    int64_t *w;
};

enum { BEHIND = 3 };
static const uint32_t untouched = 0xabababab;

static struct columns columns_of(const struct boruvka_link *given, size_t m, uint32_t base) {
    struct columns of = {taken(m, sizeof *of.u), taken(m, sizeof *of.v), taken(m + BEHIND, sizeof *of.places), taken(m, sizeof *of.w)};
    for (size_t i = 0; i < m; i++) {
        of.u[i] = given[i].low - 1 + base;
        of.v[i] = given[i].high - 1 + base;
        of.w[i] = given[i].weight;
    }
    for (size_t i = 0; i < m + BEHIND; i++) {
        of.places[i] = untouched;
    }
    return of;
}

static void free_columns(struct columns of) {
    free(of.u);
    free(of.v);
    free(of.w);
    free(of.places);
}

/* The columns are unchanged. */
static int are_those_of(const struct columns *of, const struct boruvka_link *given, size_t m, uint32_t base) {
    for (size_t i = 0; i < m; i++) {
        if (of->u[i] != given[i].low - 1 + base || of->v[i] != given[i].high - 1 + base || of->w[i] != given[i].weight) {
            return 0;
        }
    }
    return 1;
}

/* A link with the index of its arc. */
struct placed {
    struct boruvka_link link;
    uint32_t place;
};

static int by_key_and_place(const void *one, const void *other) {
    const struct placed *a = one, *b = other;
    const int keys = by_key(&a->link, &b->link);
    return keys ? keys : (a->place > b->place) - (a->place < b->place);
}

/* The first of the sorted links that equals this one. */
static const struct placed *first_of(const struct placed *all, size_t m, const struct boruvka_link *link) {
    size_t from = 0, to = m;
    while (from < to) {
        const size_t middle = from + (to - from) / 2;
        if (by_key(&all[middle].link, link) < 0) {
            from = middle + 1;
        } else {
            to = middle;
        }
    }
    return from < m && !by_key(&all[from].link, link) ? all + from : 0;
}

/* Compares the indices of a list's forest with those that sorting finds. Columns and later elements stay. Frees the list. */
static void compare_places_of(struct boruvka_link *given, uint32_t n, size_t m, uint32_t base) {
    struct columns of = columns_of(given, m, base);
    size_t count;
    struct boruvka_link *forest = kruskal(n, given, m, &count);
    struct placed *all = taken(m, sizeof *all);
    for (size_t i = 0; i < m; i++) {
        all[i].place = (uint32_t)i;
        all[i].link.weight = given[i].weight;
        all[i].link.low = given[i].low < given[i].high ? given[i].low : given[i].high;
        all[i].link.high = given[i].low < given[i].high ? given[i].high : given[i].low;
    }
    qsort(all, m, sizeof *all, by_key_and_place);
    CHECK(boruvka_places(n, base, of.u, of.v, of.w, m, of.places) == (int64_t)count);
    for (size_t i = 0; i < count; i++) {
        const struct placed *first = first_of(all, m, forest + i);
        CHECK(first != 0 && of.places[i] == first->place);
    }
    for (size_t i = count; i < m + BEHIND; i++) {
        CHECK(of.places[i] == untouched);
    }
    CHECK(are_those_of(&of, given, m, base));
    if (count > 0) {
        for (size_t i = 0; i < count; i++) {
            of.places[i] = untouched;
        }
        CHECK(boruvka_places_in(n, base, of.u, m, of.v, m, of.w, m, of.places, count - 1) == BORUVKA_TOO_FEW_PLACES);
        CHECK(of.places[0] == untouched && of.places[count - 1] == untouched && are_those_of(&of, given, m, base));
        CHECK(boruvka_places_in(n, base, of.u, m, of.v, m, of.w, m, of.places, count) == (int64_t)count);
    }
    free_columns(of);
    free(given);
    free(forest);
    free(all);
}

static void compare_places(uint64_t seed, uint32_t n, size_t m, uint64_t weights, uint32_t base) {
    compare_places_of(draw(seed, n, m, weights), n, m, base);
}

/* Lists that an attacker may choose: stars around the first and the last vertex, a path, one arc again and again in both
 * directions, and endpoints and weights that are multiples of large powers of two. Each has all its arcs once in random order,
 * and then all of them reversed, with loops in between. */
static void chosen_places(size_t arcs, int equal) {
    enum { FIRST, LAST, PATH, ONE, POWERS, SHAPES };
    for (int shape = FIRST; shape < SHAPES; shape++) {
        const uint32_t n = shape == POWERS ? (uint32_t)arcs * 64 : (uint32_t)arcs + 1;
        const size_t m = 3 * arcs;
        uint64_t seed = 77;
        struct boruvka_link *given = taken(m, sizeof *given);
        for (size_t i = 0; i < arcs; i++) {
            const uint32_t end = shape == POWERS ? (uint32_t)i * 64 + 64 : (uint32_t)i + 1;
            given[i].low = shape == PATH ? end : shape == LAST ? n : 1;
            given[i].high = shape == PATH ? end + 1 : shape == LAST ? end : shape == ONE ? 2 : shape == FIRST ? end + 1 : end;
            given[i].weight = equal ? -1 : (int64_t)(drawn(&seed) % 1024 << 53);
        }
        for (size_t i = arcs; i > 1; i--) {
            const size_t other = drawn(&seed) % i;
            const struct boruvka_link moved = given[i - 1];
            given[i - 1] = given[other];
            given[other] = moved;
        }
        for (size_t i = 0; i < arcs; i++) {
            const struct boruvka_link back = {given[i].weight, given[i].high, given[i].low}, loop = {INT64_MIN, given[i].low, given[i].low};
            given[arcs + 2 * i] = loop;
            given[arcs + 2 * i + 1] = back;
        }
        compare_places_of(given, n, m, 0);
    }
}

/* So many bytes, whose pages are never touched, or null. */
static void *unread(size_t bytes) {
    void *block = mmap(0, bytes, PROT_READ | PROT_WRITE, MAP_PRIVATE | MAP_ANONYMOUS | MAP_NORESERVE, -1, 0);
    return block == MAP_FAILED ? 0 : block;
}

/* One link more than allowed, or null. */
static struct boruvka_link *too_many(void) {
    return unread((BORUVKA_MAX_LINKS + (size_t)1) * sizeof net[0]);
}

static void expect_places_refused(uint32_t n, uint32_t base, const uint32_t *u, const uint32_t *v, size_t m, int64_t why) {
    static const int64_t w[4] = {5, 4, 3, 2};
    uint32_t places[4] = {untouched, untouched, untouched, untouched};
    CHECK(boruvka_places(n, base, u, v, w, m, places) == why);
    CHECK(places[0] == untouched && places[1] == untouched && places[2] == untouched && places[3] == untouched);
}

static void limits_of_places(void) {
    const uint32_t u[] = {7, 8, 9, 7}, v[] = {8, 9, 7, 7};
    const int64_t w[] = {3, 2, 1, 0};
    uint32_t places[] = {untouched, untouched, untouched};
    CHECK(boruvka_places(0, 7, u, v, w, 0, places) == 0 && boruvka_places(3, 7, u, v, w, 0, places) == 0 && places[0] == untouched);
    CHECK(boruvka_places(3, 7, u, v, w, 4, places) == 2 && places[0] == 2 && places[1] == 1 && places[2] == untouched);
    expect_places_refused(3, 6, u, v, 4, BORUVKA_BAD_END);
    expect_places_refused(3, 8, u, v, 4, BORUVKA_BAD_END);
    expect_places_refused(2, 7, u, v, 4, BORUVKA_BAD_END);
    expect_places_refused(0, 7, u, v, 4, BORUVKA_BAD_END);
    expect_places_refused(BORUVKA_MAX_VERTICES + 1, 8, u, v, 4, BORUVKA_TOO_MANY_VERTICES);
    expect_places_refused(UINT32_MAX, 0, u, v, 4, BORUVKA_TOO_MANY_VERTICES);
    /* the last vertices don't fit 32 bits, and don't wrap around to 0 */
    const uint32_t first[] = {UINT32_MAX, UINT32_MAX - 1}, wrapped[] = {0, UINT32_MAX};
    expect_places_refused(3, UINT32_MAX - 1, first, wrapped, 2, BORUVKA_BAD_END);
    expect_places_refused(BORUVKA_MAX_VERTICES, UINT32_MAX - 1, wrapped, first, 2, BORUVKA_BAD_END);
    CHECK(boruvka_places(3, UINT32_MAX - 1, first + 1, wrapped + 1, w, 1, places) == 1 && places[0] == 0);
    /* one column as all three, since it is only read */
    const void *column = unread((BORUVKA_MAX_LINKS + (size_t)1) * sizeof *w);
    if (column) {
        const size_t m = (size_t)BORUVKA_MAX_LINKS + 1;
        places[0] = untouched;
        CHECK(boruvka_places_in(1, 1, column, m, column, m, column, m, places, 3) == BORUVKA_TOO_MANY_LINKS && places[0] == untouched);
        CHECK(boruvka_places_in(UINT32_MAX, 1, column, m, column, m, column, m, places, 3) == BORUVKA_TOO_MANY_VERTICES && places[0] == untouched);
    }
    for (size_t i = 0; i < 3; i++) {
        places[i] = untouched;
        const size_t lengths[3] = {4 - (i == 0), 4 - (i == 1), 4 - (i == 2)};
        CHECK(boruvka_places_in(UINT32_MAX, 7, u, lengths[0], v, lengths[1], w, lengths[2], places, 3) == BORUVKA_LENGTHS_DIFFER);
        CHECK(places[i] == untouched);
    }
    for (uint64_t seed = 1; seed <= 300; seed++) {
        compare_places(seed, 1 + seed % 60, seed * 7 % 400, seed % 3 ? 1 + seed % 40 : 0, seed % 2 ? 0 : seed % 5 ? 1 : UINT32_MAX - 100);
    }
    for (size_t arcs = 1; arcs <= 100000; arcs = 10 * arcs + 7) {
        chosen_places(arcs, 0);
        chosen_places(arcs, 1);
    }
}

/* The least vertex of each vertex's component, by linking each higher root to the lower one. */
static uint32_t *least_vertices(uint32_t n, const struct boruvka_link *links, size_t k) {
    uint32_t *parents = taken((size_t)n + 1, sizeof *parents);
    for (uint32_t v = 0; v <= n; v++) {
        parents[v] = v;
    }
    for (size_t i = 0; i < k; i++) {
        const uint32_t u = root(parents, links[i].low), v = root(parents, links[i].high);
        parents[u > v ? u : v] = u > v ? v : u;
    }
    for (uint32_t v = 1; v <= n; v++) {
        parents[v] = root(parents, v);
    }
    return parents;
}

static void expect_cycle(uint32_t n, const struct boruvka_link *links, size_t k, uint32_t *label) {
    for (uint32_t v = 0; v < n; v++) {
        label[v] = untouched;
    }
    CHECK(boruvka_labels(n, links, k, label) == BORUVKA_CYCLE);
    for (uint32_t v = 0; v < n; v++) {
        CHECK(label[v] == untouched);
    }
}

/* Compares the labels by parts of a random list's forest, in random order and with endpoints exchanged, with those of
 * union-find. Adding one link to the whole forest is an error. */
static void compare_labels(uint64_t seed, uint32_t n, size_t m, uint64_t weights) {
    struct boruvka_link *given = draw(seed, n, m, weights);
    size_t count;
    struct boruvka_link *links = kruskal(n, given, m, &count);
    uint32_t *label = taken((size_t)n + BEHIND, sizeof *label);
    for (size_t i = 0; i < count; i++) {
        const size_t j = i + drawn(&seed) % (count - i);
        const struct boruvka_link other = links[j];
        links[j] = links[i];
        links[i] = other;
        if (drawn(&seed) % 2) {
            links[i].low = other.high;
            links[i].high = other.low;
        }
    }
    for (size_t part = 0; part <= 4; part++) {
        const size_t k = count * part / 4;
        uint32_t *least = least_vertices(n, links, k);
        for (size_t v = 0; v < (size_t)n + BEHIND; v++) {
            label[v] = untouched;
        }
        CHECK(boruvka_labels(n, links, k, label) == (int64_t)n);
        CHECK(!memcmp(label, least + 1, n * sizeof *label));
        CHECK(label[n] == untouched && label[n + BEHIND - 1] == untouched);
        free(least);
    }
    struct boruvka_link *more = taken(count + 1, sizeof *more);
    memcpy(more, links, count * sizeof *more);
    for (size_t i = 0; i < m && i < 5; i++) {
        more[count] = given[i]; /* a loop, a link of the forest, or one whose ends it joins */
        expect_cycle(n, more, count + 1, label);
    }
    free(more);
    free(label);
    free(given);
    free(links);
}

/* The merges by union-find, whose roots have their clusters' numbers and sizes. */
static struct boruvka_merge *merges_of(uint32_t n, const struct boruvka_link *links, size_t k) {
    uint32_t *parents = taken((size_t)n + 1, sizeof *parents), *number = taken((size_t)n + 1, sizeof *number);
    uint32_t *size = taken((size_t)n + 1, sizeof *size);
    struct boruvka_merge *merges = taken(k, sizeof *merges);
    for (uint32_t v = 0; v <= n; v++) {
        parents[v] = v;
        number[v] = v - 1;
        size[v] = 1;
    }
    for (size_t i = 0; i < k; i++) {
        const uint32_t u = root(parents, links[i].low), v = root(parents, links[i].high);
        const uint32_t one = number[u], other = number[v];
        parents[u] = v;
        size[v] += size[u];
        number[v] = n + (uint32_t)i;
        merges[i] = (struct boruvka_merge){one < other ? one : other, one < other ? other : one, size[v]};
    }
    free(parents);
    free(number);
    free(size);
    return merges;
}

static const struct boruvka_merge no_merge = {untouched, untouched, untouched};

static void expect_no_merges(uint32_t n, const struct boruvka_link *links, size_t k, int64_t refusal) {
    struct boruvka_merge *merges = taken(k, sizeof *merges);
    for (size_t i = 0; i < k; i++) {
        merges[i] = no_merge;
    }
    CHECK(boruvka_merges(n, links, k, merges) == refusal);
    for (size_t i = 0; i < k; i++) {
        CHECK(!memcmp(merges + i, &no_merge, sizeof no_merge));
    }
    free(merges);
}

static void expect_merges(uint32_t n, const struct boruvka_link *links, size_t k) {
    struct boruvka_merge *found = taken(k + BEHIND, sizeof *found), *wanted = merges_of(n, links, k);
    for (size_t i = 0; i < k + BEHIND; i++) {
        found[i] = no_merge;
    }
    CHECK(boruvka_merges(n, links, k, found) == (int64_t)k);
    CHECK(!memcmp(found, wanted, k * sizeof *found));
    CHECK(!memcmp(found + k, &no_merge, sizeof no_merge) && !memcmp(found + k + BEHIND - 1, &no_merge, sizeof no_merge));
    free(found);
    free(wanted);
}

/* Compares the merges of a random list's forest, with endpoints and links of equal weight exchanged, with those of union-find;
 * also of its first half. One link more, or the lightest link at the end, is an error. */
static void compare_merges(uint64_t seed, uint32_t n, size_t m, uint64_t weights) {
    struct boruvka_link *given = draw(seed, n, m, weights);
    size_t count;
    struct boruvka_link *links = kruskal(n, given, m, &count);
    for (size_t i = 0; i < count; i++) {
        const struct boruvka_link own = links[i];
        if (i > 0 && links[i - 1].weight == own.weight && drawn(&seed) % 2) {
            links[i] = links[i - 1];
            links[i - 1] = own;
        }
        if (drawn(&seed) % 2) {
            const uint32_t low = links[i].low;
            links[i].low = links[i].high;
            links[i].high = low;
        }
    }
    expect_merges(n, links, count);
    expect_merges(n, links, count / 2);
    struct boruvka_link *more = taken(count + 1, sizeof *more);
    memcpy(more, links, count * sizeof *more);
    for (size_t i = 0; i < m && i < 5; i++) {
        more[count] = given[i]; /* a loop, a link of the forest, or one whose ends it joins */
        expect_no_merges(n, more, count + 1, BORUVKA_CYCLE);
    }
    if (count > 1 && links[0].weight < links[count - 1].weight) {
        more[count] = links[0];
        expect_no_merges(n, more + 1, count, BORUVKA_DESCENDING);
    }
    free(more);
    free(given);
    free(links);
}

static void limits_of_merges(void) {
    struct boruvka_merge merges[2] = {no_merge, no_merge};
    CHECK(boruvka_merges(0, forest, 0, merges) == 0 && boruvka_merges(3, forest, 0, merges) == 0);
    const struct boruvka_link one[] = {{-4, 2, 1}, {-5, 3, 2}};
    CHECK(boruvka_merges(2, one, 1, merges) == 1);
    CHECK(merges[0].first == 0 && merges[0].second == 1 && merges[0].size == 2);
    CHECK(!memcmp(merges + 1, &no_merge, sizeof no_merge));
    expect_no_merges(3, one, 2, BORUVKA_DESCENDING);
    merges[0] = no_merge;
    CHECK(boruvka_merges_in(3, one, 1, merges, 2) == BORUVKA_LENGTHS_DIFFER);
    CHECK(boruvka_merges_in(3, one, 2, merges, 1) == BORUVKA_LENGTHS_DIFFER && !memcmp(merges, &no_merge, sizeof no_merge));
    const struct boruvka_link bad[][2] = {{{1, 2, 1}, {1, 0, 1}}, {{2, 1, 2}, {1, 4, 3}}, {{1, 1, 1}, {0, 1, 4}}};
    for (size_t i = 0; i < sizeof bad / sizeof *bad; i++) {
        expect_no_merges(3, bad[i], 2, BORUVKA_BAD_END);
    }
    const struct boruvka_link loops[] = {{5, 1, 2}, {4, 3, 3}};
    expect_no_merges(3, loops, 2, BORUVKA_CYCLE);
    expect_no_merges(BORUVKA_MAX_VERTICES + 1, one, 1, BORUVKA_TOO_MANY_VERTICES);
}

/* A path, a star and a random tree of n vertices. */
static void many_merges(uint32_t n) {
    struct boruvka_link *links = taken(n - 1, sizeof *links);
    uint64_t seed = 3;
    for (int kind = 0; kind < 3; kind++) {
        for (uint32_t v = 2; v <= n; v++) {
            const uint32_t from = kind == 0 ? v - 1 : kind == 1 ? 1 : (uint32_t)(1 + drawn(&seed) % (v - 1));
            links[v - 2] = (struct boruvka_link){kind == 1 ? 0 : v, from, v};
        }
        expect_merges(n, links, n - 1);
    }
    free(links);
}

static void limits_of_labels(void) {
    uint32_t label[4] = {untouched, untouched, untouched, untouched};
    CHECK(boruvka_labels(0, forest, 0, label) == 0 && label[0] == untouched);
    CHECK(boruvka_labels(3, forest, 0, label) == 3 && label[0] == 1 && label[1] == 2 && label[2] == 3 && label[3] == untouched);
    const struct boruvka_link bad[][2] = {{{1, 2, 1}, {1, 0, 1}}, {{1, 1, 2}, {1, 4, 3}}};
    label[0] = untouched;
    for (size_t i = 0; i < sizeof bad / sizeof *bad; i++) {
        CHECK(boruvka_labels(3, bad[i], 2, label) == BORUVKA_BAD_END && label[0] == untouched);
    }
    CHECK(boruvka_labels(0, bad[0], 1, label) == BORUVKA_BAD_END);
    uint32_t *wide_label = unread((BORUVKA_MAX_VERTICES + (size_t)1) * sizeof *label);
    struct boruvka_link *many = too_many();
    if (wide_label && many) {
        CHECK(boruvka_labels(BORUVKA_MAX_VERTICES + 1, many, (size_t)BORUVKA_MAX_LINKS + 1, wide_label) == BORUVKA_TOO_MANY_VERTICES);
        CHECK(boruvka_labels(3, many, (size_t)BORUVKA_MAX_LINKS + 1, label) == BORUVKA_TOO_MANY_LINKS && label[0] == untouched);
    }
    /* a triangle and two links between the same vertices are cycles, with equal weights or not */
    const struct boruvka_link triangle[] = {{1, 1, 2}, {1, 2, 3}, {1, 3, 1}}, pair[] = {{1, 1, 2}, {2, 2, 1}}, same[] = {{1, 1, 2}, {5, 3, 2}, {1, 2, 1}}, loop[] = {{1, 3, 3}};
    expect_cycle(3, triangle, 3, label);
    expect_cycle(3, pair, 2, label);
    expect_cycle(3, same, 3, label);
    expect_cycle(3, loop, 1, label);
    for (uint64_t seed = 1; seed <= 300; seed++) {
        compare_labels(seed, 1 + seed % 60, seed * 7 % 400, seed % 3 ? 1 + seed % 40 : 0);
        compare_merges(seed, 1 + seed % 60, seed * 7 % 400, seed % 3 ? 1 + seed % 40 : 0);
    }
}

/* Compares the sum of weights with one that is computed in parts of 32 bits. */
static void compare_total(const struct boruvka_link *links, size_t k) {
    int64_t high = 0, low = 0;
    for (size_t i = 0; i < k; i++) {
        /* -2^63 is -2^31 times 2^32 */
        const int64_t rest = (int64_t)(uint32_t)links[i].weight;
        high += (links[i].weight - rest) / ((int64_t)1 << 32);
        low += rest;
    }
    high += low >> 32;
    struct boruvka_sum total = {1, 1};
    boruvka_total(links, k, &total);
    CHECK(total.low == ((uint64_t)high << 32 | (uint32_t)low));
    CHECK(total.high == high / ((int64_t)1 << 32) - (high % ((int64_t)1 << 32) < 0));
}

static void limits_of_total(void) {
    struct boruvka_link links[] = {{INT64_MIN, 0, 7}, {INT64_MIN, 7, 7}, {INT64_MIN, 1, 2}, {INT64_MAX, 1, 2}, {INT64_MAX, 3, 4}, {INT64_MAX, 3, 4}, {3, 1, 2}};
    struct boruvka_sum total = {1, 1};
    boruvka_total(links, 0, &total);
    CHECK(total.high == 0 && total.low == 0);
    boruvka_total(links, 1, &total);
    CHECK(total.high == -1 && total.low == (uint64_t)1 << 63);
    boruvka_total(links, 3, &total); /* -3 times 2^63 is -2 times 2^64, and 2^63 */
    CHECK(total.high == -2 && total.low == (uint64_t)1 << 63);
    boruvka_total(links, 7, &total);
    CHECK(total.high == 0 && total.low == 0);
    boruvka_total(links + 3, 3, &total); /* 3 times 2^63, less 3 */
    CHECK(total.high == 1 && total.low == ((uint64_t)1 << 63) - 3);
    boruvka_total(forest, 5, &total);
    CHECK(total.high == 0 && total.low == 13);
    for (size_t k = 0; k <= 7; k++) {
        compare_total(links, k);
    }
    struct boruvka_link *many = draw(3, 9, 100000, 0);
    compare_total(many, 100000);
    free(many);
}

/* Compares the first bad link of a random list, and the first bad endpoint of its columns, with those of a plain search. */
static void compare_bad_ends(uint64_t seed, uint32_t n, size_t m) {
    struct boruvka_link *given = draw(seed, n, m, 9);
    struct columns of = columns_of(given, m, (uint32_t)seed);
    CHECK(boruvka_bad_link(n, given, m) == m);
    CHECK(boruvka_bad_end(n, (uint32_t)seed, of.u, m) == m && boruvka_bad_end(n, (uint32_t)seed, of.v, m) == m);
    const uint32_t wrong_ends[] = {0, n + 1, UINT32_MAX};
    for (size_t i = 0; i < m && i < 20; i++) {
        const size_t at = drawn(&seed) % m;
        uint32_t *end = drawn(&seed) % 2 ? &given[at].low : &given[at].high;
        const uint32_t before = *end;
        *end = wrong_ends[i % 3];
        CHECK(boruvka_bad_link(n, given, m) == at);
        *end = before;
    }
    free_columns(of);
    free(given);
}

static void limits_of_ends(void) {
    const struct boruvka_link ends[] = {{1, 1, 2}, {1, 3, 3}, {1, 4, 1}, {1, 1, 0}};
    CHECK(boruvka_bad_link(3, ends, 2) == 2 && boruvka_bad_link(3, ends, 4) == 2 && boruvka_bad_link(4, ends, 4) == 3);
    CHECK(boruvka_bad_link(0, ends, 4) == 0 && boruvka_bad_link(UINT32_MAX, ends, 4) == 3 && boruvka_bad_link(0, ends, 0) == 0);
    const uint32_t column[] = {7, 9, 8, 10, 6, UINT32_MAX, 0};
    CHECK(boruvka_bad_end(3, 7, column, 3) == 3 && boruvka_bad_end(3, 7, column, 7) == 3 && boruvka_bad_end(4, 7, column, 7) == 4);
    CHECK(boruvka_bad_end(3, 8, column, 7) == 0 && boruvka_bad_end(0, 7, column, 7) == 0 && boruvka_bad_end(0, 7, column, 0) == 0);
    /* numbers beyond 32 bits don't wrap around to 0 */
    CHECK(boruvka_bad_end(9, UINT32_MAX, column + 5, 2) == 1 && boruvka_bad_end(UINT32_MAX, 1, column, 7) == 6);
    for (uint64_t seed = 1; seed <= 60; seed++) {
        compare_bad_ends(seed, 1 + (uint32_t)seed % 9, seed * 7 % 100);
    }
    compare_bad_ends(5, 1000, 1000000);
}

/* Such pointers as Go, C# and Java have for empty arrays. */
static void null_pointers(void) {
    uint32_t label[3] = {untouched, untouched, untouched};
    struct boruvka_sum total = {1, 1};
    struct boruvka_fault fault = {1, 1};
    CHECK(boruvka_forest(0, 0, 0) == 0 && boruvka_forest(5, 0, 0) == 0);
    CHECK(boruvka_places(5, 1, 0, 0, 0, 0, 0) == 0 && boruvka_places_in(0, 0, 0, 0, 0, 0, 0, 0, 0, 0) == 0);
    CHECK(boruvka_places_in(6, 0, tails, 8, 0, 0, weights, 8, 0, 0) == BORUVKA_LENGTHS_DIFFER);
    CHECK(boruvka_places_in(6, 0, tails, 8, heads, 8, weights, 8, 0, 0) == BORUVKA_TOO_FEW_PLACES);
    CHECK(boruvka_labels(0, 0, 0, 0) == 0 && boruvka_labels_in(forest, 1, 0, 0) == BORUVKA_BAD_END);
    CHECK(boruvka_labels(3, 0, 0, label) == 3 && label[0] == 1 && label[1] == 2 && label[2] == 3);
    CHECK(boruvka_merges(0, 0, 0, 0) == 0 && boruvka_merges(4, 0, 0, 0) == 0 && boruvka_merges_in(6, forest, 5, 0, 0) == BORUVKA_LENGTHS_DIFFER);
    boruvka_total(0, 0, &total);
    CHECK(total.high == 0 && total.low == 0);
    CHECK(boruvka_bad_link(3, 0, 0) == 0 && boruvka_bad_end(3, 1, 0, 0) == 0);
    CHECK(boruvka_forest_text(0, 0, 0, 0, &fault) == BORUVKA_MISSING_PROBLEM && fault.line == 1);
    CHECK(boruvka_forest_text((const uint8_t *)given_text, sizeof given_text - 1, 0, 0, &fault) == (int64_t)sizeof found_text - 1);
    CHECK(boruvka_fault_text(BORUVKA_NO_MEMORY, 0, 0) == 9);
}

/* An output that overlaps an input is an error, and nothing is written. One that begins where an input ends is allowed. */
static void overlaps(void) {
    enum { ARCS = 4 };
    union {
        uint32_t columns[8 * ARCS];
        int64_t weights[4 * ARCS];
        struct boruvka_link links[2 * ARCS];
    } at, before;
    for (size_t i = 0; i < 8 * ARCS; i++) {
        at.columns[i] = 1 + (uint32_t)(i % 3);
    }
    before = at;
    uint32_t *const middle = at.columns + 2 * ARCS, u[ARCS] = {1, 2, 3, 4}, v[ARCS] = {2, 3, 4, 5};
    const int64_t w[ARCS] = {4, 3, 2, 1};
    for (int step = -2 * ARCS; step <= 2 * ARCS; step++) {
        uint32_t *const places = middle + step;
        const int near = -ARCS < step && step < ARCS;
        CHECK((boruvka_places(5, 1, middle, v, w, ARCS, places) == BORUVKA_OVERLAP) == near);
        CHECK(!near || !memcmp(&at, &before, sizeof at));
        at = before;
        CHECK((boruvka_places(5, 1, u, middle, w, ARCS, places) == BORUVKA_OVERLAP) == near);
        CHECK(!near || !memcmp(&at, &before, sizeof at));
        at = before;
        /* the weights are twice as long */
        const int of_weights = -ARCS < step && step < 2 * ARCS;
        CHECK((boruvka_places(5, 1, u, v, at.weights + ARCS, ARCS, places) == BORUVKA_OVERLAP) == of_weights);
        at = before;
    }
    /* for five vertices four indices are written, for two one, and for none none */
    CHECK(boruvka_places(2, 1, u, v, w, ARCS, u + 3) == BORUVKA_OVERLAP && boruvka_places(0, 1, u, v, w, ARCS, u) == BORUVKA_BAD_END);
    CHECK(boruvka_places(3, 1, u, v, w, 0, u) == 0);
    for (size_t i = 0; i < ARCS; i++) {
        at.links[i] = (struct boruvka_link){.weight = (int64_t)i, .low = (uint32_t)i + 1, .high = (uint32_t)i + 2};
    }
    before = at;
    /* four links have sixteen numbers of 32 bits, and five labels have five */
    uint32_t *const words = at.columns;
    CHECK(boruvka_labels(5, at.links, ARCS, words) == BORUVKA_OVERLAP && boruvka_labels(5, at.links, ARCS, words + 15) == BORUVKA_OVERLAP);
    CHECK(boruvka_labels(5, at.links + 1, 3, words) == BORUVKA_OVERLAP && !memcmp(&at, &before, sizeof at));
    CHECK(boruvka_labels(5, at.links, ARCS, words + 16) == 5 && words[16] == 1 && words[20] == 1);
    at = before;
    struct boruvka_merge *const merges = (struct boruvka_merge *)at.columns;
    CHECK(boruvka_merges(5, at.links, ARCS, merges) == BORUVKA_OVERLAP && boruvka_merges(5, at.links, ARCS, merges + 5) == BORUVKA_OVERLAP);
    CHECK(!memcmp(&at, &before, sizeof at));
    CHECK(boruvka_merges(5, at.links, ARCS, (struct boruvka_merge *)(words + 16)) == ARCS && words[16] == 0 && words[17] == 1);
}

static double double_of(uint64_t bits) {
    double weight;
    memcpy(&weight, &bits, sizeof weight);
    return weight;
}

static uint64_t bits_of(double weight) {
    uint64_t bits;
    memcpy(&bits, &weight, sizeof bits);
    return bits;
}

/* The bits of infinity, and of a sign. */
static const uint64_t infinite = (uint64_t)0x7ff << 52, sign = (uint64_t)1 << 63;

/* (a compiler's options may remove isnan) */
static int is_number(uint64_t bits) {
    return (bits & ~sign) <= infinite;
}

/* Keys are ordered as their doubles are, and a key gives its double back. Every NaN has the same key. */
static void keys(void) {
    const double ascending[] = {-double_of(infinite), -DBL_MAX, -1.5, -1.0, -DBL_MIN, -DBL_MIN / 2, 0.0, DBL_MIN / 2, DBL_MIN, 0.1, 1.0, 1.0 + DBL_EPSILON, DBL_MAX, double_of(infinite)};
    const size_t count = sizeof ascending / sizeof *ascending;
    for (size_t i = 0; i < count; i++) {
        CHECK(i == 0 || boruvka_key(ascending[i - 1]) < boruvka_key(ascending[i]));
        CHECK(boruvka_key(double_of(bits_of(ascending[i]) ^ sign)) == -boruvka_key(ascending[i]) && boruvka_weight(boruvka_key(ascending[i])) == ascending[i]);
    }
    CHECK(boruvka_key(0.0) == 0 && boruvka_key(double_of(sign)) == 0 && bits_of(boruvka_weight(0)) == 0);
    CHECK(boruvka_key(double_of(1)) == 1 && boruvka_key(double_of(sign | 1)) == -1);
    CHECK(boruvka_key(double_of(infinite)) < INT64_MAX && boruvka_key(double_of(sign | infinite)) > BORUVKA_NAN);
    /* the greatest and the least NaN of each sign, and the usual one */
    const uint64_t none[] = {infinite + 1, sign - 1, infinite | (uint64_t)1 << 51, sign | (infinite + 1), UINT64_MAX};
    for (size_t i = 0; i < sizeof none / sizeof *none; i++) {
        CHECK(boruvka_key(double_of(none[i])) == BORUVKA_NAN);
    }
    CHECK(!is_number(bits_of(boruvka_weight(BORUVKA_NAN))));
    uint64_t seed = 5;
    for (int i = 0; i < 1000000; i++) {
        const uint64_t bits = drawn(&seed), others = drawn(&seed);
        const double one = double_of(bits), other = double_of(others);
        if (is_number(bits) && is_number(others)) {
            CHECK((one < other) == (boruvka_key(one) < boruvka_key(other)) && (one == other) == (boruvka_key(one) == boruvka_key(other)));
            CHECK(boruvka_weight(boruvka_key(one)) == one);
        }
    }
}

static void expect_refusal(uint32_t n, const struct boruvka_link *given, size_t m, int64_t why) {
    struct boruvka_link links[4];
    memcpy(links, given, m * sizeof *links);
    CHECK(boruvka_forest(n, links, m) == why);
    CHECK(!memcmp(links, given, m * sizeof *links));
}

static void limits(void) {
    CHECK(boruvka_version() == BORUVKA_VERSION && boruvka_release() == BORUVKA_RELEASE);
    struct boruvka_link none[1] = {{7, 7, 7}};
    CHECK(boruvka_forest(0, none, 0) == 0 && boruvka_forest(5, none, 0) == 0);
    CHECK(none[0].weight == 7 && none[0].low == 7 && none[0].high == 7);
    const struct boruvka_link loops[] = {{3, 2, 2}, {-1, 1, 1}, {3, 2, 2}};
    expect_refusal(2, loops, 3, 0);
    const struct boruvka_link ends[][2] = {{{1, 1, 2}, {1, 0, 1}}, {{1, 1, 2}, {1, 2, 0}}, {{1, 1, 4}, {1, 1, 2}}, {{1, 4, 1}, {1, 2, 1}}, {{1, 0, 0}, {1, 1, 2}}};
    for (size_t i = 0; i < sizeof ends / sizeof *ends; i++) {
        expect_refusal(3, ends[i], 2, BORUVKA_BAD_END);
    }
    expect_refusal(0, loops, 3, BORUVKA_BAD_END);
    expect_refusal(BORUVKA_MAX_VERTICES + 1, ends[0], 2, BORUVKA_TOO_MANY_VERTICES);
    expect_refusal(UINT32_MAX, loops, 3, BORUVKA_TOO_MANY_VERTICES);
    struct boruvka_link *many = too_many();
    if (many) {
        CHECK(boruvka_forest(1, many, (size_t)BORUVKA_MAX_LINKS + 1) == BORUVKA_TOO_MANY_LINKS);
        CHECK(boruvka_forest(UINT32_MAX, many, (size_t)BORUVKA_MAX_LINKS + 1) == BORUVKA_TOO_MANY_VERTICES);
        munmap(many, ((size_t)BORUVKA_MAX_LINKS + 1) * sizeof *many);
    }
    struct boruvka_link links[3];
    memcpy(links, wide, sizeof wide);
    CHECK(boruvka_forest(BORUVKA_MAX_VERTICES, links, 3) == 2);
    CHECK(links[0].weight == INT64_MIN && links[0].low == 1 && links[0].high == BORUVKA_MAX_VERTICES);
    CHECK(links[1].weight == 0 && links[1].low == 2 && links[1].high == BORUVKA_MAX_VERTICES);
    for (uint64_t seed = 1; seed <= 300; seed++) {
        compare(seed, 1 + seed % 60, seed * 7 % 400, seed % 3 ? 1 + seed % 40 : 0);
    }
    limits_of_places();
    limits_of_labels();
    limits_of_merges();
    limits_of_total();
    limits_of_ends();
    null_pointers();
    char text[32];
    for (int64_t kind = -22; kind <= 3; kind++) {
        const size_t length = boruvka_fault_text(kind, text, sizeof text);
        CHECK(length > 0 && length <= 29 && length == strlen(text));
        for (size_t room = 0; room <= sizeof text; room++) {
            char found[sizeof text + 1], wanted[sizeof text + 1];
            memset(found, '*', sizeof found);
            memset(wanted, '*', sizeof wanted);
            CHECK(boruvka_fault_text(kind, found, room) == length);
            CHECK(snprintf(wanted, room, "%s", text) == (int)length);
            CHECK(!memcmp(found, wanted, sizeof found));
        }
        printf("%" PRId64 " %s\n", kind, text);
    }
    memset(text, '*', sizeof text);
    CHECK(boruvka_fault_text(BORUVKA_TOO_MANY_LINKS, text, 9) == 14 && !memcmp(text, "too many\0*", 10));
}

static void *thread(void *seed) {
    for (uint64_t round = 0; round < 40; round++) {
        compare(*(uint64_t *)seed * 1000 + round, 1000, 20000, round % 2 ? 0 : 100);
        compare_places(*(uint64_t *)seed * 1000 + round, 1000, 20000, round % 2 ? 0 : 100, (uint32_t)round);
        compare_labels(*(uint64_t *)seed * 1000 + round, 1000, 20000, round % 2 ? 0 : 100);
    }
    return 0;
}

static void threads(void) {
    pthread_t started[4];
    uint64_t seeds[4] = {11, 12, 13, 14};
    for (int i = 0; i < 4; i++) {
        CHECK(!pthread_create(started + i, 0, thread, seeds + i));
    }
    for (int i = 0; i < 4; i++) {
        CHECK(!pthread_join(started[i], 0));
    }
}

/* Calls with more than a few links and lines. The system ends the process if the stack is too small. */
static void *with_little_stack(void *_) {
    static const int64_t kinds[] = {BORUVKA_BAD_END, 0};
    static char line[64];
    compare(21, 1000, 20000, 0);
    compare_places(21, 1000, 20000, 0, 1);
    compare_labels(21, 1000, 20000, 0);
    compare_total(forest, 5);
    uint8_t *text = taken(20001, sizeof line), *into = taken(20001, sizeof line);
    size_t length = (size_t)sprintf((char *)text, "p sp 20001 20000\n");
    for (int v = 1; v <= 20000; v++) {
        length += (size_t)sprintf((char *)text + length, "a %d %d %d\n", v, v + 1, v);
    }
    struct boruvka_fault fault = {1, 1};
    /* (each lower endpoint comes first, and the weights ascend, so the forest has the text of the file) */
    CHECK(boruvka_forest_text(text, length, into, length, &fault) == (int64_t)length && !memcmp(into, text, length));
    /* the last arc without its weight */
    CHECK(boruvka_forest_text(text, length - 6, into, length, &fault) == BORUVKA_BAD_ARC);
    for (size_t i = 0; i < sizeof kinds / sizeof *kinds; i++) {
        CHECK(boruvka_fault_text(kinds[i], line, sizeof line) == strlen(line));
    }
    free(text);
    free(into);
    return _;
}

static void stack(void) {
    pthread_t started;
    pthread_attr_t how;
    CHECK(!pthread_attr_init(&how) && !pthread_attr_setstacksize(&how, 128 << 10));
    CHECK(!pthread_create(&started, &how, with_little_stack, 0) && !pthread_join(started, 0) && !pthread_attr_destroy(&how));
}

static uint8_t *all_of_input(size_t *length) {
    size_t room = 1 << 16;
    uint8_t *text = taken(room, 1);
    *length = 0;
    for (size_t got; (got = fread(text + *length, 1, room - *length, stdin)) > 0;) {
        *length += got;
        if (*length == room) {
            text = realloc(text, room *= 2);
            CHECK(text != 0);
        }
    }
    return text;
}

static void list(void) {
    uint32_t n;
    size_t m;
    CHECK(scanf("%" SCNu32 " %zu", &n, &m) == 2);
    struct boruvka_link *links = taken(m, sizeof *links);
    for (size_t i = 0; i < m; i++) {
        CHECK(scanf("%" SCNu32 " %" SCNu32 " %" SCNd64, &links[i].low, &links[i].high, &links[i].weight) == 3);
    }
    const int64_t count = boruvka_forest(n, links, m);
    CHECK(count >= 0);
    printf("p sp %" PRIu32 " %" PRId64 "\n", n, count);
    for (int64_t i = 0; i < count; i++) {
        printf("a %" PRIu32 " %" PRIu32 " %" PRId64 "\n", links[i].low, links[i].high, links[i].weight);
    }
    free(links);
}

static void places(uint32_t base) {
    uint32_t n;
    size_t m;
    CHECK(scanf("%" SCNu32 " %zu", &n, &m) == 2);
    struct boruvka_link *given = taken(m, sizeof *given);
    for (size_t i = 0; i < m; i++) {
        CHECK(scanf("%" SCNu32 " %" SCNu32 " %" SCNd64, &given[i].low, &given[i].high, &given[i].weight) == 3);
    }
    struct columns of = columns_of(given, m, base);
    const int64_t count = boruvka_places(n, base, of.u, of.v, of.w, m, of.places);
    CHECK(count >= 0 && are_those_of(&of, given, m, base));
    for (int64_t i = 0; i < count; i++) {
        printf("%" PRIu32 "\n", of.places[i]);
    }
    free_columns(of);
    free(given);
}

static void text(size_t room) {
    size_t length;
    uint8_t *given = all_of_input(&length), *into = taken(room + 64, 1);
    memset(into, '*', room + 64);
    struct boruvka_fault fault = {1, 1};
    const int64_t answer = boruvka_forest_text(given, length, into, room, &fault);
    const size_t written = answer < 0 ? 0 : (size_t)answer < room ? (size_t)answer : room;
    for (size_t i = written; i < room + 64; i++) {
        CHECK(into[i] == '*');
    }
    fwrite(into, 1, written, stdout);
    char why[64];
    boruvka_fault_text(fault.kind, why, sizeof why);
    fprintf(stderr, "%" PRId64 " %" PRId64 " %" PRIu64 " %s\n", answer, fault.kind, fault.line, why);
    free(given);
    free(into);
}

/* Allocates no memory itself. */
static void memory(void) {
    struct boruvka_link links[8];
    memcpy(links, net, sizeof net);
    const int64_t count = boruvka_forest(6, links, 8);
    CHECK(count == BORUVKA_NO_MEMORY || count == 5);
    CHECK(count == 5 ? are_same(links, forest, 5) && are_same(links + 5, net + 5, 3) : are_same(links, net, 8));
    uint8_t into[64] = {0};
    struct boruvka_fault fault = {1, 1};
    const int64_t length = boruvka_forest_text((const uint8_t *)given_text, sizeof given_text - 1, into, sizeof into, &fault);
    CHECK(length == BORUVKA_NO_MEMORY || length == (int64_t)sizeof found_text - 1);
    CHECK(fault.kind == (length < 0 ? length : 0) && fault.line == 0);
    CHECK(length < 0 ? into[0] == 0 : !memcmp(into, found_text, sizeof found_text));
    uint32_t places[8];
    memcpy(places, no_places, sizeof places);
    const int64_t placed = boruvka_places(6, 0, tails, heads, weights, 8, places);
    CHECK(placed == BORUVKA_NO_MEMORY || placed == 5);
    CHECK(!memcmp(places, placed < 0 ? no_places : forest_places, sizeof places));
    uint32_t label[6] = {9, 9, 9, 9, 9, 9};
    const int64_t labelled = boruvka_labels(6, forest, 3, label);
    CHECK(labelled == BORUVKA_NO_MEMORY || labelled == 6);
    CHECK(labelled == 6 ? label[0] == 1 && label[4] == 2 && label[5] == 6 : label[0] == 9 && label[4] == 9 && label[5] == 9);
    static const char some[] = "some out of memory\n", all[] = "all done\n";
    fputs(count < 0 || length < 0 || placed < 0 || labelled < 0 ? some : all, stdout);
}

/* The memory of the process in KiB, without the pages of files, which come and go by themselves. The kernel counts the pages for
 * this figure; its other figures may be out of date. */
static long held(void) {
    static char told[1 << 12];
    const int file = open("/proc/self/smaps_rollup", O_RDONLY);
    const ssize_t length = file < 0 ? -1 : read(file, told, sizeof told - 1);
    CHECK(length > 0 && !close(file));
    told[length] = 0;
    const char *at = strstr(told, "\nAnonymous:");
    CHECK(at != 0);
    return strtol(at + sizeof "\nAnonymous:" - 1, 0, 10);
}

/* Calls it 100 times, and then 10,000 times, after which the process has no more memory. */
static void repeat(const char *what, void (*once)(void)) {
    for (int i = 0; i < 100; i++) {
        once();
    }
    const long before = held();
    for (int i = 0; i < 10000; i++) {
        once();
    }
    const long after = held();
    if (after > before) {
        fprintf(stderr, "embedding.c: %s: %ld KiB are held after 100 times, %ld KiB after 10,100\n", what, before, after);
        exit(1);
    }
}

#define REPEAT(once) repeat(#once, once)

static void a_small_list(void) {
    struct boruvka_link links[8];
    memcpy(links, net, sizeof net);
    CHECK(boruvka_forest(6, links, 8) == 5 && are_same(links, forest, 5) && are_same(links + 5, net + 5, 3));
}

/* Made once, before the repeated calls: a list, its forest, and more links than allowed. */
static struct boruvka_link *drawn_links, *drawn_forest, *many_links;
static size_t drawn_count;
enum { DRAWN_VERTICES = 300, DRAWN_LINKS = 1000 };

static void a_drawn_list(void) {
    static struct boruvka_link links[DRAWN_LINKS];
    memcpy(links, drawn_links, sizeof links);
    CHECK(boruvka_forest(DRAWN_VERTICES, links, DRAWN_LINKS) == (int64_t)drawn_count && are_same(links, drawn_forest, drawn_count));
}

static void a_list_with_a_bad_end(void) {
    expect_refusal(3, net, 4, BORUVKA_BAD_END);
}

static void a_list_of_too_many_vertices(void) {
    expect_refusal(BORUVKA_MAX_VERTICES + 1, net, 4, BORUVKA_TOO_MANY_VERTICES);
}

static void a_list_of_too_many_links(void) {
    CHECK(boruvka_forest(6, many_links, (size_t)BORUVKA_MAX_LINKS + 1) == BORUVKA_TOO_MANY_LINKS);
}

static void a_list_without_memory(void) {
    expect_refusal(BORUVKA_MAX_VERTICES, wide, 3, BORUVKA_NO_MEMORY);
}

static void a_small_lists_places(void) {
    uint32_t places[8];
    memcpy(places, no_places, sizeof places);
    CHECK(boruvka_places(6, 0, tails, heads, weights, 8, places) == 5 && !memcmp(places, forest_places, sizeof places));
}

static void labels(void) {
    uint32_t label[6] = {9, 9, 9, 9, 9, 9};
    CHECK(boruvka_labels(6, net, 8, label) == BORUVKA_CYCLE);
    CHECK(boruvka_labels(5, forest, 5, label) == BORUVKA_BAD_END && label[0] == 9 && label[5] == 9);
    CHECK(boruvka_labels(6, forest, 3, label) == 6 && label[0] == 1 && label[1] == 2 && label[4] == 2 && label[5] == 6);
}

static void a_total(void) {
    struct boruvka_sum total = {1, 1};
    boruvka_total(forest, 5, &total);
    CHECK(total.high == 0 && total.low == 13);
}

static void places_refused(void) {
    uint32_t places[8];
    memcpy(places, no_places, sizeof places);
    CHECK(boruvka_places(5, 0, tails, heads, weights, 8, places) == BORUVKA_BAD_END);
    CHECK(boruvka_places(BORUVKA_MAX_VERTICES + 1, 0, tails, heads, weights, 8, places) == BORUVKA_TOO_MANY_VERTICES);
    CHECK(boruvka_places_in(6, 0, tails, 8, heads, 8, weights, 7, places, 8) == BORUVKA_LENGTHS_DIFFER);
    CHECK(boruvka_places_in(6, 0, tails, 8, heads, 8, weights, 8, places, 4) == BORUVKA_TOO_FEW_PLACES);
    CHECK(!memcmp(places, no_places, sizeof places));
}

static void places_without_memory(void) {
    static const uint32_t from[] = {BORUVKA_MAX_VERTICES, 1, 2}, to[] = {1, BORUVKA_MAX_VERTICES, BORUVKA_MAX_VERTICES};
    static const int64_t weight[] = {9, -9, 0};
    uint32_t places[3] = {9, 9, 9};
    CHECK(boruvka_places(BORUVKA_MAX_VERTICES, 1, from, to, weight, 3, places) == BORUVKA_NO_MEMORY);
    CHECK(places[0] == 9 && places[1] == 9 && places[2] == 9);
}

static void a_text(void) {
    uint8_t into[sizeof found_text] = {0};
    struct boruvka_fault fault = {1, 1};
    CHECK(boruvka_forest_text((const uint8_t *)given_text, sizeof given_text - 1, into, sizeof into, &fault) == (int64_t)sizeof found_text - 1);
    CHECK(!memcmp(into, found_text, sizeof found_text) && fault.kind == 0 && fault.line == 0);
}

static void expect_fault(const char *given, int64_t kind, uint64_t line) {
    uint8_t into[8] = {0};
    struct boruvka_fault fault = {1, 1};
    CHECK(boruvka_forest_text((const uint8_t *)given, strlen(given), into, sizeof into, &fault) == kind);
    CHECK(fault.kind == kind && fault.line == line && into[0] == 0);
}

/* Each error of a line, most of them after valid links. */
static void faulty_texts(void) {
    expect_fault("p sp 3 2\na 1 2 5\nx\n", BORUVKA_UNKNOWN_LINE, 3);
    expect_fault("c\na 1 2 5\n", BORUVKA_NO_PROBLEM_YET, 2);
    expect_fault("p sp 3 2\na 1 2 5\np sp 3 2\n", BORUVKA_SECOND_PROBLEM, 3);
    expect_fault("p sp three 2\n", BORUVKA_BAD_PROBLEM, 1);
    expect_fault("p sp 67108865 2\n", BORUVKA_TOO_LARGE, 1);
    expect_fault("p sp 3 2\na 1 2 5\na 1 2\n", BORUVKA_BAD_ARC, 3);
    expect_fault("p sp 3 2\na 1 2 5\na 1 4 5\n", BORUVKA_END_OUT_OF_RANGE, 3);
    expect_fault("p sp 3 2\na 1 2 5\na 1 2 9223372036854775808\n", BORUVKA_WEIGHT_OUT_OF_RANGE, 3);
    expect_fault("p sp 3 1\na 1 2 5\na 1 3 5\n", BORUVKA_TOO_MANY_ARCS, 3);
    expect_fault("", BORUVKA_MISSING_PROBLEM, 1);
    expect_fault("p sp 3 2\na 1 2 5\n", BORUVKA_MISSING_ARCS, 3);
}

static void a_text_without_memory(void) {
    expect_fault(wide_text, BORUVKA_NO_MEMORY, 0);
}

static void a_refusals_text(void) {
    char into[32];
    CHECK(boruvka_fault_text(BORUVKA_NO_MEMORY, into, sizeof into) == 9 && !strcmp(into, "no memory"));
}

static void no_refusals_text(void) {
    char into[32];
    CHECK(boruvka_fault_text(INT64_MIN, into, sizeof into) == 17 && !strcmp(into, "not an error code"));
}

static void the_version(void) {
    CHECK(boruvka_version() == BORUVKA_VERSION && boruvka_release() == BORUVKA_RELEASE);
}

static void bad_ends(void) {
    CHECK(boruvka_bad_link(5, net, 8) == 5 && boruvka_bad_link(6, net, 8) == 8);
    CHECK(boruvka_bad_end(5, 0, heads, 8) == 5 && boruvka_bad_end(6, 0, heads, 8) == 8);
}

/* Each call with each of its outcomes, except a text of more than 2^40 bytes, which would be too large. */
static void again(void) {
    drawn_links = draw(7, DRAWN_VERTICES, DRAWN_LINKS, 50);
    drawn_forest = kruskal(DRAWN_VERTICES, drawn_links, DRAWN_LINKS, &drawn_count);
    many_links = too_many();
    REPEAT(a_small_list);
    REPEAT(a_drawn_list);
    REPEAT(a_list_with_a_bad_end);
    REPEAT(a_list_of_too_many_vertices);
    if (many_links) {
        REPEAT(a_list_of_too_many_links);
        munmap(many_links, ((size_t)BORUVKA_MAX_LINKS + 1) * sizeof *many_links);
    }
    REPEAT(a_small_lists_places);
    REPEAT(places_refused);
    REPEAT(labels);
    REPEAT(a_total);
    REPEAT(a_text);
    REPEAT(faulty_texts);
    REPEAT(a_refusals_text);
    REPEAT(no_refusals_text);
    REPEAT(the_version);
    REPEAT(bad_ends);
    /* so little memory isn't enough for a table of the most vertices, which is allocated after the links */
    const struct rlimit few = {64 << 20, 64 << 20};
    CHECK(!setrlimit(RLIMIT_AS, &few));
    REPEAT(a_list_without_memory);
    REPEAT(places_without_memory);
    REPEAT(a_text_without_memory);
    free(drawn_links);
    free(drawn_forest);
}

/* Limits the process to so many bytes more than it has now, plus a quarter of a megabyte for malloc's rounding. */
static void leave(size_t bytes) {
    unsigned long pages = 0;
    FILE *file = fopen("/proc/self/statm", "r");
    CHECK(file && fscanf(file, "%lu", &pages) == 1 && !fclose(file));
    const struct rlimit space = {pages * (rlim_t)sysconf(_SC_PAGESIZE) + bytes + (256 << 10), RLIM_INFINITY};
    CHECK(!setrlimit(RLIMIT_AS, &space));
}

/* A call needs 16 bytes per link for its list, 13 more per link, and 12 per vertex. Freed memory is returned at once. */
static void bytes(void) {
    const struct rlimit any = {RLIM_INFINITY, RLIM_INFINITY};
    CHECK(mallopt(M_MMAP_THRESHOLD, 1 << 17));
    for (uint32_t n = 20000; n <= 320000; n *= 16) {
        const size_t m = 4 * (size_t)n, solved = (16 + 13) * m + 12 * (size_t)n;
        struct boruvka_link *given = draw(9, n, m, 1000);
        struct columns of = columns_of(given, m, 1);
        uint32_t *label = taken(n, sizeof *label);
        leave(solved);
        const int64_t count = boruvka_places(n, 1, of.u, of.v, of.w, m, of.places);
        CHECK(0 < count && boruvka_forest(n, given, m) == count);
        CHECK(!setrlimit(RLIMIT_AS, &any));
        leave((16 + 13) * (size_t)count + 12 * (size_t)n);
        CHECK(boruvka_labels(n, given, (size_t)count, label) == n);
        CHECK(!setrlimit(RLIMIT_AS, &any));
        leave(0);
        CHECK(boruvka_places(n, 1, of.u, of.v, of.w, m, of.places) == BORUVKA_NO_MEMORY);
        CHECK(!setrlimit(RLIMIT_AS, &any));
        free(label);
        free_columns(of);
        free(given);
    }
}

int main(int count, char **words) {
    static char buffer[1 << 12];
    setvbuf(stdout, buffer, _IOFBF, sizeof buffer);
    const char *what = count > 1 ? words[1] : "";
    if (!strcmp(what, "list")) {
        list();
    } else if (!strcmp(what, "text") && count > 2) {
        text(strtoul(words[2], 0, 10));
    } else if (!strcmp(what, "places") && count > 2) {
        places((uint32_t)strtoul(words[2], 0, 10));
    } else if (!strcmp(what, "limits")) {
        limits();
    } else if (!strcmp(what, "inlines")) {
        overlaps();
        keys();
    } else if (!strcmp(what, "threads")) {
        threads();
    } else if (!strcmp(what, "stack")) {
        stack();
    } else if (!strcmp(what, "many")) {
        compare(5, 1000000, 10000000, 1000000);
        compare_places(5, 1000000, 10000000, 1000000, 1);
        compare_labels(5, 1000000, 10000000, 1000000);
        compare_merges(5, 1000000, 10000000, 1000000);
        many_merges(1000001);
    } else if (!strcmp(what, "memory")) {
        memory();
    } else if (!strcmp(what, "again")) {
        again();
    } else if (!strcmp(what, "bytes")) {
        bytes();
    } else {
        wrong("a word that it has", __LINE__);
    }
    return 0;
}
