/* SPDX-License-Identifier: MIT OR Apache-2.0 */
/* boruvka.hpp: the calls of boruvka.h over spans, for C++20.
 *
 *     std::vector<boruvka_link> links = {
 *         {.weight = 17, .low = 1, .high = 2}, {.weight = 10, .low = 3, .high = 1}, {.weight = 2, .low = 3, .high = 2}};
 *     std::span<boruvka_link> found = boruvka::forest(3, links);
 *
 * Then `found` has two links, {2, 2, 3} and {10, 1, 3}, which are the first elements of `links`.
 *
 * On error a call throws a boruvka::refused. If BORUVKA_EXPECTED is defined, which needs C++23, the call returns the
 * boruvka::refused in a std::expected instead. Files with and without this definition can be linked into one program. In both,
 * a call throws std::bad_alloc if a vector can't be allocated. The comments of boruvka.h list the errors of each call.
 *
 * The calls follow the rules of boruvka.h for pointers and lengths. The caller makes sure that no other thread accesses a span
 * during a call. */
#ifndef BORUVKA_HPP
#define BORUVKA_HPP

#if __cplusplus > 201703L && __has_include(<span>)
#include <span>
#endif
#if defined BORUVKA_EXPECTED && defined __cpp_lib_span && __has_include(<expected>)
#include <expected>
#endif

#ifndef __cpp_lib_span
#error "boruvka.hpp needs C++20 and its <span>: -std=c++20"
#elif defined BORUVKA_EXPECTED && !defined __cpp_lib_expected
#error "BORUVKA_EXPECTED needs std::expected: -std=c++23, and a library that has it"
#else

#include <algorithm>
#include <cstddef>
#include <cstdint>
#include <stdexcept>
#include <string>
#include <type_traits>
#include <vector>

#include "boruvka.h"

namespace boruvka {

/* An error: `why` is its enum boruvka_refusal, what() its text. */
struct refused : std::runtime_error {
    std::int64_t why;

    explicit refused(std::int64_t code) : std::runtime_error(text_of(code)), why(code) {}

    static std::string text_of(std::int64_t code) {
        char text[64];
        return std::string(text, std::min<std::size_t>(boruvka_fault_text(code, text, sizeof text), sizeof text - 1));
    }
};

/* Returns the pointer of a span. The pointer of an empty span may be null, and nothing is proved for null pointers. So an empty
 * span gets a pointer to an unused element. */
template <class T> T *first_of(std::span<T> all) {
    static std::remove_const_t<T> none{};
    return all.empty() ? &none : all.data();
}

/* Returns a number of vertices in 32 bits. A number that doesn't fit, such as a negative one, becomes UINT32_MAX, which is still
 * too large. */
inline std::uint32_t of_32_bits(std::uint64_t n) {
    return static_cast<std::uint32_t>(std::min<std::uint64_t>(n, UINT32_MAX));
}

/* Returns the exact sum of the links' weights. */
inline boruvka_sum total(std::span<const boruvka_link> links) {
    boruvka_sum sum;
    boruvka_total(first_of(links), links.size(), &sum);
    return sum;
}

/* Each of the two ways to return an error has a namespace of its own, so that a linker doesn't mix them up. */
#ifdef BORUVKA_EXPECTED
inline namespace with_expected {
template <class T> using answer = std::expected<T, refused>;
template <class T> answer<T> refuse(std::int64_t code) { return std::unexpected(refused(code)); }
#else
inline namespace with_exceptions {
template <class T> using answer = T;
template <class T> T refuse(std::int64_t code) { throw refused(code); }
#endif

/* Finds the minimum spanning forest of links between the vertices 1 to n. The forest overwrites the first links, and is returned. */
[[nodiscard]] inline answer<std::span<boruvka_link>> forest(std::uint64_t n, std::span<boruvka_link> links) {
    const std::int64_t count = boruvka_forest(of_32_bits(n), first_of(links), links.size());
    if (count < 0) return refuse<std::span<boruvka_link>>(count);
    return links.first(static_cast<std::size_t>(count));
}

/* Returns the indices of the forest's edges. Edge i joins u[i] and v[i] and weighs w[i]; the vertices are base to base + n - 1. */
[[nodiscard]] inline answer<std::vector<std::uint32_t>> places(std::uint64_t n, std::uint64_t base,
                                                               std::span<const std::uint32_t> u, std::span<const std::uint32_t> v,
                                                               std::span<const std::int64_t> w) {
    /* (an endpoint has 32 bits, so it can't be one of these vertices) */
    if (base > UINT32_MAX && n <= BORUVKA_MAX_VERTICES) n = 0;
    std::vector<std::uint32_t> found(std::min<std::uint64_t>(u.size(), n > 0 ? n - 1 : 0));
    const std::int64_t count = boruvka_places_in(of_32_bits(n), of_32_bits(base), first_of(u), u.size(), first_of(v), v.size(),
                                                 first_of(w), w.size(), first_of(std::span(found)), found.size());
    if (count < 0) return refuse<std::vector<std::uint32_t>>(count);
    found.resize(static_cast<std::size_t>(count));
    return found;
}

/* Returns the least vertex of each vertex's component, that of vertex v at v - 1. The links contain no cycle. */
[[nodiscard]] inline answer<std::vector<std::uint32_t>> labels(std::uint64_t n, std::span<const boruvka_link> links) {
    if (n > BORUVKA_MAX_VERTICES) return refuse<std::vector<std::uint32_t>>(BORUVKA_TOO_MANY_VERTICES);
    std::vector<std::uint32_t> found(n);
    const std::int64_t count = boruvka_labels_in(first_of(links), links.size(), first_of(std::span(found)), found.size());
    if (count < 0) return refuse<std::vector<std::uint32_t>>(count);
    return found;
}

/* Returns the merges of n points, as boruvka_merges writes them. The links ascend by weight, and contain no cycle. */
[[nodiscard]] inline answer<std::vector<boruvka_merge>> merges(std::uint64_t n, std::span<const boruvka_link> links) {
    std::vector<boruvka_merge> found(links.size());
    const std::int64_t count = boruvka_merges_in(of_32_bits(n), first_of(links), links.size(), first_of(std::span(found)), found.size());
    if (count < 0) return refuse<std::vector<boruvka_merge>>(count);
    return found;
}

} // inline namespace
} // namespace boruvka

#endif
#endif
