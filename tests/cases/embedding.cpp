/* Calls the built library through boruvka.hpp, with exceptions or, with BORUVKA_EXPECTED, without: a small network, empty spans
 * with null pointers, and errors. If a result is wrong, the program says what was wrong and exits with status 1. */
#include <boruvka.hpp>
#include <cstdio>
#include <cstdlib>
#include <string_view>

#define CHECK(holds) ((holds) ? (void)0 : wrong(#holds, __LINE__))

static void wrong(const char *what, int line) {
    std::fprintf(stderr, "embedding.cpp, line %d: not so: %s\n", line, what);
    std::exit(1);
}

using numbers = std::vector<std::uint32_t>;

/* Whether the call has this error. */
template <class Call> static bool is_refused(std::int64_t why, std::string_view text, Call call) {
#ifdef BORUVKA_EXPECTED
    const auto answer = call();
    return !answer && answer.error().why == why && answer.error().what() == text;
#else
    try {
        call();
        return false;
    } catch (const boruvka::refused &refused) {
        return refused.why == why && refused.what() == text;
    }
#endif
}

template <class T> static T value(T answer) { return answer; }
#ifdef BORUVKA_EXPECTED
template <class T> static T value(std::expected<T, boruvka::refused> answer) { return answer.value(); }
#endif

int main() {
    const numbers u = {1, 1, 2, 3, 4, 4, 5, 5}, v = {2, 3, 4, 5, 3, 6, 2, 6};
    const std::vector<std::int64_t> w = {17, 10, 2, 0, 0, 3, 0, 20};
    std::vector<boruvka_link> net;
    for (std::size_t i = 0; i < w.size(); i++) {
        net.push_back({w[i], u[i], v[i]});
    }
    const std::vector<boruvka_link> given = net;
    const std::span<boruvka_link> forest = value(boruvka::forest(6, net));
    CHECK(forest.size() == 5 && forest.data() == net.data());
    CHECK(forest[0].low == 2 && forest[0].high == 5 && forest[4].weight == 10);
    CHECK(value(boruvka::places(6, 1, u, v, w)) == (numbers{6, 4, 3, 5, 1}));
    CHECK(value(boruvka::labels(6, forest.first(3))) == (numbers{1, 2, 2, 2, 2, 6}));
    CHECK(boruvka::total(forest).high == 0 && boruvka::total(forest).low == 13);
    CHECK(value(boruvka::forest(0, {})).empty() && value(boruvka::places(0, 0, {}, {}, {})).empty());
    CHECK(value(boruvka::labels(0, {})).empty() && value(boruvka::labels(2, {})) == (numbers{1, 2}));
    CHECK(boruvka::total({}).high == 0 && boruvka::total({}).low == 0);
    const std::span<const std::uint32_t> fewer = std::span(u).first(7);
    CHECK(is_refused(BORUVKA_LENGTHS_DIFFER, "array lengths differ", [&] { return boruvka::places(6, 1, fewer, v, w); }));
    CHECK(is_refused(BORUVKA_BAD_END, "an endpoint isn't a vertex", [&] { return boruvka::places(6, 2, u, v, w); }));
    CHECK(is_refused(BORUVKA_CYCLE, "links contain a cycle", [&] { return boruvka::labels(6, given); }));
    CHECK(is_refused(BORUVKA_TOO_MANY_VERTICES, "too many vertices", [&] { return boruvka::labels(BORUVKA_MAX_VERTICES + 1, given); }));
    CHECK(is_refused(BORUVKA_BAD_END, "an endpoint isn't a vertex", [&] { return boruvka::forest(5, net); }));
    /* numbers that would be 6 vertices in 32 bits, or a first vertex of 1, and a negative one */
    for (const long long past : {0x100000000LL, -0x100000000LL}) {
        CHECK(is_refused(BORUVKA_TOO_MANY_VERTICES, "too many vertices", [&] { return boruvka::forest(past + 6, net); }));
        CHECK(is_refused(BORUVKA_TOO_MANY_VERTICES, "too many vertices", [&] { return boruvka::places(past + 6, 1, u, v, w); }));
        CHECK(is_refused(BORUVKA_TOO_MANY_VERTICES, "too many vertices", [&] { return boruvka::places(past + 6, past + 1, u, v, w); }));
        CHECK(is_refused(BORUVKA_BAD_END, "an endpoint isn't a vertex", [&] { return boruvka::places(6, past + 1, u, v, w); }));
        CHECK(is_refused(BORUVKA_LENGTHS_DIFFER, "array lengths differ", [&] { return boruvka::places(past + 6, past + 1, fewer, v, w); }));
        CHECK(is_refused(BORUVKA_TOO_MANY_VERTICES, "too many vertices", [&] { return boruvka::labels(past + 6, forest.first(3)); }));
        CHECK(is_refused(BORUVKA_TOO_MANY_VERTICES, "too many vertices", [&] { return boruvka::merges(past + 6, forest); }));
        CHECK(value(boruvka::places(6, past + 1, {}, {}, {})).empty());
    }
}
