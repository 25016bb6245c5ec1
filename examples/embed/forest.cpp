/* The minimum spanning forest of a small network in memory, printed as `boruvka` prints it.
 *
 * With the static library of a PREFIX:
 *
 *     c++ -std=c++20 -IPREFIX/include -o forest forest.cpp PREFIX/lib/libboruvka.a
 *     ./forest */
#include <boruvka.hpp>
#include <cstdio>

int main() {
    const std::uint32_t vertices = 6;
    /* the endpoints of a link may be in either order */
    std::vector<boruvka_link> links = {
        {.weight = 17, .low = 1, .high = 2}, {.weight = 10, .low = 1, .high = 3}, {.weight = 2, .low = 2, .high = 4},
        {.weight = 0, .low = 3, .high = 5},  {.weight = 0, .low = 4, .high = 3},  {.weight = 3, .low = 4, .high = 6},
        {.weight = 0, .low = 5, .high = 2},  {.weight = 20, .low = 5, .high = 6},
    };
    try {
        const std::span<boruvka_link> found = boruvka::forest(vertices, links);
        std::printf("p sp %u %zu\n", vertices, found.size());
        for (const boruvka_link &link : found) {
            std::printf("a %u %u %lld\n", link.low, link.high, static_cast<long long>(link.weight));
        }
    } catch (const boruvka::refused &why) {
        std::fprintf(stderr, "forest: %s\n", why.what());
        return 1;
    }
}
