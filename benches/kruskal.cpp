// Reads a .gr text from standard input and writes its minimum spanning forest to standard output: a plain program to compare
// times with.
//
//     c++ -O2 -std=c++17 -o kruskal kruskal.cpp && ./kruskal < graph.gr > forest.gr
//
// It reads and writes in blocks of 64 KiB, sorts with std::sort and joins with union-find. It prints the times of reading,
// solving and writing to standard error, in milliseconds. It trusts its input: the text has to be well-formed.
#include <algorithm>
#include <charconv>
#include <chrono>
#include <cstdint>
#include <cstdio>
#include <string>
#include <tuple>
#include <unistd.h>
#include <utility>
#include <vector>

struct Link {
    int32_t weight;
    uint32_t low, high;

    bool operator<(const Link& other) const {
        return std::tie(weight, low, high) < std::tie(other.weight, other.low, other.high);
    }
};

// Union-find over the vertices 1 to n, by size, with path halving.
class Components {
    std::vector<uint32_t> parents, sizes;

public:
    explicit Components(uint32_t n) : parents(n + 1), sizes(n + 1, 1) {
        for (uint32_t v = 0; v <= n; ++v) parents[v] = v;
    }

    uint32_t find(uint32_t v) {
        while (parents[v] != v) v = parents[v] = parents[parents[v]];
        return v;
    }

    bool join(uint32_t u, uint32_t v) {
        u = find(u);
        v = find(v);
        if (u == v) return false;
        if (sizes[u] < sizes[v]) std::swap(u, v);
        parents[v] = u;
        sizes[u] += sizes[v];
        return true;
    }
};

constexpr size_t block_size = 64 * 1024;

class Reader {
    char block[block_size];
    ssize_t at = 0, len = 0;

public:
    int next() {
        if (at == len) {
            len = read(0, block, block_size);
            at = 0;
            if (len <= 0) {
                len = 0;
                return -1;
            }
        }
        return static_cast<unsigned char>(block[at++]);
    }

    int64_t number() {
        int c = next();
        while (c == ' ' || c == '\t') c = next();
        const bool negative = c == '-';
        if (negative) c = next();
        int64_t value = 0;
        for (; '0' <= c && c <= '9'; c = next()) value = value * 10 + (c - '0');
        last = c;
        return negative ? -value : value;
    }

    // Skip the rest of the line, unless the last number ended it.
    void skip_line(int c) {
        while (c != '\n' && c != -1) c = next();
    }

    int last = 0;
};

struct Graph {
    uint32_t n = 0;
    std::vector<Link> links;
};

static Graph read_graph() {
    static Reader reader;
    Graph graph;
    for (int c = reader.next(); c != -1; c = reader.next()) {
        if (c == 'p') {
            while (c != 's') c = reader.next();
            reader.next();
            graph.n = static_cast<uint32_t>(reader.number());
            graph.links.reserve(static_cast<size_t>(reader.number()));
            reader.skip_line(reader.last);
        } else if (c == 'a') {
            const auto u = static_cast<uint32_t>(reader.number());
            const auto v = static_cast<uint32_t>(reader.number());
            const auto weight = static_cast<int32_t>(reader.number());
            if (u != v) graph.links.push_back({weight, std::min(u, v), std::max(u, v)});
            reader.skip_line(reader.last);
        } else {
            reader.skip_line(c);
        }
    }
    return graph;
}

static std::vector<Link> solve(const Graph& graph) {
    std::vector<Link> sorted = graph.links, taken;
    std::sort(sorted.begin(), sorted.end());
    Components components(graph.n);
    for (const Link& link : sorted)
        if (components.join(link.low, link.high)) taken.push_back(link);
    return taken;
}

static void write_forest(uint32_t n, const std::vector<Link>& forest) {
    std::string block = "p sp " + std::to_string(n) + " " + std::to_string(forest.size()) + "\n";
    block.reserve(block_size + 64);
    const auto flush = [&block] {
        for (size_t at = 0; at < block.size();) {
            const ssize_t took = write(1, block.data() + at, block.size() - at);
            if (took <= 0) _exit(1);
            at += static_cast<size_t>(took);
        }
        block.clear();
    };
    char line[64];
    for (const Link& link : forest) {
        char* at = line;
        *at++ = 'a';
        for (const int64_t field : {int64_t{link.low}, int64_t{link.high}, int64_t{link.weight}}) {
            *at++ = ' ';
            at = std::to_chars(at, line + sizeof line, field).ptr;
        }
        *at++ = '\n';
        block.append(line, static_cast<size_t>(at - line));
        if (block.size() >= block_size) flush();
    }
    flush();
}

int main() {
    using clock = std::chrono::steady_clock;
    const auto start = clock::now();
    const Graph graph = read_graph();
    const auto have_read = clock::now();
    const std::vector<Link> forest = solve(graph);
    const auto have_solved = clock::now();
    write_forest(graph.n, forest);
    const auto done = clock::now();
    const auto ms = [](clock::duration d) { return std::chrono::duration<double, std::milli>(d).count(); };
    std::fprintf(stderr, "read %.2f solve %.2f write %.2f\n", ms(have_read - start), ms(have_solved - have_read), ms(done - have_solved));
}
