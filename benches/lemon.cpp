// Finds the minimum spanning forest of a .gr text with LEMON's reader and its Kruskal algorithm. It reads standard input and
// writes as `boruvka --plain` does, but ties are broken as in LEMON. Needs liblemon-dev.
#include <lemon/core.h>
#include <lemon/dimacs.h>
#include <lemon/kruskal.h>
#include <lemon/smart_graph.h>

#include <iostream>
#include <string>
#include <vector>

using namespace lemon;

int main() {
    std::ios::sync_with_stdio(false);
    std::cin.tie(nullptr);
    SmartDigraph graph;
    SmartDigraph::ArcMap<long> length(graph);
    SmartDigraph::Node source;
    readDimacsSp(std::cin, graph, length, source);
    std::vector<SmartDigraph::Arc> forest;
    kruskal(graph, length, std::back_inserter(forest));
    std::string text = "p sp " + std::to_string(countNodes(graph)) + " " + std::to_string(forest.size()) + "\n";
    long total = 0;
    for (const SmartDigraph::Arc& arc : forest) {
        text += "a " + std::to_string(graph.id(graph.source(arc)) + 1) + " " + std::to_string(graph.id(graph.target(arc)) + 1) + " " +
                std::to_string(length[arc]) + "\n";
        total += length[arc];
    }
    std::cout << text;
    std::cerr << "total=" << total << "\n";
}
