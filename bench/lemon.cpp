// LEMON's push-relabel. With the numbers of arcs as its words it writes the value without each of them in turn, each solved from scratch.
#include "dimacs.hpp"

#include <lemon/preflow.h>
#include <lemon/smart_graph.h>

int main(int count, char **words) {
    dimacs::Clock clock;
    const dimacs::Network network = dimacs::read_network();
    clock.lap("read");
    lemon::SmartDigraph graph;
    graph.reserveNode(static_cast<int>(network.nodes));
    graph.reserveArc(static_cast<int>(network.arcs()));
    for (uint32_t v = 0; v < network.nodes; ++v) graph.addNode();
    const auto node = [&](uint32_t v) { return graph.nodeFromId(static_cast<int>(v - 1)); };
    for (size_t j = 0; j < network.arcs(); ++j) graph.addArc(node(network.tails[j]), node(network.heads[j]));
    lemon::SmartDigraph::ArcMap<int64_t> capacities(graph);
    for (size_t j = 0; j < network.arcs(); ++j) capacities[graph.arcFromId(j)] = network.capacities[j];
    clock.lap("build");
    lemon::Preflow<lemon::SmartDigraph, lemon::SmartDigraph::ArcMap<int64_t>> preflow(
        graph, capacities, node(network.source), node(network.sink));
    preflow.run();
    clock.lap("solve");
    if (count > 1) {
        dimacs::write_cases(clock, count - 1, words + 1, [&](size_t j) {
            const auto arc = graph.arcFromId(static_cast<int>(j));
            const int64_t capacity = capacities[arc];
            capacities[arc] = 0;
            preflow.run();
            capacities[arc] = capacity;
            return preflow.flowValue();
        });
        return 0;
    }
    dimacs::write_solution(network, preflow.flowValue(), [&](size_t j) { return preflow.flow(graph.arcFromId(j)); });
    clock.lap("write");
}
