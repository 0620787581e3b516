// igraph's push-relabel, with the word `value` for the value alone, and with the numbers of arcs behind it for the value without each of
// them in turn, each solved from scratch. It computes with fractions, which are exact up to 2^53.
#include "dimacs.hpp"

#include <cstdio>

#include <igraph.h>

int main(int count, char **words) {
    dimacs::Clock clock;
    const dimacs::Network network = dimacs::read_network();
    clock.lap("read");
    const auto arcs = static_cast<igraph_integer_t>(network.arcs());
    igraph_vector_int_t ends;
    igraph_vector_t capacities, flow;
    igraph_vector_int_init(&ends, 2 * arcs);
    igraph_vector_init(&capacities, arcs);
    igraph_vector_init(&flow, 0);
    for (igraph_integer_t j = 0; j < arcs; ++j) {
        VECTOR(ends)[2 * j] = network.tails[j] - 1;
        VECTOR(ends)[2 * j + 1] = network.heads[j] - 1;
        VECTOR(capacities)[j] = static_cast<double>(network.capacities[j]);
    }
    igraph_t graph;
    igraph_create(&graph, &ends, network.nodes, IGRAPH_DIRECTED);
    igraph_vector_int_destroy(&ends);
    clock.lap("build");
    igraph_real_t value;
    const auto solve = [&] {
        igraph_maxflow_value(&graph, &value, network.source - 1, network.sink - 1, &capacities, nullptr);
    };
    if (count > 2) {
        dimacs::write_cases(clock, count - 2, words + 2, [&](size_t j) {
            VECTOR(capacities)[j] = 0;
            solve();
            VECTOR(capacities)[j] = static_cast<double>(network.capacities[j]);
            return value;
        });
        return 0;
    }
    if (count > 1) {
        solve();
        clock.lap("solve");
        std::printf("s %.0f\n", value);
        return 0;
    }
    igraph_maxflow(&graph, &value, &flow, nullptr, nullptr, nullptr, network.source - 1, network.sink - 1, &capacities,
                   nullptr);
    clock.lap("solve");
    dimacs::write_solution(network, static_cast<uint64_t>(value), [&](size_t j) { return VECTOR(flow)[j]; });
    clock.lap("write");
}
