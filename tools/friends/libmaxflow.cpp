// libmaxflow: the search from both ends by Boykov and Kolmogorov, by its authors. It has no reader, and each node has one arc from
// the source and one to the sink; so arcs with the same ends are added up, as `dmf check` adds up the flows on them. Reads a problem
// on standard input, and writes a solution.
#include <algorithm>
#include <iostream>
#include <map>
#include <sstream>
#include <string>
#include <utility>

#define MAXFLOW_INCLUDE_TEMPLATE_IMPLEMENTATION
#include <maxflow.h>

using Graph = maxflow::Graph<long long, long long, long long>;

int main() {
    int nodes = 0, arcs = 0, source = 0, sink = 0;
    std::map<std::pair<int, int>, long long> capacities;
    for (std::string line; std::getline(std::cin, line);) {
        std::istringstream fields(line);
        std::string kind, word;
        fields >> kind;
        if (kind == "p") {
            fields >> word >> nodes >> arcs;
        } else if (kind == "n") {
            int node;
            fields >> node >> word;
            (word == "s" ? source : sink) = node;
        } else if (kind == "a") {
            int tail, head;
            long long capacity;
            fields >> tail >> head >> capacity;
            capacities[{tail, head}] += capacity;
        }
    }
    const auto capacity = [&](int tail, int head) {
        const auto found = capacities.find({tail, head});
        return found == capacities.end() ? 0 : found->second;
    };

    Graph graph(nodes + 1, arcs);
    graph.add_node(nodes + 1);
    for (int v = 1; v <= nodes; ++v)
        if (v != source && v != sink) graph.add_tweights(v, capacity(source, v), capacity(v, sink));
    for (const auto &[ends, most] : capacities) {
        const auto [tail, head] = ends;
        if (tail != head && tail != source && tail != sink && head != source && head != sink)
            graph.add_edge(tail, head, most, 0);
    }
    std::cout << "s " << capacity(source, sink) + graph.maxflow() << '\n';
    auto arc = graph.get_first_arc();
    for (const auto &[ends, most] : capacities) {
        const auto [tail, head] = ends;
        if (tail == head || head == source || tail == sink) continue;
        // What is left at a node is left of its arc from the source, or below 0 of its arc to the sink.
        long long rest = 0;
        if (tail == source && head != sink) {
            rest = std::max(0LL, graph.get_trcap(head));
        } else if (tail != source && head == sink) {
            rest = std::max(0LL, -graph.get_trcap(tail));
        } else if (tail != source) {
            rest = graph.get_rcap(arc);
            // Each arc is followed by its opposite.
            arc = graph.get_next_arc(graph.get_next_arc(arc));
        }
        std::cout << "f " << tail << ' ' << head << ' ' << most - rest << '\n';
    }
}
