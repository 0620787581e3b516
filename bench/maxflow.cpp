// libmaxflow: the search from both ends by Boykov and Kolmogorov, by its authors. Arcs at the source and the sink are
// capacities of their other end, so it has no flows of them, and only the value is written. With the numbers of arcs as its words it
// writes the value without each of them in turn: it goes on from the flow and the search trees that it has.
#include "dimacs.hpp"

#include <climits>

#define MAXFLOW_INCLUDE_TEMPLATE_IMPLEMENTATION
#include <maxflow.h>

using Graph = maxflow::Graph<int, int64_t, int64_t>;

// Whether an arc can carry nothing, and so is not in the graph.
bool is_left_out(const dimacs::Network &network, size_t j) {
    return network.tails[j] == network.heads[j] || network.heads[j] == network.source || network.tails[j] == network.sink;
}

bool is_straight(const dimacs::Network &network, size_t j) {
    return network.tails[j] == network.source && network.heads[j] == network.sink;
}

// Closes an arc, or opens it again; `step` is the arc in the graph, where it is one there. What flows on an arc that is closed flows on
// from the source to its tail, and from its head to the sink. Gives how much that is: so much more than its value the graph tells from now on.
int64_t put(Graph &graph, const dimacs::Network &network, size_t j, Graph::arc_id step, bool is_open) {
    const int tail = static_cast<int>(network.tails[j]) - 1, head = static_cast<int>(network.heads[j]) - 1;
    const auto capacity = static_cast<int>(network.capacities[j]), more = is_open ? capacity : -capacity;
    int64_t flow = 0;
    if (is_left_out(network, j)) return 0;
    if (is_straight(network, j)) return -more;
    if (network.tails[j] == network.source) {
        graph.add_tweights(head, more, 0);
    } else if (network.heads[j] == network.sink) {
        graph.add_tweights(tail, 0, more);
    } else {
        const Graph::arc_id back = graph.get_next_arc(step);
        flow = graph.get_rcap(back);
        graph.set_rcap(step, is_open ? capacity : 0);
        graph.set_rcap(back, 0);
        graph.add_tweights(tail, flow, 0);
        graph.add_tweights(head, 0, flow);
    }
    for (const uint32_t v : {network.tails[j], network.heads[j]})
        if (v != network.source && v != network.sink) graph.mark_node(static_cast<int>(v - 1));
    return flow;
}

int main(int count, char **words) {
    dimacs::Clock clock;
    const dimacs::Network network = dimacs::read_network();
    clock.lap("read");
    Graph graph(static_cast<int>(network.nodes), static_cast<int>(network.arcs()));
    graph.add_node(static_cast<int>(network.nodes));
    int64_t straight = 0; // what flows from the source to the sink by single arcs
    std::vector<size_t> places(network.arcs()); // of each arc among those of the graph
    size_t added = 0;
    for (size_t j = 0; j < network.arcs(); ++j) {
        const uint32_t tail = network.tails[j], head = network.heads[j];
        if (network.capacities[j] > INT_MAX) dimacs::fail("a capacity is too large for it");
        const auto capacity = static_cast<int>(network.capacities[j]);
        if (is_left_out(network, j)) continue;
        if (is_straight(network, j)) straight += capacity;
        else if (tail == network.source) graph.add_tweights(static_cast<int>(head - 1), capacity, 0);
        else if (head == network.sink) graph.add_tweights(static_cast<int>(tail - 1), 0, capacity);
        else {
            graph.add_edge(static_cast<int>(tail - 1), static_cast<int>(head - 1), capacity, 0);
            places[j] = added++;
        }
    }
    clock.lap("build");
    const int64_t value = straight + graph.maxflow();
    clock.lap("solve");
    if (count > 1) {
        std::vector<Graph::arc_id> steps;
        for (Graph::arc_id step = graph.get_first_arc(); steps.size() < added; step = graph.get_next_arc(graph.get_next_arc(step)))
            steps.push_back(step);
        clock.lap("look");
        dimacs::write_cases(clock, count - 1, words + 1, [&](size_t j) {
            const Graph::arc_id step = steps.empty() ? nullptr : steps[places[j]];
            straight -= put(graph, network, j, step, false);
            const int64_t without = straight + graph.maxflow(true);
            straight -= put(graph, network, j, step, true);
            return without;
        });
        return 0;
    }
    dimacs::Output().line("s", value);
    clock.lap("write");
}
