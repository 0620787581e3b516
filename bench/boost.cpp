// Boost's push-relabel (boost push) and its search from both ends by Boykov and Kolmogorov (boost trees), on its graph that
// is quickest to walk: that of compressed rows. Its edges are the links of links.hpp, in their order. With the numbers of arcs behind
// that word it writes the value without each of them in turn, each solved from scratch.
#include "links.hpp"

#include <utility>

#include <boost/graph/boykov_kolmogorov_max_flow.hpp>
#include <boost/graph/compressed_sparse_row_graph.hpp>
#include <boost/graph/push_relabel_max_flow.hpp>
#include <boost/property_map/function_property_map.hpp>

using Graph = boost::compressed_sparse_row_graph<boost::directedS, boost::no_property, boost::no_property,
                                                 boost::no_property, Node, Place>;
using Edge = boost::graph_traits<Graph>::edge_descriptor;

// The edge of the partner of an edge's link.
struct Partner {
    const Links *links;

    Edge operator()(const Edge &edge) const {
        return Edge(links->heads[edge.idx], links->partners[edge.idx]);
    }
};

Graph graph_of(const Links &links, Node nodes) {
    std::vector<std::pair<Node, Node>> ends;
    ends.reserve(links.heads.size());
    for (Place place = 0; place < links.heads.size(); ++place) ends.emplace_back(links.tail(place), links.heads[place]);
    return Graph(boost::edges_are_sorted, ends.begin(), ends.end(), nodes + 1);
}

int main(int count, char **words) {
    if (count < 2) dimacs::fail("usage: boost push|trees [ARC..]");
    dimacs::Clock clock;
    const Network network = dimacs::read_network();
    clock.lap("read");
    const Links links(network);
    const Graph graph = graph_of(links, network.nodes);
    const auto index = boost::get(boost::edge_index, graph);
    const auto vertex = boost::get(boost::vertex_index, graph);
    std::vector<int64_t> capacities(links.rooms.begin(), links.rooms.end());
    std::vector<int64_t> rooms(capacities.size());
    const auto capacity_of = boost::make_iterator_property_map(capacities.begin(), index);
    const auto room_of = boost::make_iterator_property_map(rooms.begin(), index);
    const auto partner_of = boost::make_function_property_map<Edge>(Partner{&links});
    clock.lap("build");
    const bool pushes = std::string(words[1]) == "push";
    const auto solve = [&]() -> int64_t {
        return pushes
                   ? boost::push_relabel_max_flow(graph, network.source, network.sink, capacity_of, room_of, partner_of, vertex)
                   : boost::boykov_kolmogorov_max_flow(graph, capacity_of, room_of, partner_of, vertex, network.source,
                                                       network.sink);
    };
    const int64_t value = solve();
    clock.lap("solve");
    if (count > 2) {
        dimacs::write_cases(clock, count - 2, words + 2, [&](size_t j) {
            const Place along = links.along(j);
            const int64_t capacity = along == NO_PLACE ? 0 : std::exchange(capacities[along], 0);
            const int64_t without = solve();
            if (along != NO_PLACE) capacities[along] = capacity;
            return without;
        });
        return 0;
    }
    dimacs::write_solution(network, value, [&](size_t j) {
        return links.along(j) == NO_PLACE ? 0 : capacities[links.along(j)] - rooms[links.along(j)];
    });
    clock.lap("write");
}
