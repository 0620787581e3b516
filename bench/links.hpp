// What the two yardsticks share: all links of a network by node, labels, and the frame of a run. Both find the flows that
// dmf finds, arc for arc: they augment along shortest paths, of these along the one whose list of ranks is the
// lexicographically least (docs/DEFINITIONS.md, "Solving").
//
// As in Dinic's method, labels found once serve many paths. A link is admissible if it has room and its head's label is
// one less than its tail's. An augmentation takes room from admissible links and gives it to links that are not, so that
// a node's links before its current one stay useless until the labels are computed again.
#pragma once

#include "dimacs.hpp"

using dimacs::Network;
using Node = uint32_t;
using Place = uint32_t;

constexpr uint32_t NO_LABEL = UINT32_MAX;
constexpr Place NO_PLACE = UINT32_MAX;
constexpr uint64_t NO_LIMIT = UINT64_MAX;

// Both steps of each arc that is no self loop, by the node that they leave, those of a node in order of rank. The links of
// v stand at the places from first[v] up to first[v + 1].
struct Links {
    std::vector<Place> first;
    std::vector<Node> heads;
    std::vector<Place> partners; // the other step of the same arc
    std::vector<uint64_t> rooms;
    std::vector<uint8_t> is_entered; // whether the partner has room

    std::vector<Place> places; // by rank: the place of the step along the arc at index j is at 2j, and against it at 2j + 1

    explicit Links(const Network &network) : first(network.nodes + 2), places(2 * network.arcs(), NO_PLACE) {
        const auto for_each_arc = [&](auto visit) {
            for (size_t j = 0; j < network.arcs(); ++j)
                if (network.tails[j] != network.heads[j]) visit(j, network.tails[j], network.heads[j]);
        };
        for_each_arc([&](size_t, Node tail, Node head) { ++first[tail + 1], ++first[head + 1]; });
        for (size_t v = 1; v < first.size(); ++v) first[v] += first[v - 1];
        std::vector<Place> next = first;
        for_each_arc([&](size_t j, Node tail, Node head) {
            places[2 * j] = next[tail]++;
            places[2 * j + 1] = next[head]++;
        });
        // A loop for each vector: writes all over several of them in turn take thrice as long on large networks.
        heads.resize(first.back());
        for_each_arc([&](size_t j, Node tail, Node head) { heads[along(j)] = head, heads[against(j)] = tail; });
        partners.resize(first.back());
        for_each_arc([&](size_t j, Node, Node) { partners[along(j)] = against(j), partners[against(j)] = along(j); });
        rooms.resize(first.back());
        for_each_arc([&](size_t j, Node, Node) { rooms[along(j)] = network.capacities[j]; });
        is_entered.resize(first.back());
        for_each_arc([&](size_t j, Node, Node) { is_entered[against(j)] = network.capacities[j] != 0; });
    }

    Place along(size_t j) const { return places[2 * j]; }
    Place against(size_t j) const { return places[2 * j + 1]; }

    // What flows on the arc at index j.
    uint64_t flow(size_t j) const { return against(j) == NO_PLACE ? 0 : rooms[against(j)]; }

    Node tail(Place place) const { return heads[partners[place]]; }

    // Sends an amount along the link at a place.
    void push(Place place, uint64_t amount) {
        if (amount == 0) return;
        const Place partner = partners[place];
        rooms[place] -= amount;
        rooms[partner] += amount;
        is_entered[place] = 1;
        is_entered[partner] = rooms[place] != 0;
    }
};

// Labels, and where each node's walk stands among its links.
struct Labels {
    Node source, sink;
    std::vector<uint32_t> labels; // how many links there are from a node to the sink
    std::vector<Place> current;
    std::vector<Node> queue;

    explicit Labels(const Network &network)
        : source(network.source), sink(network.sink), labels(network.nodes + 1), current(network.nodes + 1),
          queue(network.nodes) {}

    // Labels nodes by one search backwards from the sink, which ends with the source's label. Whether it got one.
    bool find(const Links &links) {
        std::fill(labels.begin(), labels.end(), NO_LABEL);
        labels[sink] = 0;
        queue[0] = sink;
        size_t filled = 1;
        for (size_t looked = 0; looked < filled; ++looked) {
            const Node head = queue[looked];
            for (Place place = links.first[head]; place < links.first[head + 1]; ++place) {
                const Node tail = links.heads[place];
                if (!links.is_entered[place] || labels[tail] != NO_LABEL) continue;
                labels[tail] = labels[head] + 1;
                current[tail] = links.first[tail];
                if (tail == source) return true;
                queue[filled++] = tail;
            }
        }
        return false;
    }

    // Moves a node's current link on to its next admissible one. Whether there is one.
    bool advance(const Links &links, Node node) {
        const Place end = links.first[node + 1];
        Place place = current[node];
        while (place < end && (links.rooms[place] == 0 || labels[links.heads[place]] != labels[node] - 1)) ++place;
        current[node] = place;
        return place < end;
    }
};

// How often labels were found, how many paths were augmented, and how many links these had together.
struct Counts {
    uint64_t phases = 0, augmentations = 0, links = 0;
};

// Reads a problem, solves it and writes its solution. `Walk(links, labels, counts).augment_all()` augments as long as there
// are paths of admissible links, and gives how much was sent.
template <typename Walk> void run() {
    dimacs::Clock clock;
    const Network network = dimacs::read_network();
    clock.lap("read");
    Links links(network);
    clock.lap("build");
    Labels labels(network);
    Counts counts;
    Walk walk(links, labels, counts);
    uint64_t value = 0;
    for (; labels.find(links); ++counts.phases) value += walk.augment_all();
    clock.lap("solve");
    dimacs::write_solution(network, value, [&](size_t j) { return links.flow(j); });
    clock.lap("write");
    clock.tell("phases " + std::to_string(counts.phases) + " augmentations " + std::to_string(counts.augmentations) +
               " links " + std::to_string(counts.links));
}
