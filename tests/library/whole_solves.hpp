/* Greatest values by whole solves, as Dinic's method finds them. Nothing of the library is used. */
#pragma once

#include <algorithm>
#include <cstddef>
#include <cstdint>
#include <vector>

using Number = std::uint64_t;
using Numbers = std::vector<std::uint32_t>;
using Values = std::vector<Number>;

struct Arc {
    std::uint32_t tail, head;
    Number capacity;
    bool closed;
};

struct Network {
    std::uint32_t nodes, source, sink;
    std::vector<Arc> arcs;
};

/* The residual network of a solve: link i and link i ^ 1 are the two directions of an arc. */
struct Residual {
    struct Link {
        std::uint32_t head;
        Number room;
    };
    static constexpr std::uint32_t UNREACHED = UINT32_MAX;

    std::vector<Link> links;
    std::vector<std::vector<std::size_t>> from;
    Numbers labels;
    std::vector<std::size_t> current; /* of each node: the first of its links that may lead on */

    explicit Residual(const Network &network) : links(), from(network.nodes + 1), labels(), current()
    {
        for (const Arc &arc : network.arcs) {
            if (arc.closed || arc.tail == arc.head)
                continue;
            from[arc.tail].push_back(links.size());
            links.push_back({arc.head, arc.capacity});
            from[arc.head].push_back(links.size());
            links.push_back({arc.tail, 0});
        }
    }

    /* Labels nodes with their distance from the source. Returns true if the sink has one. */
    bool label(std::uint32_t source, std::uint32_t sink)
    {
        labels.assign(from.size(), UNREACHED);
        current.assign(from.size(), 0);
        labels[source] = 0;
        Numbers queue{source};
        for (std::size_t next = 0; next < queue.size() && labels[sink] == UNREACHED; next++)
            for (const std::size_t link : from[queue[next]])
                if (links[link].room > 0 && labels[links[link].head] == UNREACHED) {
                    labels[links[link].head] = labels[queue[next]] + 1;
                    queue.push_back(links[link].head);
                }
        return labels[sink] != UNREACHED;
    }

    /* Sends at most this much from a node to the sink, by links to the next label. */
    Number send(std::uint32_t node, std::uint32_t sink, Number most)
    {
        if (node == sink)
            return most;
        Number sent = 0;
        for (; current[node] < from[node].size(); current[node]++) {
            const std::size_t link = from[node][current[node]];
            if (links[link].room == 0 || labels[links[link].head] != labels[node] + 1)
                continue;
            const Number more = send(links[link].head, sink, std::min(most - sent, links[link].room));
            links[link].room -= more;
            links[link ^ 1].room += more;
            sent += more;
            if (sent == most)
                break;
        }
        return sent;
    }
};

inline Number value_of(const Network &network)
{
    Residual residual(network);
    Number value = 0;
    while (residual.label(network.source, network.sink))
        value += residual.send(network.source, network.sink, UINT64_MAX);
    return value;
}

inline Network without(const Network &network, std::size_t index)
{
    Network rest = network;
    rest.arcs[index].closed = true;
    return rest;
}
