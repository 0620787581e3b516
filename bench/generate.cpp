// Writes a problem of a family to standard output: generate FAMILY ARCS SEED. It has about ARCS arcs, and the seed
// determines it. The function of each family says what it is.
#include "dimacs.hpp"

#include <cmath>
#include <utility>

using dimacs::Network;
using Node = uint32_t;

// Numbers that a seed determines (SplitMix64).
class Random {
  public:
    explicit Random(uint64_t seed) : state(seed) {}

    uint64_t below(uint64_t limit) { return (static_cast<unsigned __int128>(next()) * limit) >> 64; }
    uint64_t between(uint64_t least, uint64_t most) { return least + below(most - least + 1); }

    template <typename Item> void shuffle(std::vector<Item> &items) {
        for (size_t i = items.size(); i > 1; --i) std::swap(items[i - 1], items[below(i)]);
    }

  private:
    uint64_t state;

    uint64_t next() {
        uint64_t mixed = state += 0x9e3779b97f4a7c15;
        mixed = (mixed ^ (mixed >> 30)) * 0xbf58476d1ce4e5b9;
        mixed = (mixed ^ (mixed >> 27)) * 0x94d049bb133111eb;
        return mixed ^ (mixed >> 31);
    }
};

// A network whose inner nodes are numbered from 1; the source and the sink come after them.
Network with_terminals(uint64_t inner) {
    Network network;
    network.source = static_cast<Node>(inner + 1);
    network.sink = static_cast<Node>(inner + 2);
    network.nodes = network.sink;
    return network;
}

uint64_t root(double arcs, double power) { return std::max<uint64_t>(2, std::llround(std::pow(arcs, power))); }

// Smooth values from -30 to 30, by place in a picture: between the corners of squares of 32 x 32 pixels on a line.
class Picture {
  public:
    Picture(uint64_t width, Random &random) : across(width / SIDE + 2), corners(across * across) {
        for (int64_t &corner : corners) corner = static_cast<int64_t>(random.below(61)) - 30;
    }

    int64_t at(uint64_t x, uint64_t y) const {
        const int64_t right = x % SIDE, down = y % SIDE, left = SIDE - right, up = SIDE - down;
        const int64_t *corner = &corners[y / SIDE * across + x / SIDE];
        const int64_t upper = corner[0] * left + corner[1] * right;
        const int64_t lower = corner[across] * left + corner[across + 1] * right;
        return (upper * up + lower * down) / (SIDE * SIDE);
    }

  private:
    static constexpr int64_t SIDE = 32;
    uint64_t across;
    std::vector<int64_t> corners;
};

// The cutting of a picture: neighbours are joined both ways, and each pixel with the source or the sink.
Network grid(uint64_t arcs, Random &random) {
    const uint64_t width = root(arcs / 5.0, 0.5);
    Network network = with_terminals(width * width);
    const Picture picture(width, random);
    const auto join = [&](Node one, Node other) {
        network.add(one, other, random.between(5, 30));
        network.add(other, one, random.between(5, 30));
    };
    for (uint64_t y = 0; y < width; ++y)
        for (uint64_t x = 0; x < width; ++x) {
            const Node pixel = static_cast<Node>(y * width + x + 1);
            const int64_t shade = picture.at(x, y) + static_cast<int64_t>(random.below(41)) - 20;
            if (shade > 0) network.add(network.source, pixel, shade);
            else network.add(pixel, network.sink, 1 - shade);
            if (x + 1 < width) join(pixel, pixel + 1);
            if (y + 1 < width) join(pixel, pixel + static_cast<Node>(width));
        }
    return network;
}

// Arcs with any ends, 5 for each node; the source leads to every twentieth node, and other ones lead to the sink.
Network random_ends(uint64_t arcs, Random &random) {
    const uint64_t inner = std::max<uint64_t>(40, arcs / 5);
    Network network = with_terminals(inner);
    for (Node node = 20; node <= inner; node += 20) {
        network.add(network.source, node, random.between(1, 1000));
        network.add(node - 10, network.sink, random.between(1, 1000));
    }
    while (network.arcs() < arcs) {
        const auto tail = static_cast<Node>(random.between(1, inner));
        network.add(tail, static_cast<Node>(random.between(1, inner)), random.between(1, 1000));
    }
    return network;
}

// Streets, of which one in ten is missing, each both ways; 20 depots send to 20 others.
Network road(uint64_t arcs, Random &random) {
    const uint64_t width = root(arcs / 3.6, 0.5);
    const uint64_t inner = width * width;
    Network network = with_terminals(inner);
    for (int depot = 0; depot < 20; ++depot) {
        network.add(network.source, static_cast<Node>(random.between(1, inner)), 1000);
        network.add(static_cast<Node>(random.between(1, inner)), network.sink, 1000);
    }
    const auto street = [&](Node one, Node other) {
        if (random.below(10) == 0) return;
        network.add(one, other, random.between(1, 10));
        network.add(other, one, random.between(1, 10));
    };
    for (uint64_t y = 0; y < width; ++y)
        for (uint64_t x = 0; x < width; ++x) {
            const Node crossing = static_cast<Node>(y * width + x + 1);
            if (x + 1 < width) street(crossing, crossing + 1);
            if (y + 1 < width) street(crossing, crossing + static_cast<Node>(width));
        }
    return network;
}

// Matching: unit capacities, 5 arcs from each node on the left to nodes on the right.
Network bipartite(uint64_t arcs, Random &random) {
    const uint64_t side = std::max<uint64_t>(2, arcs / 7);
    Network network = with_terminals(2 * side);
    for (uint64_t i = 1; i <= side; ++i) network.add(network.source, i, 1);
    for (uint64_t i = 1; i <= side; ++i)
        for (int k = 0; k < 5; ++k) network.add(i, side + random.between(1, side), 1);
    for (uint64_t i = 1; i <= side; ++i) network.add(side + i, network.sink, 1);
    return network;
}

// All pairs: an arc from each node to each later one, from the first node to the last.
Network all_pairs(uint64_t arcs, Random &random) {
    Network network;
    network.nodes = static_cast<Node>(root(2.0 * arcs, 0.5));
    network.source = 1;
    network.sink = network.nodes;
    for (Node tail = 1; tail < network.nodes; ++tail)
        for (Node head = tail + 1; head <= network.nodes; ++head) network.add(tail, head, random.between(1, 1000000));
    return network;
}

// Goldfarb and Grigoriadis: frames of side x side nodes, joined inside by arcs that never bind, and each with the next
// one by a random permutation; from the first node of the first frame to the last node of the last.
Network frames(uint64_t side, uint64_t count, Random &random) {
    const uint64_t size = side * side, ample = 10000 * size;
    Network network;
    network.nodes = static_cast<Node>(size * count);
    network.source = 1;
    network.sink = network.nodes;
    const auto join = [&](Node one, Node other) {
        network.add(one, other, ample);
        network.add(other, one, ample);
    };
    std::vector<Node> targets(size);
    for (size_t i = 0; i < size; ++i) targets[i] = static_cast<Node>(i);
    for (uint64_t frame = 0; frame < count; ++frame) {
        const Node before = static_cast<Node>(frame * size + 1);
        for (Node i = 0; i < size; ++i) {
            if (i % side + 1 < side) join(before + i, before + i + 1);
            if (i + side < size) join(before + i, before + i + static_cast<Node>(side));
        }
        if (frame + 1 == count) break;
        random.shuffle(targets);
        for (Node i = 0; i < size; ++i)
            network.add(before + i, before + static_cast<Node>(size) + targets[i], random.between(1, 10000));
    }
    return network;
}

// Washington's random level graph: 3 arcs from each node to nodes of the next level, the source before the first one, the
// sink after the last.
Network levels(uint64_t width, uint64_t count, Random &random) {
    Network network = with_terminals(width * count);
    for (uint64_t i = 1; i <= width; ++i) network.add(network.source, i, 30000);
    for (uint64_t level = 0; level + 1 < count; ++level)
        for (uint64_t i = 1; i <= width; ++i)
            for (int k = 0; k < 3; ++k)
                network.add(level * width + i, (level + 1) * width + random.between(1, width), random.between(1, 10000));
    for (uint64_t i = 1; i <= width; ++i) network.add((count - 1) * width + i, network.sink, 30000);
    return network;
}

// Streets of a town, each both ways, from all crossings on one side of it to all on the other.
Network street(uint64_t arcs, Random &random) {
    const uint64_t width = root(arcs / 4.0, 0.5), ample = 1000000;
    Network network = with_terminals(width * width);
    const auto join = [&](Node one, Node other) {
        network.add(one, other, random.between(1, 100));
        network.add(other, one, random.between(1, 100));
    };
    for (uint64_t y = 0; y < width; ++y) {
        const Node first = static_cast<Node>(y * width + 1), last = first + static_cast<Node>(width - 1);
        network.add(network.source, first, ample);
        network.add(last, network.sink, ample);
        for (Node crossing = first; crossing <= last; ++crossing) {
            if (crossing < last) join(crossing, crossing + 1);
            if (y + 1 < width) join(crossing, crossing + static_cast<Node>(width));
        }
    }
    return network;
}

// Cherkassky and Goldberg's networks (`ak`), in which a phase of Dinic's algorithm finds at most three paths: two halves side by side,
// with paths of every length. In the first, each node of a chain has a way out to the first node of another chain. The second is a
// ladder: down one chain, over a rung, and back along the other. With 4 k + 6 nodes and 6 k + 7 arcs, the value is 2 k + 3.
Network ladders(uint64_t arcs) {
    const auto k = static_cast<Node>(std::max<uint64_t>(1, (arcs - std::min<uint64_t>(arcs, 7)) / 6));
    Network network = with_terminals(4 * static_cast<uint64_t>(k) + 4);
    // Four chains of k + 1 nodes: the falling one and the level one, and the two of the ladder.
    const auto chain = [k](Node number) { return [=](Node i) { return number * (k + 1) + i + 1; }; };
    const auto a = chain(0), b = chain(1), c = chain(2), d = chain(3);
    network.add(network.source, a(0), k + 2);
    for (Node i = 0; i < k; ++i) {
        network.add(a(i), a(i + 1), k + 1 - i);
        network.add(a(i), b(0), 1);
        network.add(b(i), b(i + 1), k + 1);
    }
    network.add(a(k), b(0), 1);
    network.add(a(k), b(k), 1);
    network.add(b(k), network.sink, k + 2);
    network.add(network.source, c(0), k + 1);
    for (Node i = 0; i < k; ++i) {
        network.add(c(i), c(i + 1), k);
        network.add(d(i + 1), d(i), k);
    }
    for (Node i = 0; i <= k; ++i) network.add(c(i), d(i), 1);
    network.add(d(0), network.sink, k + 1);
    return network;
}

// Two combs: chains whose nodes are joined by teeth of capacity 1, two from each node of the first to any of the second. So paths of
// every length lead through the one arc behind the source and the one before the sink.
Network combs(uint64_t arcs, Random &random) {
    const uint64_t length = std::max<uint64_t>(2, arcs / 4), ample = 2 * length;
    Network network = with_terminals(2 * length);
    network.add(network.source, 1, ample);
    for (uint64_t i = 1; i < length; ++i) {
        network.add(i, i + 1, ample);
        network.add(length + i, length + i + 1, ample);
    }
    for (uint64_t i = 1; i <= length; ++i)
        for (int k = 0; k < 2; ++k) network.add(i, length + random.between(1, length), 1);
    network.add(2 * length, network.sink, ample);
    return network;
}

// Much to read and nothing to solve: arcs with any ends, and a source with one arc, of capacity 1, to the sink.
Network easy(uint64_t arcs, Random &random) {
    const uint64_t inner = std::max<uint64_t>(2, arcs / 5);
    Network network = with_terminals(inner);
    network.add(network.source, network.sink, 1);
    while (network.arcs() < arcs) {
        const auto tail = static_cast<Node>(random.between(1, inner));
        network.add(tail, static_cast<Node>(random.between(1, inner)), random.between(1, 1000));
    }
    return network;
}

// Suppliers, 20 depots and customers: 4 arcs from each supplier to depots, and 4 to each customer from depots. The depots are the
// nodes 1 to 20.
Network depots(uint64_t arcs, Random &random) {
    const uint64_t count = 20, each = std::max<uint64_t>(1, arcs / 10);
    Network network = with_terminals(count + 2 * each);
    const auto depot = [&] { return static_cast<Node>(random.between(1, count)); };
    for (uint64_t i = 1; i <= each; ++i) {
        const auto supplier = static_cast<Node>(count + i), customer = static_cast<Node>(count + each + i);
        network.add(network.source, supplier, random.between(1, 1000));
        network.add(customer, network.sink, random.between(1, 1000));
        for (int k = 0; k < 4; ++k) {
            network.add(supplier, depot(), random.between(1, 1000));
            network.add(depot(), customer, random.between(1, 1000));
        }
    }
    return network;
}

// A hub, node 1: paths of four arcs from the source to the sink, each through the hub and two nodes of its own.
Network hub(uint64_t arcs, Random &random) {
    const uint64_t paths = std::max<uint64_t>(1, arcs / 4);
    Network network = with_terminals(1 + 2 * paths);
    for (uint64_t i = 1; i <= paths; ++i) {
        const uint64_t capacity = random.between(1, 1000);
        const auto before = static_cast<Node>(1 + i), behind = static_cast<Node>(1 + paths + i);
        network.add(network.source, before, capacity);
        network.add(before, 1, capacity);
        network.add(1, behind, capacity);
        network.add(behind, network.sink, capacity);
    }
    return network;
}

Network made(const std::string &family, uint64_t arcs, Random &random) {
    if (family == "grid") return grid(arcs, random);
    if (family == "random") return random_ends(arcs, random);
    if (family == "road") return road(arcs, random);
    if (family == "bip") return bipartite(arcs, random);
    if (family == "ac") return all_pairs(arcs, random);
    if (family == "street") return street(arcs, random);
    if (family == "ak") return ladders(arcs);
    if (family == "combs") return combs(arcs, random);
    if (family == "easy") return easy(arcs, random);
    if (family == "depots") return depots(arcs, random);
    if (family == "hub") return hub(arcs, random);
    // 5 arcs for each node: the side is such that there are side * side frames, or the square root of the side of them.
    const uint64_t long_side = root(arcs / 5.0, 0.25), wide_side = root(arcs / 5.0, 0.4);
    if (family == "rmf-long") return frames(long_side, long_side * long_side, random);
    if (family == "rmf-wide") return frames(wide_side, root(static_cast<double>(wide_side), 0.5), random);
    if (family == "wash-long") return levels(64, std::max<uint64_t>(2, arcs / (3 * 64)), random);
    if (family == "wash-wide") return levels(std::max<uint64_t>(2, arcs / (3 * 64)), 64, random);
    dimacs::fail("unknown family");
}

int main(int count, char **words) {
    if (count != 4) dimacs::fail("usage: generate FAMILY ARCS SEED");
    Random random(std::strtoull(words[3], nullptr, 10));
    const Network network = made(words[1], std::strtoull(words[2], nullptr, 10), random);
    dimacs::Output output;
    output.line("p max", network.nodes, network.arcs());
    output.put("n ");
    output.put(static_cast<uint64_t>(network.source));
    output.put(" s\nn ");
    output.put(static_cast<uint64_t>(network.sink));
    output.put(" t\n");
    for (size_t j = 0; j < network.arcs(); ++j)
        output.line("a", network.tails[j], network.heads[j], network.capacities[j]);
}
