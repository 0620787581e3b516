/* Random networks of at most 40 arcs, each in a session: the worth of every arc, node and pair, lists of the worst, and what second and new
 * arcs bring, beside whole solves by this program's own augmenting paths. Or one problem from standard input, however large: the same
 * without pairs and new arcs. Usage: vital_networks NETWORKS SEED, or vital_networks <PROBLEM. Prints how many values were compared
 * and in how many networks flow went round in a cycle, or the first value that differs and its network, and then ends with 1.
 *
 * The random networks have self loops, parallel arcs, arcs into the source and out of the sink, closed arcs, and capacities that are 0, small,
 * large, or add up to 2^64 - 1. Half of them are solved, changed and solved again, some times. One
 * of eight is solved step by step such that flow goes round in a cycle. */
#include "../../bench/dimacs.hpp"
#include "whole_solves.hpp"

#include <dmf.h>

#include <algorithm>
#include <cstdio>
#include <cstdlib>
#include <numeric>
#include <random>
#include <tuple>
#include <vector>

namespace {

std::mt19937_64 drawn;
Number compared = 0, with_cycle = 0;

Number draw(Number limit) { return drawn() % limit; }

std::uint32_t draw_node(std::uint32_t nodes) { return static_cast<std::uint32_t>(1 + draw(nodes)); }

void compare(const Network &network, const char *what, Number place, Number found, Number expected)
{
    compared++;
    if (found == expected)
        return;
    const auto print = [](Number number) { return static_cast<unsigned long long>(number); };
    std::printf("%s %llu: %llu, and not %llu\n", what, print(place), print(found), print(expected));
    std::printf("p max %u %zu\nn %u s\nn %u t\n", network.nodes, network.arcs.size(), network.source, network.sink);
    for (const Arc &arc : network.arcs)
        std::printf("a %u %u %llu%s\n", arc.tail, arc.head, print(arc.capacity), arc.closed ? " closed" : "");
    std::exit(1);
}

void want(enum dmf_status status, const Network &network, const char *what)
{
    compare(network, what, 0, static_cast<Number>(status), DMF_OK);
}

/* ---- The networks -------------------------------------------------------------------------------------------------- */

Number draw_capacity(Number kind, Number left, bool is_last)
{
    switch (kind) {
    case 0:
        return draw(4);
    case 1:
        return draw(1000);
    case 2:
        return draw(Number{1} << 56);
    default: /* all together 2^64 - 1 */
        return is_last ? left : std::min(left, draw(3) == 0 ? 0 : left / (1 + draw(8)));
    }
}

Network random_network()
{
    Network network{static_cast<std::uint32_t>(2 + draw(11)), 0, 0, {}};
    network.source = draw_node(network.nodes);
    do
        network.sink = draw_node(network.nodes);
    while (network.sink == network.source);
    const Number kind = draw(4);
    Number left = UINT64_MAX;
    for (Number more = draw(41); more > 0; more--) {
        const Number capacity = draw_capacity(kind, left, more == 1);
        left -= capacity;
        network.arcs.push_back({draw_node(network.nodes), draw_node(network.nodes), capacity, false});
    }
    return network;
}

dmf_session *opened(const Network &network)
{
    Numbers tails, heads;
    Values capacities;
    for (const Arc &arc : network.arcs) {
        tails.push_back(arc.tail);
        heads.push_back(arc.head);
        capacities.push_back(arc.capacity);
    }
    dmf_session *session = nullptr;
    std::size_t bad_arc = 0;
    want(dmf_session_new(network.nodes, network.source, network.sink, tails.data(), tails.size(), heads.data(), heads.size(),
                         capacities.data(), capacities.size(), 50, &session, &bad_arc),
         network, "opening");
    want(dmf_session_solve(session), network, "solving");
    return session;
}

/* How much may be added to the capacity of one arc. */
Number room(const Network &network)
{
    Number left = UINT64_MAX;
    for (const Arc &arc : network.arcs)
        left -= arc.capacity;
    return left;
}

/* Some changes, and a solve. */
void change(dmf_session *session, Network &network)
{
    for (Number more = draw(6); more > 0 && !network.arcs.empty(); more--) {
        const std::size_t index = draw(network.arcs.size());
        Arc &arc = network.arcs[index];
        const Number act = draw(3);
        if (arc.closed)
            continue;
        if (act == 0) {
            want(dmf_session_close(session, index + 1), network, "closing");
            arc.closed = true;
            arc.capacity = 0;
        } else {
            arc.capacity = act == 1 ? arc.capacity / (1 + draw(3)) : arc.capacity + std::min(room(network), draw(4));
            want(dmf_session_cap(session, index + 1, arc.capacity), network, "another capacity");
        }
    }
    want(dmf_session_solve(session), network, "solving again");
}

/* A ring of inner nodes between which a path leads from the source to the sink at each step round it, and some more arcs. The capacities of
 * the first paths come first, so that the flow on the ring is a cycle unless the other arcs give it another way. */
Network ring_network()
{
    const auto length = static_cast<std::uint32_t>(3 + draw(3));
    Network network{length + 2, length + 1, length + 2, {}};
    const Number capacity = 1 + draw(3);
    for (std::uint32_t v = 1; v <= length; v++) {
        const std::uint32_t next = v % length + 1;
        network.arcs.push_back({network.source, v, capacity, false});
        network.arcs.push_back({v, next, capacity, false});
        network.arcs.push_back({next, network.sink, capacity, false});
    }
    for (Number more = draw(8); more > 0; more--)
        network.arcs.push_back({draw_node(network.nodes), draw_node(network.nodes), draw(3), false});
    return network;
}

/* Opens the network without the capacities of its first arcs, gives these back path by path, and solves each time. */
dmf_session *opened_in_steps(const Network &network)
{
    const std::size_t last = 3 * (network.nodes - 2);
    Network before = network;
    for (std::size_t i = 0; i < last; i++)
        before.arcs[i].capacity = 0;
    dmf_session *session = opened(before);
    for (std::size_t i = 0; i < last; i++) {
        want(dmf_session_cap(session, static_cast<std::uint32_t>(i + 1), network.arcs[i].capacity), network, "a capacity back");
        if (i % 3 == 2)
            want(dmf_session_solve(session), network, "solving again");
    }
    return session;
}

/* Whether some of the flow goes round in a cycle: whether nodes are left once those that no arc with flow enters are taken away, and all
 * arcs out of them. */
bool has_cycle(const dmf_session *session, const Network &network)
{
    Values flows(network.arcs.size());
    want(dmf_session_flows(session, flows.data(), flows.size()), network, "flows");
    std::vector<bool> is_left(network.nodes + 1, true);
    for (bool is_changed = true; is_changed;) {
        std::vector<bool> is_entered(network.nodes + 1, false);
        for (std::size_t i = 0; i < flows.size(); i++)
            if (flows[i] > 0 && is_left[network.arcs[i].tail])
                is_entered[network.arcs[i].head] = true;
        is_changed = is_entered != is_left;
        is_left = is_entered;
    }
    return std::find(is_left.begin(), is_left.end(), true) != is_left.end();
}

/* ---- What is lost -------------------------------------------------------------------------------------------------- */

struct Loss {
    Number loss;
    std::uint32_t first, second;
    bool operator<(const Loss &other) const
    {
        return std::make_tuple(other.loss, first, second) < std::make_tuple(loss, other.first, other.second);
    }
};

/* Lists of several lengths of the worst of these losses. */
template <typename Call> void compare_lists(const Network &network, const char *what, std::vector<Loss> expected, Call call)
{
    std::sort(expected.begin(), expected.end());
    for (const std::size_t most : {std::size_t{0}, std::size_t{1}, std::size_t{3}, expected.size(), expected.size() + 2}) {
        Numbers firsts(most, 99), seconds(most, 99);
        Values losses(most, 99);
        std::size_t found = 99;
        want(call(firsts, seconds, losses, &found), network, what);
        compare(network, what, most, found, std::min(most, expected.size()));
        for (std::size_t i = 0; i < found; i++) {
            compare(network, what, i, losses[i], expected[i].loss);
            compare(network, what, i, firsts[i], expected[i].first);
            if (expected[i].second != 0)
                compare(network, what, i, seconds[i], expected[i].second);
        }
    }
}

/* Some of the arcs, each by a number that is not 0. */
std::vector<std::uint8_t> some_arcs(std::size_t count)
{
    std::vector<std::uint8_t> among(count);
    for (std::uint8_t &one : among)
        one = static_cast<std::uint8_t>(draw(2) * (1 + draw(255)));
    return among;
}

Numbers numbers_to(std::size_t last)
{
    Numbers numbers(last);
    std::iota(numbers.begin(), numbers.end(), 1U);
    return numbers;
}

void compare_arcs(const dmf_session *session, const Network &network, Number value)
{
    const std::size_t count = network.arcs.size();
    const std::vector<std::uint8_t> among = some_arcs(count);
    Values found(count, 99);
    const Numbers numbers = numbers_to(count);
    want(dmf_session_arc_losses(session, numbers.data(), count, found.data(), count), network, "arcs");
    std::vector<Loss> all, some;
    for (std::uint32_t j = 1; j <= count; j++) {
        all.push_back({value - value_of(without(network, j - 1)), j, 0});
        compare(network, "arc", j, found[j - 1], all.back().loss);
        if (among[j - 1] != 0)
            some.push_back(all.back());
    }
    compare_lists(network, "worst arcs", all, [&](Numbers &arcs, Numbers &, Values &losses, std::size_t *size) {
        return dmf_session_worst_arcs(session, nullptr, 0, arcs.data(), arcs.size(), losses.data(), losses.size(), size);
    });
    compare_lists(network, "worst of some arcs", some, [&](Numbers &arcs, Numbers &, Values &losses, std::size_t *size) {
        return dmf_session_worst_arcs(session, among.data(), count, arcs.data(), arcs.size(), losses.data(), losses.size(), size);
    });
}

void compare_nodes(const dmf_session *session, const Network &network, Number value)
{
    Values found(network.nodes, 99);
    const Numbers numbers = numbers_to(network.nodes);
    want(dmf_session_node_losses(session, numbers.data(), network.nodes, found.data(), network.nodes), network, "nodes");
    std::vector<Loss> all;
    for (std::uint32_t v = 1; v <= network.nodes; v++) {
        if (v == network.source || v == network.sink) {
            compare(network, "source or sink", v, found[v - 1], 0);
            continue;
        }
        Network rest = network;
        for (Arc &arc : rest.arcs)
            arc.closed = arc.closed || arc.tail == v || arc.head == v;
        all.push_back({value - value_of(rest), v, 0});
        compare(network, "node", v, found[v - 1], all.back().loss);
    }
    compare_lists(network, "worst nodes", all, [&](Numbers &nodes, Numbers &, Values &losses, std::size_t *size) {
        return dmf_session_worst_nodes(session, nodes.data(), nodes.size(), losses.data(), losses.size(), size);
    });
}

void compare_pairs(const dmf_session *session, const Network &network, Number value)
{
    const std::size_t count = network.arcs.size();
    const std::vector<std::uint8_t> among = some_arcs(count);
    std::vector<Loss> all, some;
    Numbers firsts, seconds;
    Values expected;
    for (std::uint32_t i = 1; i <= count; i++)
        for (std::uint32_t j = i; j <= count; j++) {
            expected.push_back(value - value_of(without(without(network, i - 1), j - 1)));
            firsts.push_back(i);
            seconds.push_back(j);
            if (i == j)
                continue;
            all.push_back({expected.back(), i, j});
            if (among[i - 1] != 0 && among[j - 1] != 0)
                some.push_back(all.back());
        }
    Values found(expected.size(), 99);
    want(dmf_session_pair_losses(session, firsts.data(), firsts.size(), seconds.data(), seconds.size(), found.data(), found.size()), network,
         "pairs");
    for (std::size_t i = 0; i < expected.size(); i++)
        compare(network, "pair", i, found[i], expected[i]);
    compare_lists(network, "worst pairs", all, [&](Numbers &one, Numbers &two, Values &losses, std::size_t *size) {
        return dmf_session_worst_pairs(session, nullptr, 0, one.data(), one.size(), two.data(), two.size(), losses.data(), losses.size(),
                                       size);
    });
    compare_lists(network, "worst pairs of some arcs", some, [&](Numbers &one, Numbers &two, Values &losses, std::size_t *size) {
        return dmf_session_worst_pairs(session, among.data(), count, one.data(), one.size(), two.data(), two.size(), losses.data(),
                                       losses.size(), size);
    });
}

/* ---- What is gained ------------------------------------------------------------------------------------------------ */

/* Whether the network can take four more arcs of each of these capacities. */
bool takes_four(const Network &network, const Values &capacities)
{
    Number left = UINT64_MAX;
    for (const Arc &arc : network.arcs)
        left -= arc.capacity;
    for (const Number capacity : capacities) {
        if (capacity > left / 4)
            return false;
        left -= 4 * capacity;
    }
    return true;
}

/* The gain of each new arc, or an answer that refuses them, and then nothing is written. */
void compare_gains(const Network &network, const char *what, Number value, const std::vector<Arc> &arcs, enum dmf_status status,
                   const Values &found)
{
    Values capacities;
    for (const Arc &arc : arcs)
        capacities.push_back(arc.capacity);
    const bool fit = takes_four(network, capacities);
    compare(network, what, 0, static_cast<Number>(status), fit ? DMF_OK : DMF_SUM_TOO_LARGE);
    for (std::size_t i = 0; i < arcs.size(); i++) {
        Network with = network;
        with.arcs.push_back(arcs[i]);
        compare(network, what, i + 1, found[i], fit ? value_of(with) - value : 99);
    }
}

void compare_seconds(const dmf_session *session, const Network &network, Number value)
{
    const Numbers numbers = numbers_to(network.arcs.size());
    Values found(numbers.size(), 99);
    const enum dmf_status status = dmf_session_second_gains(session, numbers.data(), numbers.size(), found.data(), found.size());
    compare_gains(network, "second arc", value, network.arcs, status, found);
}

void compare_new(const dmf_session *session, const Network &network, Number value)
{
    std::vector<Arc> arcs;
    Numbers tails, heads;
    Values capacities;
    for (Number more = draw(20); more > 0; more--) {
        tails.push_back(draw_node(network.nodes));
        heads.push_back(draw_node(network.nodes));
        capacities.push_back(draw(2) == 0 ? draw(4) : draw(Number{1} << (1 + draw(58))));
        arcs.push_back({tails.back(), heads.back(), capacities.back(), false});
    }
    Values found(arcs.size(), 99);
    const enum dmf_status status = dmf_session_new_arc_gains(session, tails.data(), tails.size(), heads.data(), heads.size(),
                                                             capacities.data(), capacities.size(), found.data(), found.size());
    compare_gains(network, "new arc", value, arcs, status, found);
}

/* ---- What is compared ---------------------------------------------------------------------------------------------- */

Network problem_on_standard_input()
{
    const dimacs::Network problem = dimacs::read_network();
    Network network{problem.nodes, problem.source, problem.sink, {}};
    for (std::size_t j = 0; j < problem.arcs(); j++)
        network.arcs.push_back({problem.tails[j], problem.heads[j], problem.capacities[j], false});
    return network;
}

/* Everything but pairs and new arcs. */
void compare_parts(const dmf_session *session, const Network &network, Number value)
{
    compare(network, "value", 0, dmf_session_value(session), value);
    compare_arcs(session, network, value);
    compare_nodes(session, network, value);
    compare_seconds(session, network, value);
}

void compare_problem(const Network &network)
{
    dmf_session *session = opened(network);
    compare_parts(session, network, value_of(network));
    dmf_session_free(session);
}

void compare_random()
{
    const bool is_ring = draw(8) == 0;
    Network network = is_ring ? ring_network() : random_network();
    dmf_session *session = is_ring ? opened_in_steps(network) : opened(network);
    if (!is_ring)
        for (Number rounds = draw(2) * draw(4); rounds > 0; rounds--)
            change(session, network);
    with_cycle += has_cycle(session, network);
    const Number value = value_of(network);
    compare_parts(session, network, value);
    compare_pairs(session, network, value);
    compare_new(session, network, value);
    dmf_session_free(session);
}

} // namespace

int main(int count, char **words)
{
    if (count == 1) {
        compare_problem(problem_on_standard_input());
    } else if (count == 3) {
        drawn.seed(std::strtoull(words[2], nullptr, 10));
        for (Number left = std::strtoull(words[1], nullptr, 10); left > 0; left--)
            compare_random();
    } else {
        std::fprintf(stderr, "usage: vital_networks NETWORKS SEED, or vital_networks <PROBLEM\n");
        return 2;
    }
    std::printf("%llu %llu\n", static_cast<unsigned long long>(compared), static_cast<unsigned long long>(with_cycle));
    return 0;
}
