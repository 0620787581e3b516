// Each call of dmf.hpp that may want memory throws std::bad_alloc where each request for it is refused, and leaves the
// session as it was. Prints how many do.
#include <cstdlib>
#include <dmf.hpp>
#include <iostream>

extern "C" {
void *__libc_malloc(std::size_t);
void *__libc_realloc(void *, std::size_t);
}

static bool refuses = false;

extern "C" void *malloc(std::size_t size) { return refuses ? nullptr : __libc_malloc(size); }
extern "C" void *realloc(void *old, std::size_t size) { return refuses ? nullptr : __libc_realloc(old, size); }

template <class Act> static bool is_refused(Act act) {
    refuses = true;
    try {
        act();
    } catch (const std::bad_alloc &) {
        refuses = false;
        return true;
    }
    refuses = false;
    return false;
}

int main() {
    static const char text[] = "p max 4 5\nn 1 s\nn 4 t\na 1 2 3\na 1 3 2\na 2 3 5\na 2 4 2\na 3 4 3\n";
    dmf::session session = dmf::session::read(text);
    int count = 0;
    count += is_refused([] { (void)dmf::session::read(text); });
    count += is_refused([] { dmf::session(2, 1, 2, {1}, {2}, {3}); });
    count += is_refused([&] { session.solve(); });
    const bool unsolved = session.value() == 0 && session.past() == 0;
    session.solve();
    count += is_refused([&] { (void)session.copy(); });
    count += is_refused([&] { session.close(1); });
    count += is_refused([&] { session.shut(2); });
    count += is_refused([&] { (void)session.side(); });
    std::vector<std::uint64_t> of_arcs(5, 9), of_nodes(4, 9);
    count += is_refused([&] { session.arc_losses({1, 2, 3, 4, 5}, of_arcs); });
    count += is_refused([&] { session.node_losses({1, 2, 3, 4}, of_nodes); });
    std::vector<std::uint32_t> firsts(5, 9), seconds(5, 9);
    count += is_refused([&] { session.pair_losses({1, 2}, {3, 3}, {of_arcs.data(), 2}); });
    count += is_refused([&] { (void)session.worst_arcs(firsts, of_arcs); });
    count += is_refused([&] { (void)session.worst_nodes({firsts.data(), 4}, of_nodes); });
    count += is_refused([&] { (void)session.worst_pairs(firsts, seconds, of_arcs); });
    count += is_refused([&] { session.second_gains({1, 2}, {of_arcs.data(), 2}); });
    count += is_refused([&] { session.new_arc_gains({1, 2}, {3, 3}, {4, 4}, {of_arcs.data(), 2}); });
    std::vector<std::uint8_t> marks(4, 9);
    count += is_refused([&] { session.maximum_flow(of_arcs, marks); });
    count += is_refused([&] { (void)session.problem(); });
    count += is_refused([&] { (void)session.solution(); });
    count += is_refused([&] { (void)session.check({3, 2, 1, 2, 3}); });
    count += is_refused([] { dmf::stop(); });
    dmf::stop stop;
    count += is_refused([&] { (void)dmf::stop(stop); });
    count += is_refused([&] { session.solve(stop); });
    count += is_refused([&] { session.arc_losses({1, 2, 3, 4, 5}, of_arcs, stop); });
    count += is_refused([&] { session.node_losses({1, 2, 3, 4}, of_nodes, stop); });
    count += is_refused([&] { session.pair_losses({1, 2}, {3, 3}, {of_arcs.data(), 2}, stop); });
    count += is_refused([&] { (void)session.worst_arcs(firsts, of_arcs, {}, stop); });
    count += is_refused([&] { (void)session.worst_nodes({firsts.data(), 4}, of_nodes, stop); });
    count += is_refused([&] { (void)session.worst_pairs(firsts, seconds, of_arcs, {}, stop); });
    count += is_refused([&] { session.second_gains({1, 2}, {of_arcs.data(), 2}, stop); });
    count += is_refused([&] { session.new_arc_gains({1, 2}, {3, 3}, {4, 4}, {of_arcs.data(), 2}, stop); });
    const bool unwritten = of_arcs == std::vector<std::uint64_t>(5, 9) && of_nodes == std::vector<std::uint64_t>(4, 9) &&
                           marks == std::vector<std::uint8_t>(4, 9) && firsts == std::vector<std::uint32_t>(5, 9) &&
                           seconds == std::vector<std::uint32_t>(5, 9);
    std::cout << count << (unsolved && unwritten && session.value() == 5 && session.past() == 1 ? "\n" : " and a change\n");
}
