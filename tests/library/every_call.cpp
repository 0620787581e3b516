// Makes each call of dmf.hpp on the network of examples/a.max, and expects what was worked out by hand. Prints the lines of
// what is wrong.
#include <array>
#include <dmf.hpp>
#include <iostream>
#if __cplusplus >= 202002L
#include <span>
#endif

namespace {
using numbers = std::vector<std::uint64_t>;

int wrong = 0;

void judge(bool holds, int line, const char *what) {
    if (!holds) {
        std::cout << "line " << line << ": " << what << "\n";
        wrong++;
    }
}

#define EXPECT(...) judge((__VA_ARGS__), __LINE__, #__VA_ARGS__)
#define REFUSED(answer, ...) judge(status_of([&] { __VA_ARGS__; }) == dmf::status::answer, __LINE__, #__VA_ARGS__)

template <class Act> dmf::status status_of(Act act) {
    try {
        act();
    } catch (const dmf::error &error) {
        return error.status();
    }
    return dmf::status::ok;
}

template <class Error, class Act> Error thrown(Act act) {
    try {
        act();
    } catch (const Error &error) {
        return error;
    }
    throw std::logic_error("nothing was thrown");
}

constexpr std::uint64_t largest = UINT64_MAX;
const std::string text = "p max 4 5\nn 1 s\nn 4 t\na 1 2 3\na 1 3 2\na 2 3 5\na 2 4 2\na 3 4 3\n";

dmf::session example(std::uint32_t past = dmf::max_past) {
    return dmf::session(4, 1, 4, {1, 1, 2, 2, 3}, {2, 3, 3, 4, 4}, {3, 2, 5, 2, 3}, past);
}

void opening() {
    // A copy takes memory and time, so it is made by copy() alone.
    static_assert(!std::is_copy_constructible_v<dmf::session> && !std::is_copy_assignable_v<dmf::session>);
    static_assert(std::is_nothrow_move_constructible_v<dmf::session> && std::is_nothrow_move_assignable_v<dmf::session>);
    const std::vector<std::uint32_t> tails = {1, 1, 2, 2, 3};
    const std::uint32_t heads[] = {2, 3, 3, 4, 4};
    const std::array<std::uint64_t, 5> capacities = {3, 2, 5, 2, 3};
    EXPECT(dmf::session(4, 1, 4, tails, heads, capacities).problem() == text);
    EXPECT(dmf::session(4, 1, 4, {tails.data(), 5}, {heads, 5}, {capacities.data(), 5}, 1).problem() == text);
#if __cplusplus >= 202002L
    EXPECT(dmf::session(4, 1, 4, std::span(tails), std::span(heads), std::span(capacities)).problem() == text);
#endif
    EXPECT(dmf::session::read(text).problem() == text);
    EXPECT(dmf::session::read(std::string_view(text + "more").substr(0, text.size())).problem() == text);
    REFUSED(bad_length, dmf::session(4, 1, 4, tails, {2, 3}, capacities));
    REFUSED(bad_number, dmf::session(4, 1, 5, tails, heads, capacities));
    REFUSED(bad_number, (void)dmf::session::read(text, dmf::max_past + 1));
    const auto node = thrown<dmf::arc_error>([&] { dmf::session(4, 1, 4, {1, 1}, {2, 5}, {3, 2}); });
    EXPECT(node.status() == dmf::status::no_such_node && node.arc() == 2);
    EXPECT(node.what() == std::string("dmf: arc 2: no such node"));
    const auto sum = thrown<dmf::arc_error>([&] { dmf::session(4, 1, 4, {1, 1, 1}, {2, 2, 2}, {largest, 0, 1}); });
    EXPECT(sum.status() == dmf::status::sum_too_large && sum.arc() == 3);
    const auto line = thrown<dmf::text_error>([&] { (void)dmf::session::read("p max 4 2\nz 1\n"); });
    EXPECT(line.status() == dmf::status::bad_text && line.line() == 2 && line.fault() == dmf::fault::unknown_line);
    EXPECT(line.what() == std::string("dmf: line 2: unknown line"));
    EXPECT(thrown<dmf::text_error>([] { (void)dmf::session::read({}); }).fault() == dmf::fault::problem_line_expected);
}

void reading() {
    dmf::session session = example();
    REFUSED(not_greatest, (void)session.side());
    EXPECT(session.value() == 0 && session.flows() == numbers(5));
    session.solve();
    EXPECT(session.value() == 5 && session.flows() == numbers{3, 2, 1, 2, 3});
    EXPECT(session.capacities() == numbers{3, 2, 5, 2, 3});
    EXPECT(session.side() == std::vector<std::uint8_t>{1, 0, 0, 0});
    EXPECT(session.nodes() == 4 && session.source() == 1 && session.sink() == 4 && session.arcs() == 5);
    EXPECT(session.solution() == "s 5\nf 1 2 3\nf 1 3 2\nf 2 3 1\nf 2 4 2\nf 3 4 3\n");
    std::array<std::uint64_t, 5> into{};
    std::array<std::uint8_t, 4> marks{9, 9, 9, 9};
    session.capacities(into);
    EXPECT(into == std::array<std::uint64_t, 5>{3, 2, 5, 2, 3});
    session.flows({into.data(), into.size()});
    EXPECT(into == std::array<std::uint64_t, 5>{3, 2, 1, 2, 3});
    session.side(marks);
    EXPECT(marks == std::array<std::uint8_t, 4>{1, 0, 0, 0});
    REFUSED(bad_length, session.flows({into.data(), 4}));
    REFUSED(bad_length, session.capacities({into.data(), 4}));
    REFUSED(bad_length, session.side({marks.data(), 3}));
    REFUSED(bad_length, session.flows({}));
    EXPECT(into == std::array<std::uint64_t, 5>{3, 2, 1, 2, 3} && marks[3] == 0);
}

void judging() {
    const dmf::session session = example();
    EXPECT(session.check({3, 2, 1, 2, 3}) && session.check({3, 2, 1, 2, 3}).place == 0);
    const dmf::judgement over = session.check({3, 3, 0, 3, 3}), lost = session.check({3, 2, 0, 2, 3});
    EXPECT(!over && over.status == dmf::status::over_capacity && over.place == 2);
    EXPECT(!lost && lost.status == dmf::status::not_conserved && lost.place == 2);
    EXPECT(session.check(numbers(5)).status == dmf::status::not_greatest);
    REFUSED(bad_length, (void)session.check({1}));
    EXPECT(dmf::session(2, 1, 2, {2}, {1}, {1}).check({1}).status == dmf::status::negative);
}

void changing() {
    dmf::session session = example();
    session.solve();
    session.cap(1, 1);
    session.solve();
    EXPECT(session.value() == 3 && session.capacities()[0] == 1 && session.past() == 3);
    session.undo(2);
    EXPECT(session.value() == 5 && session.past() == 1 && session.future() == 2);
    session.redo();
    EXPECT(session.capacities()[0] == 1 && session.future() == 1);
    session.undo();
    EXPECT(session.add(1, 4, 7) == 6 && session.arcs() == 6 && session.future() == 0);
    session.solve();
    EXPECT(session.value() == 12);
    session.close(6);
    session.shut(2);
    session.solve();
    EXPECT(session.value() == 2 && session.capacities() == numbers{0, 2, 0, 0, 3, 0});
    REFUSED(closed, session.close(6));
    REFUSED(closed, session.cap(1, 1));
    REFUSED(no_such_arc, session.close(7));
    REFUSED(no_such_arc, session.cap(0, 1));
    REFUSED(no_such_node, session.shut(5));
    REFUSED(no_such_node, session.add(1, 5, 1));
    REFUSED(sum_too_large, session.cap(2, largest));
    REFUSED(sum_too_large, session.add(1, 4, largest));
    REFUSED(nothing_to_undo, session.undo(100));
    REFUSED(nothing_to_redo, session.redo());
    EXPECT(session.value() == 2 && session.past() == 6);
    EXPECT(thrown<dmf::error>([&] { session.close(6); }).what() == std::string("dmf: arc is closed"));
}

void running() {
    dmf::session session = example();
    const dmf::run_result all = session.run({{dmf::kind::solve}, {dmf::kind::close, 1}, {dmf::kind::solve}, {dmf::kind::undo, 2}});
    EXPECT(all && all.values == numbers{5, 2, 2, 5} && session.past() == 1 && session.future() == 2);
    const dmf::run_result some = session.run({{dmf::kind::redo, 1}, {dmf::kind::cap, 5, 1}, {dmf::kind::add, 1, 4, 7}, {dmf::kind::shut, 5}, {dmf::kind::solve}});
    EXPECT(!some && some.status == dmf::status::no_such_node && some.values == numbers{2, 1, 1});
    EXPECT(session.past() == 4 && session.future() == 0 && session.arcs() == 6);
    EXPECT(session.run({{static_cast<dmf::kind>(8)}}).status == dmf::status::bad_number && session.run({}));
    EXPECT(session.past() == 4 && session.value() == 1);
}

void owning() {
    dmf::session first = example(), second = example(0);
    first.solve();
    const dmf_session *handle = first.get();
    second = std::move(first);
    EXPECT(second.get() == handle && second.value() == 5);
    dmf::session third(std::move(second));
    EXPECT(third.get() == handle && std::as_const(third).get() == handle);
    first = example();
    EXPECT(first.value() == 0 && dmf_session_solve(first.get()) == DMF_OK && first.value() == 5);
    dmf::session fourth(third.release());
    EXPECT(third.get() == nullptr && fourth.get() == handle && fourth.value() == 5);
}

void copying() {
    dmf::session first = example(2);
    first.solve();
    first.close(4);
    first.undo();
    dmf::session second = std::as_const(first).copy();
    EXPECT(second.get() != first.get() && second.past() == 1 && second.future() == 1);
    EXPECT(second.value() == 5 && second.flows() == numbers{3, 2, 1, 2, 3} && second.problem() == text);
    second.redo();
    EXPECT(second.flows() == numbers{1, 2, 1, 0, 3} && first.flows() == numbers{3, 2, 1, 2, 3});
    second.undo(2);
    for (int solves = 0; solves < 3; solves++)
        second.solve();
    EXPECT(second.past() == 2 && first.past() == 1 && first.future() == 1);
    first = second.copy();
    EXPECT(first.past() == 2 && first.future() == 0);
}

void ranging() {
    dmf::session session = example();
    session.solve();
    session.close(4);
    std::vector<std::uint32_t> tails(3, 9), heads(3, 9);
    std::vector<std::uint64_t> capacities(3, 9), flows(3, 9);
    std::vector<std::uint8_t> closed(3, 9);
    session.arc_range(2, 3, tails, heads, capacities, flows, closed);
    EXPECT(tails == std::vector<std::uint32_t>{1, 2, 2} && heads == std::vector<std::uint32_t>{3, 3, 4});
    EXPECT(capacities == numbers{2, 5, 0} && closed == std::vector<std::uint8_t>{0, 0, 1});
    EXPECT(flows == numbers{2, 1, 0});
    session.arc_range(3, 3, {}, heads);
    EXPECT(heads == std::vector<std::uint32_t>{3, 4, 4} && tails[0] == 1);
    REFUSED(bad_length, session.arc_range(1, 2, tails, {}));
    REFUSED(no_such_arc, session.arc_range(0, 3, tails, {}));
    REFUSED(no_such_arc, session.arc_range(4, 3, tails, {}));
    EXPECT(tails == std::vector<std::uint32_t>{1, 2, 2});
}

bool are(const std::vector<dmf::flow_change> &moved, std::initializer_list<std::array<std::uint64_t, 3>> expected) {
    std::vector<std::array<std::uint64_t, 3>> found;
    for (const dmf::flow_change &change : moved)
        found.push_back({change.arc, change.before, change.after});
    return found == std::vector(expected);
}

void moving() {
    dmf::session session = example();
    REFUSED(nothing_to_undo, (void)session.moved());
    session.solve();
    EXPECT(are(session.moved(), {{1, 0, 3}, {2, 0, 2}, {3, 0, 1}, {4, 0, 2}, {5, 0, 3}}));
    session.close(4);
    EXPECT(are(session.moved(), {{1, 3, 1}, {4, 2, 0}}));
    std::vector<std::uint32_t> arcs(3, 9);
    numbers before(1, 9), after(2, 9);
    EXPECT(session.moved(arcs, before, after) == 2 && before == numbers{3} && after == numbers{1, 0});
    EXPECT(arcs == std::vector<std::uint32_t>{1, 4, 9});
    session.add(1, 4, 7);
    EXPECT(session.moved().empty() && session.moved(arcs, {}, {}) == 0 && arcs[0] == 1);
    session.undo();
    EXPECT(session.moved({}, {}, after) == 2 && session.past() == 2 && session.future() == 1);
}

void losing() {
    dmf::session session = example();
    std::array<std::uint64_t, 5> of_arcs{9, 9, 9, 9, 9};
    std::array<std::uint64_t, 4> of_nodes{9, 9, 9, 9};
    REFUSED(not_greatest, (void)session.arc_losses());
    REFUSED(not_greatest, session.node_losses({1, 2, 3, 4}, of_nodes));
    session.solve();
    EXPECT(session.arc_losses() == numbers{3, 2, 1, 2, 3} && session.node_losses() == numbers{0, 3, 3, 0});
    EXPECT(session.arc_losses({3, 5}) == numbers{1, 3} && session.node_losses({3, 1}) == numbers{3, 0});
    EXPECT(session.arc_losses({}).empty() && session.node_losses({}).empty());
    REFUSED(bad_length, session.arc_losses({1, 2}, of_arcs));
    REFUSED(bad_length, session.node_losses({1, 2}, of_nodes));
    REFUSED(no_such_arc, (void)session.arc_losses({1, 6}));
    REFUSED(no_such_node, (void)session.node_losses({0}));
    EXPECT(of_arcs[0] == 9 && of_nodes[3] == 9);
    session.arc_losses({5, 4, 3, 2, 1}, of_arcs);
    session.node_losses({4, 3, 2, 1}, of_nodes);
    EXPECT(of_arcs == std::array<std::uint64_t, 5>{3, 2, 1, 2, 3} && of_nodes == std::array<std::uint64_t, 4>{0, 3, 3, 0});
    EXPECT(session.value() == 5 && session.past() == 1);
}

void losing_pairs() {
    dmf::session session = example();
    std::array<std::uint64_t, 3> losses{9, 9, 9};
    const std::array<std::uint32_t, 3> firsts{4, 2, 3}, seconds{5, 4, 3};
    REFUSED(not_greatest, (void)session.pair_losses(firsts, seconds));
    session.solve();
    EXPECT(session.pair_losses(firsts, seconds) == numbers{5, 2, 1} && session.pair_losses({}, {}).empty());
    REFUSED(no_such_arc, session.pair_losses(firsts, {5, 4, 6}, losses));
    REFUSED(bad_length, session.pair_losses(firsts, {5, 4}, losses));
    EXPECT(losses[0] == 9);
    session.pair_losses(firsts, seconds, losses);
    EXPECT(losses == std::array<std::uint64_t, 3>{5, 2, 1});
    EXPECT(session.value() == 5 && session.past() == 1);
}

void listing_the_worst() {
    dmf::session session = example();
    std::vector<std::uint32_t> firsts(3, 9), seconds(3, 9);
    numbers losses(3, 9);
    REFUSED(not_greatest, (void)session.worst_arcs(firsts, losses));
    session.solve();
    REFUSED(bad_length, (void)session.worst_arcs({firsts.data(), 2}, losses));
    REFUSED(bad_length, (void)session.worst_nodes(firsts, {losses.data(), 2}));
    REFUSED(bad_length, (void)session.worst_pairs(firsts, {seconds.data(), 2}, losses));
    EXPECT(firsts == std::vector<std::uint32_t>(3, 9) && losses == numbers(3, 9));
    EXPECT(session.worst_nodes(firsts, losses) == 2);
    EXPECT(firsts == std::vector<std::uint32_t>{2, 3, 9} && losses == numbers{3, 3, 9});
    EXPECT(session.worst_arcs(firsts, losses) == 3);
    EXPECT(firsts == std::vector<std::uint32_t>{1, 5, 2} && losses == numbers{3, 3, 2});
    EXPECT(session.worst_pairs(firsts, seconds, losses) == 3 && losses == numbers{5, 5, 5});
    EXPECT(firsts == std::vector<std::uint32_t>{1, 1, 4} && seconds == std::vector<std::uint32_t>{2, 5, 5});
    // Only arcs 1, 4 and 5.
    const std::array<std::uint8_t, 5> among{1, 0, 0, 255, 2};
    REFUSED(bad_length, (void)session.worst_arcs(firsts, losses, {among.data(), 4}));
    REFUSED(bad_length, (void)session.worst_pairs(firsts, seconds, losses, {among.data(), 1}));
    EXPECT(session.worst_arcs(firsts, losses, among) == 3);
    EXPECT(firsts == std::vector<std::uint32_t>{1, 5, 4} && losses == numbers{3, 3, 2});
    EXPECT(session.worst_pairs(firsts, seconds, losses, among) == 3 && losses == numbers{5, 5, 3});
    EXPECT(firsts == std::vector<std::uint32_t>{1, 4, 1} && seconds == std::vector<std::uint32_t>{5, 5, 4});
    EXPECT(session.value() == 5 && session.past() == 1);
}

void gaining() {
    dmf::session session = example();
    const std::array<std::uint32_t, 3> arcs{4, 5, 1}, tails{3, 1, 4}, heads{4, 4, 1};
    const std::array<std::uint64_t, 3> capacities{9, 5, 9};
    std::array<std::uint64_t, 3> gains{9, 9, 9};
    session.cap(5, 1);
    REFUSED(not_greatest, (void)session.second_gains(arcs));
    REFUSED(not_greatest, (void)session.new_arc_gains(tails, heads, capacities));
    session.solve();
    // Three arrive. Node 2 gets three, of which arc 4 takes two and arc 5 one; node 3 gets two of its own.
    EXPECT(session.second_gains(arcs) == numbers{1, 1, 0} && session.second_gains({}).empty());
    EXPECT(session.new_arc_gains(tails, heads, capacities) == numbers{2, 5, 0} && session.new_arc_gains({}, {}, {}).empty());
    REFUSED(no_such_arc, session.second_gains({5, 4, 6}, gains));
    REFUSED(bad_length, session.second_gains({5, 4}, gains));
    REFUSED(no_such_node, session.new_arc_gains({1, 5, 1}, heads, capacities, gains));
    REFUSED(bad_length, session.new_arc_gains(tails, heads, {1, 2}, gains));
    REFUSED(sum_too_large, session.new_arc_gains(tails, heads, {1, std::uint64_t(-1), 1}, gains));
    EXPECT(gains[0] == 9);
    session.second_gains(arcs, gains);
    EXPECT(gains == std::array<std::uint64_t, 3>{1, 1, 0});
    session.new_arc_gains(tails, heads, capacities, gains);
    EXPECT(gains == std::array<std::uint64_t, 3>{2, 5, 0});
    EXPECT(session.value() == 3 && session.past() == 2);
}

void finding() {
    dmf::session session = example();
    std::array<std::uint64_t, 5> flows{9, 9, 9, 9, 9};
    std::array<std::uint8_t, 4> side{9, 9, 9, 9};
    REFUSED(bad_length, session.maximum_flow({flows.data(), 4}));
    REFUSED(bad_length, session.maximum_flow({}, {side.data(), 3}));
    EXPECT(session.maximum_flow() == 5 && session.maximum_flow({}, side) == 5);
    EXPECT(flows[0] == 9 && side == std::array<std::uint8_t, 4>{1, 0, 0, 0});
    EXPECT(session.maximum_flow(flows) == 5 && flows == std::array<std::uint64_t, 5>{3, 2, 1, 2, 3});
    EXPECT(session.value() == 0 && session.past() == 0);
}

// A copy of a stop holds the same flag. A flag that is raised ends each solve, until it is taken down.
void stopping() {
    dmf::session session = example();
    dmf::stop stop, another;
    dmf::stop copy = stop, moved = std::move(another);
    session.solve(copy);
    EXPECT(session.value() == 5 && session.past() == 1);
    session.undo();
    copy.raise();
    REFUSED(stopped, session.solve(stop));
    REFUSED(stopped, session.solve(copy));
    EXPECT(session.value() == 0 && session.past() == 0 && session.future() == 1);
    session.solve(moved);
    EXPECT(session.value() == 5 && session.past() == 1);
    moved = copy;
    REFUSED(stopped, session.solve(moved));
    stop.clear();
    session.solve(moved);
    EXPECT(session.value() == 5 && session.past() == 2);
}

// A raised flag also ends each question that takes a stop, and nothing is written. Otherwise the answer is that of the plain call.
void stopping_questions() {
    dmf::session session = example();
    session.cap(5, 1);
    session.solve();
    dmf::stop stop, raised;
    raised.raise();
    const std::array<std::uint32_t, 2> arcs{4, 5}, tails{3, 1}, heads{4, 4};
    const std::array<std::uint64_t, 2> capacities{9, 5};
    std::array<std::uint32_t, 2> first{9, 9}, second{9, 9};
    std::array<std::uint64_t, 2> found{9, 9};
    REFUSED(stopped, session.arc_losses(arcs, found, raised));
    REFUSED(stopped, session.node_losses(heads, found, raised));
    REFUSED(stopped, session.pair_losses(arcs, tails, found, raised));
    REFUSED(stopped, (void)session.worst_arcs(first, found, {}, raised));
    REFUSED(stopped, (void)session.worst_nodes(first, found, raised));
    REFUSED(stopped, (void)session.worst_pairs(first, second, found, {}, raised));
    REFUSED(stopped, session.second_gains(arcs, found, raised));
    REFUSED(stopped, session.new_arc_gains(tails, heads, capacities, found, raised));
    REFUSED(bad_length, session.arc_losses({4, 5, 1}, found, raised));
    EXPECT(first[0] == 9 && second[0] == 9 && found == std::array<std::uint64_t, 2>{9, 9});
    // Of the three that arrive, arc 4 brings two from node 2, and arc 5 one.
    session.arc_losses(arcs, found, stop);
    EXPECT(found == std::array<std::uint64_t, 2>{2, 1});
    session.node_losses({3, 2}, found, stop);
    EXPECT(found == std::array<std::uint64_t, 2>{1, 2});
    session.pair_losses(arcs, {5, 5}, found, stop);
    EXPECT(found == std::array<std::uint64_t, 2>{3, 1});
    EXPECT(session.worst_arcs(first, found, {0, 1, 0, 1, 1}, stop) == 2);
    EXPECT(first == std::array<std::uint32_t, 2>{4, 5} && found == std::array<std::uint64_t, 2>{2, 1});
    EXPECT(session.worst_nodes(first, found, stop) == 2);
    EXPECT(first == std::array<std::uint32_t, 2>{2, 3} && found == std::array<std::uint64_t, 2>{2, 1});
    EXPECT(session.worst_pairs(first, second, found, {}, stop) == 2 && found == std::array<std::uint64_t, 2>{3, 3});
    EXPECT(first == std::array<std::uint32_t, 2>{1, 1} && second == std::array<std::uint32_t, 2>{2, 5});
    session.second_gains(arcs, found, stop);
    EXPECT(found == std::array<std::uint64_t, 2>{1, 1});
    session.new_arc_gains(tails, heads, capacities, found, stop);
    EXPECT(found == std::array<std::uint64_t, 2>{2, 5});
    EXPECT(session.value() == 3 && session.past() == 2);
}

// The arrays of a network without arcs may lie nowhere.
void without_arcs() {
    dmf::session session(2, 1, 2, {}, std::vector<std::uint32_t>(), {nullptr, 0});
    session.solve();
    EXPECT(session.value() == 0 && session.flows().empty() && session.check({}));
    EXPECT(session.arc_losses().empty() && session.node_losses() == numbers{0, 0});
    EXPECT(session.worst_arcs({}, {}) == 0 && session.worst_nodes({}, {}) == 0 && session.worst_pairs({}, {}, {}) == 0);
    EXPECT(session.maximum_flow() == 0);
    EXPECT(session.problem() == "p max 2 0\nn 1 s\nn 2 t\n" && session.solution() == "s 0\n");
}
} // namespace

int main() {
    opening();
    reading();
    judging();
    changing();
    running();
    copying();
    ranging();
    moving();
    losing();
    losing_pairs();
    listing_the_worst();
    gaining();
    finding();
    owning();
    stopping();
    stopping_questions();
    without_arcs();
    EXPECT(dmf::abi() == DMF_ABI && dmf::version() == dmf_version());
    for (int number : {-1, DMF_STOPPED + 1})
        EXPECT(dmf_status_text(number) == std::string("unknown status"));
    for (int number : {0, DMF_FAULT_SUM_TOO_LARGE + 1})
        EXPECT(dmf_fault_text(number) == std::string("unknown fault"));
    for (std::uint32_t number = 0; number <= DMF_STOPPED; number++)
        std::cout << dmf::text(static_cast<dmf::status>(number)) << "\n";
    for (std::uint32_t number = 1; number <= DMF_FAULT_SUM_TOO_LARGE; number++)
        std::cout << dmf::text(static_cast<dmf::fault>(number)) << "\n";
    return wrong;
}
