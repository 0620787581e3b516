// What arcs, nodes and pairs are worth, by the calls of dmf.h on a solved session: vital REPEAT WHAT [COUNT|ARC..] <PROBLEM. Writes
// what the call finds, and tells the least processor seconds of several calls, without reading and the solve. WHAT is one of
//
//     flow          the flow of each arc; nothing is told
//     cases ARC..   the value without each of these arcs
//     arcs          the loss of each arc
//     nodes         the loss of each node
//     second        the gain of a second arc beside each arc
//     worst COUNT   the arcs that are worth most, and their losses
//     pairs COUNT   the pairs of arcs that are worth most, and their losses
#include "dimacs.hpp"

#include <dmf.h>

// Calls that take longer than this together are not repeated.
constexpr double PATIENCE = 5;

using Numbers = std::vector<uint32_t>;
using Values = std::vector<uint64_t>;

void want(dmf_status status) {
    if (status != DMF_OK) dimacs::fail(dmf_status_text(status));
}

dmf_session *solved() {
    const dimacs::Text text = dimacs::read_text();
    dmf_session *session = nullptr;
    uint64_t line = 0;
    uint32_t fault = 0;
    want(dmf_session_read(reinterpret_cast<const uint8_t *>(text.bytes.get()), text.size, 0, &session, &line, &fault));
    want(dmf_session_solve(session));
    return session;
}

// Repeats a call, and tells the least of its processor seconds.
template <typename Call> void measure(int repeat, Call call) {
    double least = HUGE_VAL;
    const double end = dimacs::spent() + std::min(PATIENCE, dimacs::limit());
    for (int turn = 0; turn == 0 || (turn < repeat && dimacs::spent() < end); ++turn) {
        const double began = dimacs::spent();
        want(call());
        least = std::min(least, dimacs::spent() - began);
    }
    dimacs::Clock().tell("cases " + std::to_string(least));
}

void write_values(const Values &values) {
    dimacs::Output output;
    for (const uint64_t value : values) output.line("s", value);
}

void write_cases(const dmf_session *session, int repeat, int count, char **words) {
    Numbers arcs;
    for (int at = 0; at < count; ++at) arcs.push_back(static_cast<uint32_t>(std::atol(words[at])));
    Values losses(arcs.size());
    measure(repeat, [&] { return dmf_session_arc_losses(session, arcs.data(), arcs.size(), losses.data(), losses.size()); });
    dimacs::Output output;
    for (const uint64_t loss : losses) output.line("s", dmf_session_value(session) - loss);
}

void write_worst(const dmf_session *session, int repeat, size_t count) {
    Numbers arcs(count);
    Values losses(count);
    size_t found = 0;
    measure(repeat, [&] { return dmf_session_worst_arcs(session, nullptr, 0, arcs.data(), count, losses.data(), count, &found); });
    dimacs::Output output;
    for (size_t at = 0; at < found; ++at) output.line("s", arcs[at], losses[at]);
}

void write_pairs(const dmf_session *session, int repeat, size_t count) {
    Numbers firsts(count), seconds(count);
    Values losses(count);
    size_t found = 0;
    measure(repeat, [&] {
        return dmf_session_worst_pairs(session, nullptr, 0, firsts.data(), count, seconds.data(), count, losses.data(), count, &found);
    });
    dimacs::Output output;
    for (size_t at = 0; at < found; ++at) output.line("s", firsts[at], seconds[at], losses[at]);
}

void write_parts(const dmf_session *session, int repeat, const std::string &what) {
    const size_t count = what == "nodes" ? dmf_session_nodes(session) : dmf_session_arcs(session);
    Values values(count);
    Numbers numbers(count);
    for (size_t at = 0; at < count; ++at) numbers[at] = static_cast<uint32_t>(at + 1);
    if (what == "flow") want(dmf_session_flows(session, values.data(), count));
    else if (what == "arcs") measure(repeat, [&] { return dmf_session_arc_losses(session, numbers.data(), count, values.data(), count); });
    else if (what == "nodes") measure(repeat, [&] { return dmf_session_node_losses(session, numbers.data(), count, values.data(), count); });
    else if (what == "second")
        measure(repeat, [&] { return dmf_session_second_gains(session, numbers.data(), count, values.data(), count); });
    else dimacs::fail("nothing is called that");
    write_values(values);
}

int main(int count, char **words) {
    if (count < 3) dimacs::fail("usage: vital REPEAT WHAT [COUNT|ARC..]");
    dmf_session *const session = solved();
    const int repeat = std::atoi(words[1]);
    const std::string what = words[2];
    const size_t most = count > 3 ? std::strtoull(words[3], nullptr, 10) : 0;
    if (what == "cases") write_cases(session, repeat, count - 3, words + 3);
    else if (what == "worst") write_worst(session, repeat, most);
    else if (what == "pairs") write_pairs(session, repeat, most);
    else write_parts(session, repeat, what);
    dmf_session_free(session);
}
