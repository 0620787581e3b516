// dmf.hpp: the calls of dmf.h for C++17 and later. Header only; link with libdmf as from C.
//
//     dmf::session session(4, 1, 4, {1, 1, 2, 2, 3}, {2, 3, 3, 4, 4}, {3, 2, 5, 2, 3});
//     session.solve();
//     session.close(1);
//     session.solve();
//     std::cout << session.value() << '\n';
//     session.undo(2);
//
// Each function makes the call of dmf.h that has its name, and dmf.h is the reference for what that call does. Nodes and
// arcs are numbered from 1; arc i + 1 is at index i of an array.
//
// Refusals.  A refused call throws, and the session and the caller's arrays are as they were before it: dmf::error, or
// std::bad_alloc if memory is short. Functions marked noexcept neither throw nor allocate.
// Arrays.  A dmf::span is made from a pointer and a size, or from anything with data() and size(): std::vector, std::array,
// std::span in C++20. It may be empty. What a call writes may not overlap what it reads.
// Threads.  One call at a time for each session, const functions too; different sessions are independent. So for a dmf::stop.
// Cost.  Each function costs what its call costs, plus a std::vector or std::string if it returns one.
#ifndef DMF_HPP
#define DMF_HPP

#include <cassert>
#include <cstddef>
#include <cstdint>
#include <dmf.h>
#include <initializer_list>
#include <iterator>
#include <memory>
#include <new>
#include <numeric>
#include <stdexcept>
#include <string>
#include <string_view>
#include <type_traits>
#include <utility>
#include <vector>

namespace dmf {

/// The largest bound of a history.
inline constexpr std::uint32_t max_past = DMF_MAX_PAST;

/// What a call answers. The comments of enum dmf_status say what each means.
enum class status : std::uint32_t {
    ok = DMF_OK,
    no_memory = DMF_NO_MEMORY,
    no_such_node = DMF_NO_SUCH_NODE,
    no_such_arc = DMF_NO_SUCH_ARC,
    closed = DMF_CLOSED,
    too_many_arcs = DMF_TOO_MANY_ARCS,
    sum_too_large = DMF_SUM_TOO_LARGE,
    nothing_to_undo = DMF_NOTHING_TO_UNDO,
    nothing_to_redo = DMF_NOTHING_TO_REDO,
    not_greatest = DMF_NOT_GREATEST,
    bad_length = DMF_BAD_LENGTH,
    bad_number = DMF_BAD_NUMBER,
    bad_text = DMF_BAD_TEXT,
    over_capacity = DMF_OVER_CAPACITY,
    not_conserved = DMF_NOT_CONSERVED,
    negative = DMF_NEGATIVE,
    stopped = DMF_STOPPED,
};

/// The first fault of a problem text. The comments of enum dmf_fault say what each means.
enum class fault : std::uint32_t {
    problem_line_expected = DMF_FAULT_PROBLEM_LINE_EXPECTED,
    second_problem_line = DMF_FAULT_SECOND_PROBLEM_LINE,
    unknown_line = DMF_FAULT_UNKNOWN_LINE,
    not_max = DMF_FAULT_NOT_MAX,
    field_count = DMF_FAULT_FIELD_COUNT,
    not_a_number = DMF_FAULT_NOT_A_NUMBER,
    too_large = DMF_FAULT_TOO_LARGE,
    count_out_of_range = DMF_FAULT_COUNT_OUT_OF_RANGE,
    node_out_of_range = DMF_FAULT_NODE_OUT_OF_RANGE,
    neither_source_nor_sink = DMF_FAULT_NEITHER_SOURCE_NOR_SINK,
    terminal_named_twice = DMF_FAULT_TERMINAL_NAMED_TWICE,
    same_terminals = DMF_FAULT_SAME_TERMINALS,
    arc_before_terminals = DMF_FAULT_ARC_BEFORE_TERMINALS,
    too_many_arcs = DMF_FAULT_TOO_MANY_ARCS,
    too_few_arcs = DMF_FAULT_TOO_FEW_ARCS,
    terminal_missing = DMF_FAULT_TERMINAL_MISSING,
    sum_too_large = DMF_FAULT_SUM_TOO_LARGE,
};

/// Returns the words for a status, which live as long as the program.
[[nodiscard]] inline const char *text(status status) noexcept { return dmf_status_text(static_cast<int>(status)); }

/// Returns the words for a fault, as `dmf solve` prints them. They live as long as the program.
[[nodiscard]] inline const char *text(fault fault) noexcept { return dmf_fault_text(static_cast<int>(fault)); }

/// Thrown by a call that is refused for any reason except memory.
class error : public std::runtime_error {
public:
    explicit error(dmf::status status) : error(status, text(status)) {}

    /// Returns what the call answered.
    [[nodiscard]] dmf::status status() const noexcept { return status_; }

protected:
    error(dmf::status status, const std::string &words) : std::runtime_error("dmf: " + words), status_(status) {}

private:
    dmf::status status_;
};

/// Thrown for a problem text that is refused: its status is bad_text.
class text_error : public error {
public:
    text_error(std::uint64_t line, dmf::fault fault)
        : error(status::bad_text, "line " + std::to_string(line) + ": " + text(fault)), line_(line), fault_(fault) {}

    /// Returns the line of the first fault, counted from 1.
    [[nodiscard]] std::uint64_t line() const noexcept { return line_; }

    /// Returns what is wrong there.
    [[nodiscard]] dmf::fault fault() const noexcept { return fault_; }

private:
    std::uint64_t line_;
    dmf::fault fault_;
};

/// Thrown for arrays of arcs that are refused at an arc: its status is no_such_node, too_many_arcs or sum_too_large.
class arc_error : public error {
public:
    arc_error(dmf::status status, std::uint64_t arc)
        : error(status, "arc " + std::to_string(arc) + ": " + text(status)), arc_(arc) {}

    /// Returns the number of the first arc that is refused, counted from 1.
    [[nodiscard]] std::uint64_t arc() const noexcept { return arc_; }

private:
    std::uint64_t arc_;
};

/// A pointer and how many elements it leads to, as std::span is in C++20. Does not own them.
template <class Element> class span {
    template <class Range>
    static constexpr bool leads_to_elements =
        std::is_convertible_v<std::remove_pointer_t<decltype(std::data(std::declval<Range &>()))> (*)[], Element (*)[]>;

public:
    constexpr span() noexcept = default;
    constexpr span(Element *data, std::size_t size) noexcept : data_(data), size_(size) {}

    /// Views the elements of an array, or of anything with data() and size().
    template <class Range, class = decltype(std::size(std::declval<Range &>())),
              class = std::enable_if_t<leads_to_elements<Range> && !std::is_same_v<std::decay_t<Range>, span>>>
    constexpr span(Range &&range) : data_(std::data(range)), size_(std::size(range)) {}

    /// Views the numbers of a list in braces, until the end of the call that it is written in.
    template <class Value = Element, class = std::enable_if_t<std::is_const_v<Value>>>
    constexpr span(std::initializer_list<std::remove_const_t<Value>> list) noexcept : size_(list.size()) {
        data_ = list.begin();
    }

    [[nodiscard]] constexpr Element *data() const noexcept { return data_; }
    [[nodiscard]] constexpr std::size_t size() const noexcept { return size_; }

private:
    Element *data_ = nullptr;
    std::size_t size_ = 0;
};

/// What session::check finds about flows.
struct judgement {
    dmf::status status;  ///< ok for a maximum flow; not_greatest, over_capacity, not_conserved or negative
    std::uint64_t place; ///< the arc after over_capacity and the node after not_conserved; otherwise 0

    /// Returns true for a maximum flow.
    explicit operator bool() const noexcept { return status == dmf::status::ok; }
};

/// What a command of session::run does. The comments of enum dmf_command say which numbers it has.
enum class kind : std::uint32_t {
    cap = DMF_COMMAND_CAP,
    add = DMF_COMMAND_ADD,
    close = DMF_COMMAND_CLOSE,
    shut = DMF_COMMAND_SHUT,
    solve = DMF_COMMAND_SOLVE,
    undo = DMF_COMMAND_UNDO,
    redo = DMF_COMMAND_REDO,
};

/// A command of session::run, with as many numbers as its kind has.
struct command {
    dmf::kind kind;
    std::uint64_t first = 0;
    std::uint64_t second = 0;
    std::uint64_t third = 0;
};

/// What session::run has done.
struct run_result {
    dmf::status status;                ///< ok if every command was carried out; otherwise why the next one is refused
    std::vector<std::uint64_t> values; ///< the value of the flow after each command that was carried out

    /// Returns true if every command was carried out.
    explicit operator bool() const noexcept { return status == dmf::status::ok; }
};

/// An arc whose flow the last step changed.
struct flow_change {
    std::uint32_t arc;
    std::uint64_t before; ///< its flow in the state before the present one
    std::uint64_t after;  ///< its flow in the present state
};

/// Returns the version of the library: 10,000 times the first number, 100 times the second, and the third.
[[nodiscard]] inline std::uint32_t version() noexcept { return dmf_version(); }

/// Returns the number of the library's interface; DMF_ABI is the one of this header.
[[nodiscard]] inline std::uint32_t abi() noexcept { return dmf_abi(); }

namespace detail {

[[noreturn]] inline void refuse(dmf_status answer) {
    if (answer == DMF_NO_MEMORY)
        throw std::bad_alloc();
    throw error(static_cast<status>(answer));
}

inline void expect_ok(dmf_status answer) {
    if (answer != DMF_OK)
        refuse(answer);
}

/// Returns the numbers from 1 to `last`.
inline std::vector<std::uint32_t> numbers_to(std::size_t last) {
    std::vector<std::uint32_t> numbers(last);
    std::iota(numbers.begin(), numbers.end(), 1u);
    return numbers;
}

struct closer {
    void operator()(dmf_session *session) const noexcept { dmf_session_free(session); }
    void operator()(dmf_stop *stop) const noexcept { dmf_stop_free(stop); }
};

} // namespace detail

/// A hold of a flag by which one thread ends the long calls of others: those that take a stop as their last argument. They throw
/// error with stopped if it is raised before they are done. A copy holds the same flag. Each thread needs a copy of its own; after a
/// move, the old one may only be assigned to or destroyed.
class stop {
public:
    /// Makes a flag that is not raised. Throws std::bad_alloc.
    stop() {
        dmf_stop *handle = nullptr;
        detail::expect_ok(dmf_stop_new(&handle));
        handle_.reset(handle);
    }

    /// Holds the same flag. Throws std::bad_alloc.
    stop(const stop &other) {
        dmf_stop *handle = nullptr;
        detail::expect_ok(dmf_stop_share(other.get(), &handle));
        handle_.reset(handle);
    }
    stop(stop &&other) noexcept = default;

    stop &operator=(const stop &other) { return *this = stop(other); }
    stop &operator=(stop &&other) noexcept = default;
    ~stop() = default;

    /// Raises the flag, which ends each call that looks at it.
    void raise() noexcept { dmf_stop_raise(get()); }

    /// Takes the flag down.
    void clear() noexcept { dmf_stop_clear(get()); }

    /// Returns the stop for calls of dmf.h. It still belongs to this object.
    [[nodiscard]] dmf_stop *get() const noexcept {
        assert(handle_ && "this stop was moved from");
        return handle_.get();
    }

private:
    std::unique_ptr<dmf_stop, detail::closer> handle_;
};

/// A network with a flow on it, and the states before and after the present one. It frees itself. It can be moved, and copied
/// by copy() alone; after a move, the old one may only be assigned to or destroyed.
class session {
public:
    /// Opens a session on a network of `nodes` nodes, with the arcs of three arrays of the same size and no flow. It keeps
    /// up to `past` states before the present one. Copies the arrays. Throws arc_error with the first arc that is refused,
    /// error with bad_length or bad_number, or std::bad_alloc.
    session(std::uint32_t nodes, std::uint32_t source, std::uint32_t sink, span<const std::uint32_t> tails,
            span<const std::uint32_t> heads, span<const std::uint64_t> capacities, std::uint32_t past = max_past)
        : handle_(opened(nodes, source, sink, tails, heads, capacities, past)) {}

    /// Takes over a session that a call of dmf.h opened, and frees it in the end.
    explicit session(dmf_session *handle) noexcept : handle_(handle) {}

    /// Opens a session on a problem text in the DIMACS format. Throws text_error with the line and what is wrong there,
    /// error with bad_number for `past`, or std::bad_alloc.
    [[nodiscard]] static session read(std::string_view text, std::uint32_t past = max_past) {
        dmf_session *handle = nullptr;
        std::uint64_t line = 0;
        std::uint32_t fault = 0;
        const auto *bytes = reinterpret_cast<const std::uint8_t *>(text.data());
        const dmf_status answer = dmf_session_read(bytes, text.size(), past, &handle, &line, &fault);
        if (answer == DMF_BAD_TEXT)
            throw text_error(line, static_cast<dmf::fault>(fault));
        detail::expect_ok(answer);
        return session(handle);
    }

    /// Opens another session with the same states, which shares nothing with this one. Throws only std::bad_alloc.
    [[nodiscard]] session copy() const {
        dmf_session *handle = nullptr;
        detail::expect_ok(dmf_session_copy(live(), &handle));
        return session(handle);
    }

    /// Returns the session for calls of dmf.h. It still belongs to this object; null after a move.
    [[nodiscard]] dmf_session *get() noexcept { return handle_.get(); }
    [[nodiscard]] const dmf_session *get() const noexcept { return handle_.get(); }

    /// Hands the session over to the caller, who must free it with dmf_session_free.
    [[nodiscard]] dmf_session *release() noexcept { return handle_.release(); }

    // ---- Changes: each appends a state, drops the undone ones, and forgets the oldest past the bound

    /// Gives an arc another capacity, and takes what flows above it off the arc and off paths through it, which may take
    /// long. Throws error with no_such_arc, closed or sum_too_large, or std::bad_alloc.
    void cap(std::uint64_t arc, std::uint64_t capacity) { detail::expect_ok(dmf_session_cap(live(), arc, capacity)); }

    /// Adds an arc without flow, and returns its number. Throws error with no_such_node, too_many_arcs or sum_too_large, or
    /// std::bad_alloc.
    std::uint64_t add(std::uint64_t tail, std::uint64_t head, std::uint64_t capacity) {
        detail::expect_ok(dmf_session_add(live(), tail, head, capacity));
        return arcs();
    }

    /// Closes an arc, as if its capacity became 0; only undo() opens it again. May take long, as cap() may. Throws error
    /// with no_such_arc or closed, or std::bad_alloc.
    void close(std::uint64_t arc) { detail::expect_ok(dmf_session_close(live(), arc)); }

    /// Closes every open arc that leaves or enters a node, as one change. May take long, as cap() may. Throws error with
    /// no_such_node, or std::bad_alloc.
    void shut(std::uint64_t node) { detail::expect_ok(dmf_session_shut(live(), node)); }

    /// Augments the present flow to a maximum flow. May take long. Appends a state even if the flow was a maximum
    /// flow. Throws only std::bad_alloc.
    void solve() { detail::expect_ok(dmf_session_solve(live())); }

    /// Does the same, unless the flag is raised before the solve is done. Then throws error with stopped.
    void solve(stop &until) { detail::expect_ok(dmf_session_solve_until(live(), until.get())); }

    // ---- Steps: all of them, or none

    /// Steps back by this many states, each as it was, arc for arc. Throws error with nothing_to_undo. Takes no memory.
    void undo(std::uint64_t steps = 1) { detail::expect_ok(dmf_session_undo(live(), steps)); }

    /// Steps forward by this many undone states. Throws error with nothing_to_redo. Takes memory, and may throw
    /// std::bad_alloc, only if an added arc comes back.
    void redo(std::uint64_t steps = 1) { detail::expect_ok(dmf_session_redo(live(), steps)); }

    // ---- Many commands in one call

    /// Carries out commands, one after another, up to the first that is refused. A refused command is a status and not an error, also
    /// if memory is short: what was done before it stays. Throws std::bad_alloc before anything is done.
    run_result run(span<const command> commands) {
        std::vector<std::uint32_t> kinds(commands.size());
        std::vector<std::uint64_t> firsts(commands.size()), seconds(commands.size()), thirds(commands.size());
        for (std::size_t k = 0; k < commands.size(); k++) {
            const command &given = commands.data()[k];
            kinds[k] = static_cast<std::uint32_t>(given.kind);
            firsts[k] = given.first;
            seconds[k] = given.second;
            thirds[k] = given.third;
        }
        std::vector<std::uint64_t> values(commands.size());
        std::size_t done = 0;
        const dmf_status answer =
            dmf_session_run(live(), kinds.data(), kinds.size(), firsts.data(), firsts.size(), seconds.data(), seconds.size(),
                            thirds.data(), thirds.size(), values.data(), values.size(), &done);
        values.resize(done);
        return {static_cast<status>(answer), std::move(values)};
    }

    // ---- The present state, which none of these changes

    /// Returns the value of the flow.
    [[nodiscard]] std::uint64_t value() const noexcept { return dmf_session_value(live()); }

    /// Returns how many states undo() can step back.
    [[nodiscard]] std::uint32_t past() const noexcept { return dmf_session_past(live()); }

    /// Returns how many states redo() can step forward.
    [[nodiscard]] std::uint32_t future() const noexcept { return dmf_session_future(live()); }

    [[nodiscard]] std::uint32_t nodes() const noexcept { return dmf_session_nodes(live()); }
    [[nodiscard]] std::uint32_t source() const noexcept { return dmf_session_source(live()); }
    [[nodiscard]] std::uint32_t sink() const noexcept { return dmf_session_sink(live()); }

    /// Returns how many arcs there are, closed ones too.
    [[nodiscard]] std::size_t arcs() const noexcept { return dmf_session_arcs(live()); }

    /// Returns the flow on each arc.
    [[nodiscard]] std::vector<std::uint64_t> flows() const {
        std::vector<std::uint64_t> found(arcs());
        flows(found);
        return found;
    }

    /// Writes the flow on each arc into an array of arcs() elements, and takes no memory. Throws error with bad_length.
    void flows(span<std::uint64_t> into) const {
        detail::expect_ok(dmf_session_flows(live(), into.data(), into.size()));
    }

    /// Returns the capacity of each arc, 0 for a closed one.
    [[nodiscard]] std::vector<std::uint64_t> capacities() const {
        std::vector<std::uint64_t> found(arcs());
        capacities(found);
        return found;
    }

    /// Writes the capacity of each arc into an array of arcs() elements, and takes no memory. Throws error with bad_length.
    void capacities(span<std::uint64_t> into) const {
        detail::expect_ok(dmf_session_capacities(live(), into.data(), into.size()));
    }

    /// Writes the ends, capacities and flows of arcs first to first + count - 1, and 1 for a closed arc and 0 for an open one,
    /// into arrays of `count` elements; an empty array is left out. Takes no memory. Throws error with bad_length or no_such_arc.
    void arc_range(std::uint64_t first, std::size_t count, span<std::uint32_t> tails, span<std::uint32_t> heads,
                   span<std::uint64_t> capacities = {}, span<std::uint64_t> flows = {},
                   span<std::uint8_t> closed = {}) const {
        detail::expect_ok(dmf_session_arc_range(live(), first, count, tails.data(), tails.size(), heads.data(), heads.size(),
                                                capacities.data(), capacities.size(), flows.data(), flows.size(),
                                                closed.data(), closed.size()));
    }

    /// Returns what the last step moved: the arcs whose flow differs from that in the state before, in ascending order. Throws error
    /// with nothing_to_undo, or std::bad_alloc.
    [[nodiscard]] std::vector<flow_change> moved() const {
        std::vector<std::uint32_t> arcs(moved({}, {}, {}));
        std::vector<std::uint64_t> before(arcs.size()), after(arcs.size());
        moved(arcs, before, after);
        std::vector<flow_change> found;
        found.reserve(arcs.size());
        for (std::size_t k = 0; k < arcs.size(); k++)
            found.push_back({arcs[k], before[k], after[k]});
        return found;
    }

    /// Writes these arcs, their flows before and their flows now into arrays, each as many as it has room for, and returns how many
    /// arcs there are. Takes no memory. Throws error with nothing_to_undo.
    std::size_t moved(span<std::uint32_t> arcs, span<std::uint64_t> before, span<std::uint64_t> after) const {
        std::size_t found = 0;
        detail::expect_ok(dmf_session_moved(live(), arcs.data(), arcs.size(), before.data(), before.size(), after.data(),
                                            after.size(), &found));
        return found;
    }

    /// Returns the source side of the smallest minimum cut: 1 at index v - 1 if every minimum cut has node v on the source
    /// side, otherwise 0. The capacities of the arcs that leave it add up to the value. Throws error with not_greatest before a
    /// solve(), or std::bad_alloc.
    [[nodiscard]] std::vector<std::uint8_t> side() const {
        std::vector<std::uint8_t> found(nodes());
        side(found);
        return found;
    }

    /// Writes the source side into an array of nodes() elements. Throws as side() does, and error with bad_length.
    void side(span<std::uint8_t> into) const {
        detail::expect_ok(dmf_session_side(live(), into.data(), into.size()));
    }

    /// Returns the value of a maximum flow of the present network, and writes its flows into an array of arcs() elements and
    /// the source side of the smallest minimum cut into one of nodes() elements; an empty array is not wanted. The session and
    /// its own flow stay as they are. Many times faster than solve() on hard networks, above all without the side. Throws error
    /// with bad_length, or std::bad_alloc.
    std::uint64_t maximum_flow(span<std::uint64_t> flows = {}, span<std::uint8_t> side = {}) const {
        std::uint64_t value = 0;
        detail::expect_ok(dmf_session_maximum_flow(live(), &value, flows.data(), flows.size(), side.data(), side.size()));
        return value;
    }

    /// Returns what arcs are worth: at index k how much less the greatest value is if only arc arcs[k] is closed. May take long.
    /// Throws error with not_greatest before a solve(), or with no_such_arc, or std::bad_alloc.
    [[nodiscard]] std::vector<std::uint64_t> arc_losses(span<const std::uint32_t> arcs) const {
        std::vector<std::uint64_t> found(arcs.size());
        arc_losses(arcs, found);
        return found;
    }

    /// Returns what each arc is worth: at index j - 1 how much less the greatest value is if only arc j is closed.
    [[nodiscard]] std::vector<std::uint64_t> arc_losses() const {
        return arc_losses(detail::numbers_to(arcs()));
    }

    /// Writes these losses into an array with an element for each arc. Throws as the function above does, and error with bad_length.
    void arc_losses(span<const std::uint32_t> arcs, span<std::uint64_t> into) const {
        detail::expect_ok(dmf_session_arc_losses(live(), arcs.data(), arcs.size(), into.data(), into.size()));
    }

    /// Does the same, unless the flag is raised before all losses are found. Then throws error with stopped.
    void arc_losses(span<const std::uint32_t> arcs, span<std::uint64_t> into, stop &until) const {
        detail::expect_ok(
            dmf_session_arc_losses_until(live(), arcs.data(), arcs.size(), into.data(), into.size(), until.get()));
    }

    /// Returns what nodes are worth: at index k how much less the greatest value is if only the arcs at node nodes[k] are closed,
    /// and 0 for the source and the sink. May take long. Throws as arc_losses() does, with no_such_node.
    [[nodiscard]] std::vector<std::uint64_t> node_losses(span<const std::uint32_t> nodes) const {
        std::vector<std::uint64_t> found(nodes.size());
        node_losses(nodes, found);
        return found;
    }

    /// Returns what each node is worth: at index v - 1 how much less the greatest value is if only the arcs at node v are closed.
    [[nodiscard]] std::vector<std::uint64_t> node_losses() const {
        return node_losses(detail::numbers_to(nodes()));
    }

    /// Writes these losses into an array with an element for each node. Throws as the function above does, and error with bad_length.
    void node_losses(span<const std::uint32_t> nodes, span<std::uint64_t> into) const {
        detail::expect_ok(dmf_session_node_losses(live(), nodes.data(), nodes.size(), into.data(), into.size()));
    }

    /// Does the same, unless the flag is raised before all losses are found. Then throws error with stopped.
    void node_losses(span<const std::uint32_t> nodes, span<std::uint64_t> into, stop &until) const {
        detail::expect_ok(
            dmf_session_node_losses_until(live(), nodes.data(), nodes.size(), into.data(), into.size(), until.get()));
    }

    /// Returns what two arcs are worth together: at index k how much less the greatest value is if only arcs firsts[k] and
    /// seconds[k] are closed. May take long. Throws as arc_losses() does, and error with bad_length or no_such_arc.
    [[nodiscard]] std::vector<std::uint64_t> pair_losses(span<const std::uint32_t> firsts,
                                                         span<const std::uint32_t> seconds) const {
        std::vector<std::uint64_t> found(firsts.size());
        pair_losses(firsts, seconds, found);
        return found;
    }

    /// Writes these losses into an array with an element for each pair. Throws as the function above does.
    void pair_losses(span<const std::uint32_t> firsts, span<const std::uint32_t> seconds, span<std::uint64_t> into) const {
        detail::expect_ok(dmf_session_pair_losses(live(), firsts.data(), firsts.size(), seconds.data(), seconds.size(),
                                                  into.data(), into.size()));
    }

    /// Does the same, unless the flag is raised before all losses are found. Then throws error with stopped.
    void pair_losses(span<const std::uint32_t> firsts, span<const std::uint32_t> seconds, span<std::uint64_t> into,
                     stop &until) const {
        detail::expect_ok(dmf_session_pair_losses_until(live(), firsts.data(), firsts.size(), seconds.data(),
                                                        seconds.size(), into.data(), into.size(), until.get()));
    }

    /// Writes the arcs whose loss is greatest and their losses, the greatest first, into arrays of the same length. Returns
    /// how many are written: as many as there is room for, or all arcs. If `among` is given, it has an element for each arc,
    /// and arc j is listed only if among[j - 1] is not 0. Throws as arc_losses() does, and error with bad_length.
    std::size_t worst_arcs(span<std::uint32_t> arcs, span<std::uint64_t> losses,
                           span<const std::uint8_t> among = {}) const {
        std::size_t found = 0;
        detail::expect_ok(dmf_session_worst_arcs(live(), among.data(), among.size(), arcs.data(), arcs.size(),
                                                 losses.data(), losses.size(), &found));
        return found;
    }

    /// Does the same, unless the flag is raised before the list is found. Then throws error with stopped.
    std::size_t worst_arcs(span<std::uint32_t> arcs, span<std::uint64_t> losses, span<const std::uint8_t> among,
                           stop &until) const {
        std::size_t found = 0;
        detail::expect_ok(dmf_session_worst_arcs_until(live(), among.data(), among.size(), arcs.data(), arcs.size(),
                                                       losses.data(), losses.size(), &found, until.get()));
        return found;
    }

    /// Writes the nodes other than the source and the sink whose loss is greatest, as worst_arcs() writes arcs.
    std::size_t worst_nodes(span<std::uint32_t> nodes, span<std::uint64_t> losses) const {
        std::size_t found = 0;
        detail::expect_ok(dmf_session_worst_nodes(live(), nodes.data(), nodes.size(), losses.data(), losses.size(), &found));
        return found;
    }

    /// Does the same, unless the flag is raised before the list is found. Then throws error with stopped.
    std::size_t worst_nodes(span<std::uint32_t> nodes, span<std::uint64_t> losses, stop &until) const {
        std::size_t found = 0;
        detail::expect_ok(dmf_session_worst_nodes_until(live(), nodes.data(), nodes.size(), losses.data(), losses.size(),
                                                        &found, until.get()));
        return found;
    }

    /// Writes the pairs of arcs whose loss is greatest, as worst_arcs() writes arcs; of a pair the smaller number is in `firsts`.
    std::size_t worst_pairs(span<std::uint32_t> firsts, span<std::uint32_t> seconds, span<std::uint64_t> losses,
                            span<const std::uint8_t> among = {}) const {
        std::size_t found = 0;
        detail::expect_ok(dmf_session_worst_pairs(live(), among.data(), among.size(), firsts.data(), firsts.size(),
                                                  seconds.data(), seconds.size(), losses.data(), losses.size(), &found));
        return found;
    }

    /// Does the same, unless the flag is raised before the list is found. Then throws error with stopped.
    std::size_t worst_pairs(span<std::uint32_t> firsts, span<std::uint32_t> seconds, span<std::uint64_t> losses,
                            span<const std::uint8_t> among, stop &until) const {
        std::size_t found = 0;
        detail::expect_ok(dmf_session_worst_pairs_until(live(), among.data(), among.size(), firsts.data(), firsts.size(),
                                                        seconds.data(), seconds.size(), losses.data(), losses.size(),
                                                        &found, until.get()));
        return found;
    }

    /// Returns what a second arc would bring: at index k how much greater the greatest value is if only an arc with the ends and
    /// the capacity of arc arcs[k] is added. May take long. Throws as arc_losses() does, and error with no_such_arc,
    /// too_many_arcs or sum_too_large.
    [[nodiscard]] std::vector<std::uint64_t> second_gains(span<const std::uint32_t> arcs) const {
        std::vector<std::uint64_t> found(arcs.size());
        second_gains(arcs, found);
        return found;
    }

    /// Writes these gains into an array with an element for each arc. Throws as the function above does, and error with bad_length.
    void second_gains(span<const std::uint32_t> arcs, span<std::uint64_t> into) const {
        detail::expect_ok(dmf_session_second_gains(live(), arcs.data(), arcs.size(), into.data(), into.size()));
    }

    /// Does the same, unless the flag is raised before all gains are found. Then throws error with stopped.
    void second_gains(span<const std::uint32_t> arcs, span<std::uint64_t> into, stop &until) const {
        detail::expect_ok(
            dmf_session_second_gains_until(live(), arcs.data(), arcs.size(), into.data(), into.size(), until.get()));
    }

    /// Returns what a new arc would bring: at index k how much greater the greatest value is if only an arc from tails[k] to
    /// heads[k] of capacity capacities[k] is added. May take long. Throws as second_gains() does, and error with bad_length or
    /// no_such_node instead of no_such_arc.
    [[nodiscard]] std::vector<std::uint64_t> new_arc_gains(span<const std::uint32_t> tails, span<const std::uint32_t> heads,
                                                           span<const std::uint64_t> capacities) const {
        std::vector<std::uint64_t> found(tails.size());
        new_arc_gains(tails, heads, capacities, found);
        return found;
    }

    /// Writes these gains into an array with an element for each arc. Throws as the function above does.
    void new_arc_gains(span<const std::uint32_t> tails, span<const std::uint32_t> heads,
                       span<const std::uint64_t> capacities, span<std::uint64_t> into) const {
        detail::expect_ok(dmf_session_new_arc_gains(live(), tails.data(), tails.size(), heads.data(), heads.size(),
                                                    capacities.data(), capacities.size(), into.data(), into.size()));
    }

    /// Does the same, unless the flag is raised before all gains are found. Then throws error with stopped.
    void new_arc_gains(span<const std::uint32_t> tails, span<const std::uint32_t> heads,
                       span<const std::uint64_t> capacities, span<std::uint64_t> into, stop &until) const {
        detail::expect_ok(dmf_session_new_arc_gains_until(live(), tails.data(), tails.size(), heads.data(), heads.size(),
                                                          capacities.data(), capacities.size(), into.data(), into.size(),
                                                          until.get()));
    }

    /// Judges flows, one for each arc, as flows of the present network; the session's own flow does not matter. A wrong
    /// flow is an answer and not an error. Throws error with bad_length, or std::bad_alloc.
    [[nodiscard]] judgement check(span<const std::uint64_t> flows) const {
        std::uint64_t place = 0;
        const dmf_status answer = dmf_session_check(live(), flows.data(), flows.size(), &place);
        if (answer == DMF_NO_MEMORY || answer == DMF_BAD_LENGTH)
            detail::refuse(answer);
        return {static_cast<status>(answer), place};
    }

    /// Returns the problem text of the open arcs. Throws only std::bad_alloc.
    [[nodiscard]] std::string problem() const { return written(dmf_session_problem); }

    /// Returns the solution text of the present flow. Throws only std::bad_alloc.
    [[nodiscard]] std::string solution() const { return written(dmf_session_solution); }

private:
    [[nodiscard]] static dmf_session *opened(std::uint32_t nodes, std::uint32_t source, std::uint32_t sink,
                                             span<const std::uint32_t> tails, span<const std::uint32_t> heads,
                                             span<const std::uint64_t> capacities, std::uint32_t past) {
        dmf_session *handle = nullptr;
        std::size_t bad_arc = 0;
        const dmf_status answer =
            dmf_session_new(nodes, source, sink, tails.data(), tails.size(), heads.data(), heads.size(),
                            capacities.data(), capacities.size(), past, &handle, &bad_arc);
        if (answer == DMF_NO_SUCH_NODE || answer == DMF_TOO_MANY_ARCS || answer == DMF_SUM_TOO_LARGE)
            throw arc_error(static_cast<status>(answer), bad_arc + 1);
        detail::expect_ok(answer);
        return handle;
    }

    [[nodiscard]] dmf_session *live() const noexcept {
        assert(handle_ && "this session was moved from");
        return handle_.get();
    }

    // Asks for the length without room, and then for the text.
    template <class Call> [[nodiscard]] std::string written(Call call) const {
        std::string text;
        std::size_t length = 0;
        for (;;) {
            const dmf_status answer = call(live(), reinterpret_cast<std::uint8_t *>(text.data()), text.size(), &length);
            if (answer == DMF_NO_MEMORY)
                detail::refuse(answer);
            text.resize(length);
            if (answer == DMF_OK)
                return text;
        }
    }

    std::unique_ptr<dmf_session, detail::closer> handle_;
};

} // namespace dmf

#endif
