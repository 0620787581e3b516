// Lists the ten arcs of a problem that are the costliest to lose, closes the worst, and shows what its neighbours carry then.
//     c++ -std=c++17 -pthread vital.cpp $(pkg-config --cflags --libs dmf) -o vital && ./vital problem.max SECONDS
#include <array>
#include <chrono>
#include <dmf.hpp>
#include <fstream>
#include <future>
#include <iostream>
#include <iterator>

// Returns true if the session is solved in time. Otherwise a timer in another thread stops the solve, and the session is as before.
static bool solved_within(dmf::session &session, std::chrono::duration<double> limit) {
    dmf::stop stop;
    std::future<void> timer;
    std::promise<void> solve; // When this is destroyed, `ended` is ready, and the timer ends too.
    timer = std::async(std::launch::async, [flag = stop, ended = solve.get_future(), limit]() mutable {
        if (ended.wait_for(limit) == std::future_status::timeout)
            flag.raise();
    });
    try {
        session.solve(stop);
    } catch (const dmf::error &error) {
        return error.status() == dmf::status::stopped ? false : throw;
    }
    return true;
}

int main(int count, char **words) try {
    std::ifstream file(count > 1 ? words[1] : "/dev/stdin", std::ios::binary);
    if (!file)
        throw std::runtime_error(std::string(words[1]) + " cannot be read");
    dmf::session session = dmf::session::read(std::string(std::istreambuf_iterator<char>(file), {}));
    if (!solved_within(session, std::chrono::duration<double>(count > 2 ? std::stod(words[2]) : 10))) {
        std::cout << "stopped, and as before: " << session.value() << " of " << session.maximum_flow() << "\n";
        session.solve();
    }
    std::cout << "maximum flow: " << session.value() << "\n";
    std::array<std::uint32_t, 10> arcs{};
    std::array<std::uint64_t, 10> losses{};
    const std::size_t found = session.worst_arcs(arcs, losses);
    for (std::size_t i = 0; i < found && losses[i] > 0; i++)
        std::cout << "without arc " << arcs[i] << ": " << losses[i] << " less\n";
    if (losses[0] == 0)
        return EXIT_SUCCESS;
    const std::vector<std::uint64_t> before = session.flows();
    session.close(arcs[0]);
    session.solve();
    std::cout << "arc " << arcs[0] << " is closed: " << session.value() << "\n";
    std::vector<std::uint32_t> tails(session.arcs()), heads(session.arcs());
    session.arc_range(1, session.arcs(), tails, heads);
    const auto is_end = [&, at = arcs[0] - 1](std::uint32_t node) { return node == tails[at] || node == heads[at]; };
    const std::vector<std::uint64_t> flows = session.flows();
    for (std::size_t i = 0; i < flows.size(); i++)
        if (i + 1 != arcs[0] && (is_end(tails[i]) || is_end(heads[i])))
            std::cout << "arc " << i + 1 << " from " << tails[i] << " to " << heads[i] << ": " << flows[i] << ", was "
                      << before[i] << "\n";
} catch (const std::exception &error) {
    std::cerr << "vital: " << error.what() << "\n";
    return EXIT_FAILURE;
}
