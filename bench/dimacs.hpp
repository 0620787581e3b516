// What the drivers share: reading a problem and writing a solution in DIMACS form, as fast as is simple, and a clock.
// Only problems that `generate` made are read, so a text is hardly judged; docs/FORMATS.md has the formats.
#pragma once

#include <algorithm>
#include <chrono>
#include <cmath>
#include <cstdint>
#include <cstdio>
#include <cstdlib>
#include <cstring>
#include <ctime>
#include <memory>
#include <string>
#include <vector>

#include <unistd.h>

namespace dimacs {

[[noreturn]] inline void fail(const char *why) {
    std::fprintf(stderr, "%s\n", why);
    std::exit(1);
}

// Arc number j of the format is at index j - 1 of the three vectors. Nodes are numbered from 1.
struct Network {
    uint32_t nodes = 0;
    uint32_t source = 0;
    uint32_t sink = 0;
    std::vector<uint32_t> tails;
    std::vector<uint32_t> heads;
    std::vector<uint64_t> capacities;

    size_t arcs() const { return tails.size(); }

    void add(uint32_t tail, uint32_t head, uint64_t capacity) {
        tails.push_back(tail);
        heads.push_back(head);
        capacities.push_back(capacity);
    }
};

// The bytes of standard input, with a zero byte after them.
struct Text {
    std::unique_ptr<char, decltype(&std::free)> bytes{nullptr, &std::free};
    size_t size = 0;
};

inline Text read_text() {
    const off_t end = lseek(0, 0, SEEK_END);
    size_t room = end > 0 ? static_cast<size_t>(end) + 1 : 1 << 16;
    if (end > 0) lseek(0, 0, SEEK_SET);
    Text text;
    for (;;) {
        text.bytes.reset(static_cast<char *>(std::realloc(text.bytes.release(), room)));
        if (!text.bytes) fail("no memory");
        ssize_t got = 0;
        while (text.size + 1 < room && (got = read(0, text.bytes.get() + text.size, room - 1 - text.size)) > 0)
            text.size += got;
        if (got < 0) fail("read failed");
        if (text.size + 1 < room || static_cast<off_t>(text.size) == end) break;
        room *= 2;
    }
    text.bytes.get()[text.size] = 0;
    return text;
}

// The number at `at`, spaces before it passed over; `at` is moved after it.
inline uint64_t number(const char *&at) {
    while (*at == ' ' || *at == '\t') ++at;
    if (*at < '0' || *at > '9') fail("not a number");
    uint64_t value = 0;
    for (; *at >= '0' && *at <= '9'; ++at) value = 10 * value + static_cast<uint64_t>(*at - '0');
    return value;
}

// The problem on standard input.
inline Network read_network() {
    const Text text = read_text();
    const char *at = text.bytes.get();
    const char *const end = at + text.size;
    Network network;
    while (at < end) {
        const char kind = *at++;
        if (kind == 'a') {
            const auto tail = static_cast<uint32_t>(number(at));
            const auto head = static_cast<uint32_t>(number(at));
            network.add(tail, head, number(at));
        } else if (kind == 'n') {
            const auto node = static_cast<uint32_t>(number(at));
            while (*at == ' ') ++at;
            (*at == 's' ? network.source : network.sink) = node;
        } else if (kind == 'p') {
            at += std::strlen(" max");
            network.nodes = static_cast<uint32_t>(number(at));
            const size_t arcs = number(at);
            network.tails.reserve(arcs);
            network.heads.reserve(arcs);
            network.capacities.reserve(arcs);
        } else if (kind != 'c' && kind != '\n') {
            fail("unknown line");
        }
        while (at < end && at[-1] != '\n') ++at;
    }
    return network;
}

// Standard output, with a buffer before it.
class Output {
  public:
    ~Output() { flush(); }

    void put(char byte) {
        if (filled == sizeof buffer) flush();
        buffer[filled++] = byte;
    }

    void put(const char *text) {
        while (*text) put(*text++);
    }

    void put(uint64_t value) {
        char digits[20];
        int count = 0;
        do digits[count++] = static_cast<char>('0' + value % 10);
        while (value /= 10);
        while (count > 0) put(digits[--count]);
    }

    // A line: its first field, and then numbers.
    template <typename... Numbers> void line(const char *kind, Numbers... numbers) {
        put(kind);
        ((put(' '), put(static_cast<uint64_t>(numbers))), ...);
        put('\n');
    }

  private:
    char buffer[1 << 16];
    size_t filled = 0;

    void flush() {
        for (size_t written = 0; written < filled;) {
            const ssize_t count = write(1, buffer + written, filled - written);
            if (count < 0) fail("write failed");
            written += count;
        }
        filled = 0;
    }
};

// Writes a solution, in which `flow_of(j)` flows on the arc at index j. It is called for each arc in turn.
template <typename FlowOf> void write_solution(const Network &network, uint64_t value, FlowOf flow_of) {
    Output output;
    output.line("s", value);
    for (size_t j = 0; j < network.arcs(); ++j)
        output.line("f", network.tails[j], network.heads[j], flow_of(j));
}

// Tells on standard error how many seconds each part of a run took.
class Clock {
  public:
    ~Clock() { std::fprintf(stderr, "%s\n", told.c_str()); }

    void tell(const std::string &what) { told += (told.empty() ? "" : " ") + what; }

    void lap(const char *part) {
        const auto now = std::chrono::steady_clock::now();
        char seconds[32];
        std::snprintf(seconds, sizeof seconds, " %.4f", std::chrono::duration<double>(now - began).count());
        tell(part + std::string(seconds));
        began = now;
    }

  private:
    std::chrono::steady_clock::time_point began = std::chrono::steady_clock::now();
    std::string told;
};

// Processor seconds of this process.
inline double spent() { return static_cast<double>(std::clock()) / CLOCKS_PER_SEC; }

// After how many processor seconds nothing more is begun.
inline double limit() {
    const char *const text = std::getenv("DMF_BENCH_LIMIT");
    return text ? std::atof(text) : HUGE_VAL;
}

// Writes the value without each of the arcs whose numbers are these words, and tells how many processor seconds that took. It ends
// before the last of them if the limit is reached.
template <typename ValueWithout> void write_cases(Clock &clock, int count, char **words, ValueWithout value_without) {
    Output output;
    const double began = spent(), end = began + limit();
    for (int at = 0; at < count && spent() < end; ++at)
        output.line("s", value_without(static_cast<size_t>(std::atoi(words[at]) - 1)));
    clock.tell("cases " + std::to_string(spent() - began));
}

} // namespace dimacs
