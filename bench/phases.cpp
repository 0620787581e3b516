// The yardstick of dmf's search (links.hpp). The path is a stack. What is sent along it is put on a link only when the path
// leaves the link, so that an augmentation costs the links that leave the path, from the first full one on.
#include "links.hpp"

// A link of the path. `total` is how much the phase had sent when the path came to the link: what was sent since is not put
// on the link yet. `fills_at` is the total at which a link of the path up to this one is full. It fits in 64 bits: the
// link's room and what leaves the source by other arcs are together at most the sum of all capacities.
struct Visited {
    Place place;
    uint64_t total;
    uint64_t fills_at;
};

class StackWalk {
  public:
    StackWalk(Links &links, Labels &labels, Counts &counts) : links(links), labels(labels), counts(counts) {}

    uint64_t augment_all() {
        total = 0;
        Node node = labels.source;
        for (;;) {
            if (!labels.advance(links, node)) {
                if (path.empty()) return total;
                node = leave_last();
                ++labels.current[node];
                continue;
            }
            enter(labels.current[node]);
            node = links.heads[labels.current[node]];
            if (node == labels.sink) node = augment();
        }
    }

  private:
    Links &links;
    Labels &labels;
    Counts &counts;
    std::vector<Visited> path;
    uint64_t total = 0;

    void enter(Place place) {
        const uint64_t before = path.empty() ? NO_LIMIT : path.back().fills_at;
        path.push_back({place, total, std::min(before, total + links.rooms[place])});
    }

    // Takes the last link off the path, and tells its tail.
    Node leave_last() {
        const Visited last = path.back();
        path.pop_back();
        links.push(last.place, total - last.total);
        return links.tail(last.place);
    }

    // Fills the path, and tells the tail of its first full link, to which the path is cut back.
    Node augment() {
        ++counts.augmentations;
        counts.links += path.size();
        total = path.back().fills_at;
        Node node = labels.sink;
        while (!path.empty() && path.back().fills_at == total) node = leave_last();
        return node;
    }
};

int main() { run<StackWalk>(); }
