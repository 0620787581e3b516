// The yardstick for very long paths (links.hpp). The path has a slot for each of its places. After the first full link the
// old path stays in its slots: where the walk comes back to it, it is whole again. So an augmentation costs the links
// that change, and not those after the first full one.
#include "links.hpp"

// The least of some numbers, and its first place. `least[1]` is the least of all; those below `k` are at 2k and 2k + 1.
class LeastTree {
  public:
    // Makes room for numbers; each is NO_LIMIT.
    void reset(size_t count) {
        for (leaves = 1; leaves < count;) leaves *= 2;
        least.assign(2 * leaves, NO_LIMIT);
    }

    uint64_t top() const { return least[1]; }

    void set(size_t at, uint64_t number) {
        size_t k = leaves + at;
        least[k] = number;
        while ((k /= 2) > 0) {
            const uint64_t below = std::min(least[2 * k], least[2 * k + 1]);
            if (least[k] == below) break;
            least[k] = below;
        }
    }

    size_t first_least() const {
        size_t k = 1;
        while (k < leaves) k = 2 * k + (least[2 * k] != least[1]);
        return k - leaves;
    }

  private:
    size_t leaves = 1;
    std::vector<uint64_t> least;
};

// A link in a slot. `total` is how much the phase had sent when the path came to the link: what was sent since is not put on
// the link yet.
struct Visited {
    Place place;
    uint64_t total;
};

class TreeWalk {
  public:
    TreeWalk(Links &links, Labels &labels, Counts &counts) : links(links), labels(labels), counts(counts) {}

    uint64_t augment_all() {
        const size_t length = labels.labels[labels.source];
        path.resize(length);
        fills_at.reset(length);
        total = 0;
        at = 0;
        suffix = length;
        Node node = labels.source;
        while (labels.advance(links, node) || at > 0) {
            if (labels.current[node] == links.first[node + 1]) {
                node = leave(--at);
                ++labels.current[node];
            } else {
                enter(labels.current[node]);
                node = links.heads[labels.current[node]];
                if (is_whole(node)) node = augment();
            }
        }
        while (suffix < length) leave(suffix++);
        return total;
    }

  private:
    Links &links;
    Labels &labels;
    Counts &counts;
    std::vector<Visited> path;
    LeastTree fills_at; // by slot: the total at which its link is full; it fits in 64 bits, as in phases.cpp
    uint64_t total = 0;
    size_t at = 0;     // the walk has filled the slots below
    size_t suffix = 0; // the slots from here on have the end of an older path; those between are empty

    void enter(Place place) {
        if (at == suffix) leave(suffix++);
        path[at] = {place, total};
        fills_at.set(at, total + links.rooms[place]);
        ++at;
    }

    // Takes the link out of a slot, and tells its tail.
    Node leave(size_t slot) {
        links.push(path[slot].place, total - path[slot].total);
        return links.tail(path[slot].place);
    }

    // Whether the walk, which has come to a node, goes on with the older path from there to the sink.
    bool is_whole(Node node) const {
        return at == suffix && (node == labels.sink || node == links.tail(path[at].place));
    }

    // Fills the path, unless one of the older links is full, and tells the tail of its first full link.
    Node augment() {
        if (total < fills_at.top()) {
            ++counts.augmentations;
            counts.links += path.size();
        }
        total = fills_at.top();
        at = fills_at.first_least();
        suffix = at + 1;
        return leave(at);
    }
};

int main() { run<TreeWalk>(); }
