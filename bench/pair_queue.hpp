// A queue of pairs, the smallest first: a heap in memory, or with -DSTXXL the priority queue of STXXL, which keeps its
// records on a disk. -DQUEUE_BYTES=N gives such a queue N bytes of memory, and pools of a quarter of it beside them.
#include <cstdint>
#include <functional>
#include <ostream>
#include <queue>
#include <vector>

struct Pair {
    uint64_t key, value;
    bool operator<(const Pair &other) const {
        return key < other.key || (key == other.key && value < other.value);
    }
    bool operator>(const Pair &other) const { return other < *this; }
    bool operator==(const Pair &other) const { return key == other.key && value == other.value; }
};
inline std::ostream &operator<<(std::ostream &out, const Pair &pair) { return out << pair.key << " " << pair.value; }

#ifdef STXXL
#include <stxxl/priority_queue>
#ifndef QUEUE_BYTES
#define QUEUE_BYTES (16 << 20)
#endif
struct After {
    bool operator()(const Pair &one, const Pair &other) const { return other < one; }
    Pair min_value() const { return {UINT64_MAX, UINT64_MAX}; }
};
// Room for 96 * 1024 * 1024 pairs; one pool is for reading and one for writing.
using Queue = stxxl::PRIORITY_QUEUE_GENERATOR<Pair, After, QUEUE_BYTES, 96 * 1024>::result;
inline Queue *new_queue() { return new Queue(QUEUE_BYTES / 8, QUEUE_BYTES / 8); }
#else
using Queue = std::priority_queue<Pair, std::vector<Pair>, std::greater<Pair>>;
inline Queue *new_queue() { return new Queue; }
#endif

// Takes the smallest pair out.
inline Pair take(Queue &held) {
    Pair least = held.top();
    held.pop();
    return least;
}
