// The peers of bench/sweep: the levels of `ppq sweep` (docs/sweep.md).
//
// `array EDGES NODES` sorts the edges of a record file in memory, and goes over them once with an array of levels.
// `queues EDGES NODES` does what `ppq sweep` does over two heaps in memory, or with -DSTXXL over two priority queues of STXXL
// (pair_queue.hpp). `pass NODES` reads lines `u v` from standard input, sorted by u, and goes over them once with an array
// of levels. Each prints the line of every node. `edges SEED COUNT NODES` writes a record file of so many random edges, and
// `text EDGES` the lines `u v` of one.
#include "pair_queue.hpp"
#include <algorithm>
#include <cstdint>
#include <cstdio>
#include <cstdlib>
#include <cstring>
#include <string>
#include <utility>
#include <vector>

// Text that is written in pieces of 64 KiB.
struct Lines {
    std::string text;

    void number(uint64_t number) {
        char digits[20], *at = digits + 20;
        do *--at = '0' + number % 10;
        while (number /= 10);
        text.append(at, digits + 20);
    }
    void line(uint64_t one, uint64_t other) {
        number(one), text += ' ', number(other), text += '\n';
        if (text.size() > 65536 - 42) write();
    }
    void write() {
        if (std::fwrite(text.data(), 1, text.size(), stdout) != text.size()) std::exit(4);
        text.clear();
    }
    ~Lines() { write(); }
};

// Calls `each` with the numbers of every edge of a record file.
template <class Each> static void read(const char *name, Each each) {
    std::FILE *file = std::fopen(name, "rb");
    if (!file) std::exit(11);
    std::vector<uint64_t> piece(2 * 4096);
    for (size_t n; (n = std::fread(piece.data(), 16, 4096, file)) > 0;)
        for (size_t i = 0; i < n; i++) each(__builtin_bswap64(piece[2 * i]), __builtin_bswap64(piece[2 * i + 1]));
    std::fclose(file);
}

// The levels of the nodes up to one that comes up, and what is known of those behind it.
struct Levels {
    std::vector<uint32_t> levels;

    explicit Levels(uint64_t nodes) : levels(nodes) {}
    void lift(uint64_t from, uint64_t to) { levels[to] = std::max(levels[to], levels[from] + 1); }
    void print() const {
        Lines lines;
        for (uint64_t node = 0; node < levels.size(); node++) lines.line(node, levels[node]);
    }
};

static void by_array(const char *name, uint64_t nodes) {
    std::vector<std::pair<uint32_t, uint32_t>> edges; // numbers of nodes are below 2^32
    read(name, [&](uint64_t from, uint64_t to) { edges.emplace_back(from, to); });
    std::sort(edges.begin(), edges.end());
    Levels levels(nodes);
    for (const auto &edge : edges) levels.lift(edge.first, edge.second);
    levels.print();
}

static void by_queues(const char *name, uint64_t nodes) {
    Queue &edges = *new_queue(), &notes = *new_queue();
    read(name, [&](uint64_t from, uint64_t to) { edges.push({from, to}); });
    {
        Lines lines;
        for (uint64_t node = 0; node < nodes; node++) {
            uint64_t level = 0;
            while (!notes.empty() && notes.top().key <= node) level = std::max(level, take(notes).value + 1);
            lines.line(node, level);
            while (!edges.empty() && edges.top().key <= node) notes.push({take(edges).value, level});
        }
    }
#ifdef STXXL
    delete &edges, delete &notes; // so that their file is removed
#endif
}

static void by_pass(uint64_t nodes) {
    Levels levels(nodes);
    char line[64];
    while (std::fgets(line, sizeof line, stdin)) {
        char *rest;
        uint64_t from = std::strtoull(line, &rest, 10);
        levels.lift(from, std::strtoull(rest, nullptr, 10));
    }
    levels.print();
}

// Numbers that follow from a seed: those of splitmix64.
static uint64_t drawn(uint64_t &seed) {
    uint64_t z = seed += 0x9e3779b97f4a7c15;
    z = (z ^ z >> 30) * 0xbf58476d1ce4e5b9;
    z = (z ^ z >> 27) * 0x94d049bb133111eb;
    return z ^ z >> 31;
}

// An edge joins two nodes that are drawn, and leads to the greater one.
static void make_edges(uint64_t seed, uint64_t count, uint64_t nodes) {
    std::vector<uint64_t> piece;
    for (; count > 0; count--) {
        uint64_t one = drawn(seed) % nodes, other = drawn(seed) % (nodes - 1);
        other += other >= one;
        piece.push_back(__builtin_bswap64(std::min(one, other))), piece.push_back(__builtin_bswap64(std::max(one, other)));
        if (piece.size() == 8192 || count == 1) {
            if (std::fwrite(piece.data(), 8, piece.size(), stdout) != piece.size()) std::exit(4);
            piece.clear();
        }
    }
}

int main(int count, char **words) {
    auto is = [&](const char *word, int wanted) { return count == wanted && !std::strcmp(words[1], word); };
    auto number = [&](int i) { return std::strtoull(words[i], nullptr, 10); };
    if (is("array", 4)) by_array(words[2], number(3));
    else if (is("queues", 4)) by_queues(words[2], number(3));
    else if (is("pass", 3)) by_pass(number(2));
    else if (is("edges", 5)) make_edges(number(2), number(3), number(4));
    else if (is("text", 3)) {
        Lines lines;
        read(words[2], [&](uint64_t from, uint64_t to) { lines.line(from, to); });
    } else return 2;
}
