// The peer of bench/device on many records: an external sort with the budget of the program.
//
// Generates records as the command `gen SEED COUNT` does, sorts them in runs that fit into memory, writes
// the runs to a file, and reads them back block by block into one merge. It prints the line of
// `drain COUNT`. It is no queue: it knows that nothing is pushed once the first record is popped.
//
// Words: SEED COUNT MEMORY BLOCK FILE, the middle three in records.
#include <algorithm>
#include <cinttypes>
#include <cstdint>
#include <cstdio>
#include <cstdlib>
#include <fcntl.h>
#include <queue>
#include <unistd.h>
#include <vector>

struct Pair {
    uint64_t key, value;
    bool operator<(const Pair &other) const {
        return key < other.key || (key == other.key && value < other.value);
    }
};

static int file;

static void fail(const char *what) {
    std::perror(what);
    std::exit(1);
}

struct Run {
    uint64_t next, end;         // places in the file, in records
    std::vector<Pair> block;    // what was read last
    size_t at = 0;

    bool refill(size_t size) {
        if (next == end) return false;
        block.resize(std::min<uint64_t>(size, end - next));
        ssize_t bytes = block.size() * sizeof(Pair);
        if (pread(file, block.data(), bytes, next * sizeof(Pair)) != bytes) fail("read");
        next += block.size();
        at = 0;
        return true;
    }
};

static std::vector<Run> store(uint64_t seed, uint64_t count, size_t memory) {
    std::vector<Run> runs;
    std::vector<Pair> items;
    uint64_t number = seed;
    for (uint64_t i = 0; i < count;) {
        uint64_t begin = i;
        items.clear();
        for (; i < count && items.size() < memory; i++) {
            number = number * 6364136223846793005u + 1442695040888963407u;
            items.push_back({number, i});
        }
        std::sort(items.begin(), items.end());
        const char *from = reinterpret_cast<const char *>(items.data());
        size_t bytes = items.size() * sizeof(Pair);
        for (size_t done = 0; done < bytes;) {
            ssize_t more = pwrite(file, from + done, bytes - done, begin * sizeof(Pair) + done);
            if (more <= 0) fail("write");
            done += more;
        }
        runs.push_back({begin, i, {}});
    }
    return runs;
}

int main(int argc, char **argv) {
    if (argc != 6) return 2;
    uint64_t seed = std::strtoull(argv[1], nullptr, 10), count = std::strtoull(argv[2], nullptr, 10);
    size_t memory = std::strtoull(argv[3], nullptr, 10), block = std::strtoull(argv[4], nullptr, 10);
    file = open(argv[5], O_RDWR | O_CREAT | O_TRUNC, 0600);
    if (file < 0) fail("open");
    std::vector<Run> runs = store(seed, count, memory);
    auto later = [&](size_t a, size_t b) { return runs[b].block[runs[b].at] < runs[a].block[runs[a].at]; };
    std::priority_queue<size_t, std::vector<size_t>, decltype(later)> heads(later);
    for (size_t run = 0; run < runs.size(); run++)
        if (runs[run].refill(block)) heads.push(run);
    Pair first{0, 0}, last{0, 0};
    uint64_t popped = 0, sum = 0;
    while (!heads.empty()) {
        Run &run = runs[heads.top()];
        last = run.block[run.at];
        if (popped++ == 0) first = last;
        sum += last.key;
        size_t number = heads.top();
        heads.pop();
        if (++run.at < run.block.size() || run.refill(block)) heads.push(number);
    }
    std::printf("count %" PRIu64 " first %" PRIu64 " %" PRIu64 " last %" PRIu64 " %" PRIu64 " sum %" PRIu64 "\n",
                popped, first.key, first.value, last.key, last.value, sum);
}
