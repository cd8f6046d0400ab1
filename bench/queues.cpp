// The peers of bench/device: a heap in memory, and with -DSTXXL the priority queue of STXXL, which keeps its
// records on a disk.
//
// Words: `drain SEED COUNT` adds the records of the command `gen SEED COUNT` and removes them all. `below SEED
// COUNT` adds them, removes each whose key is below 2^63 and adds one whose key is greater by 2^63, and then
// removes them all. `hold SEED COUNT` adds COUNT records whose keys are below 2^40; then COUNT times it removes the
// least and adds one whose key is greater by a number below 2^40. Each prints the count, the first and the last of
// what was removed and the sum of the keys, as the command `drain` does. `hold SEED COUNT longest` prints also how
// many microseconds the longest of its calls took. `print FILE` adds the records of a record file, removes them all
// and prints their lines. `records SEED COUNT` writes a record file of the records of `gen SEED COUNT`.
#include "pair_queue.hpp"
#include <algorithm>
#include <chrono>
#include <cinttypes>
#include <cstdint>
#include <cstdio>
#include <cstdlib>
#include <cstring>

static Queue &queue() {
    static Queue *made = new_queue();
    return *made;
}

struct Summary {
    uint64_t count = 0, sum = 0;
    Pair first{0, 0}, last{0, 0};

    void add(const Pair &pair) {
        if (count++ == 0) first = pair;
        last = pair;
        sum += pair.key;
    }
    void print() const {
        std::printf("count %" PRIu64 " first %" PRIu64 " %" PRIu64 " last %" PRIu64 " %" PRIu64 " sum %" PRIu64 "\n",
                    count, first.key, first.value, last.key, last.value, sum);
    }
};

static uint64_t next(uint64_t &number) { return number = number * 6364136223846793005u + 1442695040888963407u; }

static void drain(Queue &held, uint64_t number, uint64_t count) {
    Summary summary;
    for (uint64_t i = 0; i < count; i++) held.push({next(number), i});
    for (uint64_t i = 0; i < count; i++) summary.add(take(held));
    summary.print();
}

static void below(Queue &held, uint64_t number, uint64_t count) {
    const Pair limit{uint64_t{1} << 63, 0};
    Summary summary;
    for (uint64_t i = 0; i < count; i++) held.push({next(number), i});
    while (!held.empty() && held.top() < limit) {
        Pair least = take(held);
        summary.add(least);
        held.push({least.key + limit.key, least.value});
    }
    while (!held.empty()) summary.add(take(held));
    summary.print();
}

// The longest of some calls, if they are timed.
struct Watch {
    bool on;
    std::chrono::steady_clock::duration longest{0};

    template <class Call> void time(Call call) {
        if (!on) return call();
        auto start = std::chrono::steady_clock::now();
        call();
        longest = std::max(longest, std::chrono::steady_clock::now() - start);
    }
    void print() const {
        auto micros = std::chrono::duration_cast<std::chrono::microseconds>(longest);
        if (on) std::printf("longest %lld\n", static_cast<long long>(micros.count()));
    }
};

static void hold(Queue &held, uint64_t number, uint64_t count, Watch watch) {
    Summary summary;
    for (uint64_t i = 0; i < count; i++) watch.time([&] { held.push({next(number) >> 24, i}); });
    for (uint64_t i = 0; i < count; i++) {
        Pair least{0, 0};
        watch.time([&] { least = take(held); });
        summary.add(least);
        watch.time([&] { held.push({least.key + (next(number) >> 24), count + i}); });
    }
    summary.print();
    watch.print();
}

static bool print(Queue &held, const char *name) {
    FILE *file = std::fopen(name, "rb");
    if (!file) return false;
    uint64_t words[2];
    while (std::fread(words, sizeof words, 1, file) == 1)
        held.push({__builtin_bswap64(words[0]), __builtin_bswap64(words[1])});
    std::fclose(file);
    while (!held.empty()) {
        Pair least = take(held);
        std::printf("%" PRIu64 " %" PRIu64 "\n", least.key, least.value);
    }
    return true;
}

static void records(uint64_t number, uint64_t count) {
    for (uint64_t i = 0; i < count; i++) {
        uint64_t words[2] = {__builtin_bswap64(next(number)), __builtin_bswap64(i)};
        std::fwrite(words, sizeof words, 1, stdout);
    }
}

int main(int argc, char **argv) {
    if (argc == 3 && !std::strcmp(argv[1], "print")) return print(queue(), argv[2]) ? 0 : 1;
    bool timed = argc == 5 && !std::strcmp(argv[4], "longest");
    if (argc != 4 && !timed) return 2;
    uint64_t seed = std::strtoull(argv[2], nullptr, 10), count = std::strtoull(argv[3], nullptr, 10);
    if (!std::strcmp(argv[1], "drain")) drain(queue(), seed, count);
    else if (!std::strcmp(argv[1], "below")) below(queue(), seed, count);
    else if (!std::strcmp(argv[1], "hold")) hold(queue(), seed, count, Watch{timed});
    else if (!std::strcmp(argv[1], "records")) records(seed, count);
    else return 2;
#ifdef STXXL
    delete &queue(); // so that its file is removed
#endif
}
