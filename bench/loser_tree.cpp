// The usual loser tree: the merge that bench/merge compares crates/ppq_bench with.
//
// Each inner node holds the record, the run and a flag of the loser of its match, as in Knuth (The Art
// of Computer Programming, volume 3, 5.4.1) and in the multiway merge of the GNU library. The records
// are those of crates/ppq_bench. Prints, for each number of records and of runs, the nanoseconds a
// record.
#include <algorithm>
#include <chrono>
#include <cstdint>
#include <cstdio>
#include <vector>

struct Pair {
    uint64_t key, value;
    bool operator<(const Pair &other) const {
        return key < other.key || (key == other.key && value < other.value);
    }
};

struct Run {
    const Pair *next, *end;
};

class LoserTree {
    struct Node {
        Pair item;
        uint32_t run;
        bool spent; // the run has no more records
    };

    std::vector<Run> runs;
    std::vector<Node> losers;
    Node winner;

    static bool goes_first(const Node &a, const Node &b) {
        if (a.spent || b.spent) return !a.spent;
        if (a.item < b.item) return true;
        if (b.item < a.item) return false;
        return a.run < b.run;
    }

    Node head(uint32_t run) {
        if (runs[run].next == runs[run].end) return {{0, 0}, run, true};
        return {*runs[run].next, run, false};
    }

    Node play(size_t node) {
        size_t leaves = runs.size();
        if (node >= leaves) return head(node - leaves);
        Node one = play(2 * node), other = play(2 * node + 1);
        if (goes_first(one, other)) {
            losers[node] = other;
            return one;
        }
        losers[node] = one;
        return other;
    }

public:
    explicit LoserTree(const std::vector<std::vector<Pair>> &lists) : losers(lists.size()) {
        for (const auto &list : lists) runs.push_back({list.data(), list.data() + list.size()});
        winner = play(1);
    }

    void merge(Pair *out, size_t count) {
        for (size_t at = 0; at < count; at++) {
            out[at] = winner.item;
            uint32_t run = winner.run;
            runs[run].next++;
            winner = head(run);
            for (size_t node = (runs.size() + run) / 2; node > 0; node /= 2)
                if (goes_first(losers[node], winner)) std::swap(losers[node], winner);
        }
    }
};

static std::vector<Pair> run_of(uint64_t seed, size_t size) {
    std::vector<Pair> items;
    uint64_t number = seed;
    for (size_t i = 0; i < size; i++) {
        number = number * 6364136223846793005u + 1442695040888963407u;
        items.push_back({number ^ (number >> 29), number});
    }
    std::sort(items.begin(), items.end());
    return items;
}

int main() {
    const size_t merged = 67108864; // records that are merged in all to time one merge
    for (size_t records : {262144, 2097152}) {
        for (size_t count : {8, 64, 512}) {
            std::vector<std::vector<Pair>> lists;
            for (size_t run = 0; run < count; run++) lists.push_back(run_of(run, records / count));
            std::vector<Pair> out(records);
            double best = 1e18;
            for (size_t turn = 0; turn < merged / records; turn++) {
                auto start = std::chrono::steady_clock::now();
                LoserTree tree(lists);
                tree.merge(out.data(), out.size());
                auto end = std::chrono::steady_clock::now();
                best = std::min(best, std::chrono::duration<double, std::nano>(end - start).count() / records);
            }
            if (!std::is_sorted(out.begin(), out.end())) return 1;
            std::printf("%zu %zu %.1f\n", records, count, best);
        }
    }
}
