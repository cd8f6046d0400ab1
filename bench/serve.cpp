// Loads over ppq-serve by the client in C, or over std::priority_queue, or over nothing but pipes. bench/serve calls it.
//
// Words: LOAD COUNT BATCH SERVER..
// LOAD is `empty` (requests of no operation), `through` (so many records pushed, and then popped) or `held` (so many events are
// held, and as many times the least is replaced by a later one). BATCH is how many records share a request. SERVER is the words
// of a server, or `heap`; or `echo`, a child that answers each request by the 12 bytes of an empty queue. The word `echoes` alone
// is that child. It prints seconds, and a sum over the records in the order in which they came out.
#include <algorithm>
#include <chrono>
#include <cstdint>
#include <cstdio>
#include <cstdlib>
#include <cstring>
#include <functional>
#include <queue>
#include <string>
#include <utility>
#include <vector>

#include "../clients/c/ppq_client.h"

using Record = std::pair<uint64_t, uint64_t>;
using Heap = std::priority_queue<Record, std::vector<Record>, std::greater<Record>>;

static uint64_t drawn = 7;

static uint64_t draw() {
    drawn ^= drawn << 13, drawn ^= drawn >> 7, drawn ^= drawn << 17;
    return drawn;
}

static void ended(const ppq &queue) {
    std::fprintf(stderr, "status %d: %s\n", queue.status, queue.report);
    std::exit(1);
}

// A server behind the client, or a heap, by the same two calls.
struct Server {
    ppq queue;
    std::vector<uint64_t> numbers;
    explicit Server(char **words) {
        if (ppq_open(&queue, words, 2, PPQ_UP) < 0) ended(queue);
    }
    void push(const std::vector<Record> &records) {
        static_assert(sizeof(Record) == 16, "a record is two numbers");
        if (ppq_push_many(&queue, &records.data()->first, records.size()) < 0) ended(queue);
    }
    void pop(std::vector<Record> &records, size_t count) {
        records.resize(count);
        int64_t got = ppq_pop_many(&queue, &records.data()->first, count);
        if (got < 0) ended(queue);
        records.resize(got);
    }
    void empty() {
        char letter;
        if (ppq_send(&queue) < 0 || ppq_answer(&queue, nullptr, &letter) < 0) ended(queue);
    }
    void close() {
        if (ppq_close(&queue) < 0) ended(queue);
    }
};

struct InMemory {
    Heap heap;
    void push(const std::vector<Record> &records) {
        for (const Record &record : records) heap.push(record);
    }
    void pop(std::vector<Record> &records, size_t count) {
        records.clear();
        for (; count && !heap.empty(); count--) {
            records.push_back(heap.top());
            heap.pop();
        }
    }
    void empty() {}
    void close() {}
};

static uint64_t sum;

static void add(const std::vector<Record> &records) {
    for (const Record &record : records) sum = sum * 31 + record.first + record.second;
}

template <class Queue> static void fill(Queue &queue, size_t count, size_t batch) {
    std::vector<Record> records;
    for (size_t at = 0; at < count; at += records.size()) {
        records.clear();
        while (records.size() < std::min(batch, count - at)) records.push_back(Record{draw() >> 16, draw()});
        queue.push(records);
    }
}

template <class Queue> static void run(const std::string &load, Queue &queue, size_t count, size_t batch) {
    std::vector<Record> records;
    if (load == "empty") {
        for (size_t i = 0; i < count; i++) queue.empty();
        return;
    }
    fill(queue, count, batch);
    if (load == "through") {
        do {
            queue.pop(records, batch);
            add(records);
        } while (!records.empty());
        return;
    }
    for (size_t at = 0; at < count; at += records.size()) {
        queue.pop(records, std::min(batch, count - at));
        add(records);
        for (Record &record : records) record = Record{record.first + (draw() >> 16), draw()};
        queue.push(records);
    }
}

// Answers requests by the frame of an empty queue, whatever they ask.
static int echoes() {
    unsigned char bytes[65536], answer[12] = {0, 0, 0, 8};
    for (ssize_t got; (got = read(0, bytes, sizeof bytes)) > 0;)
        if (write(1, answer, sizeof answer) != sizeof answer) return 4;
    return 0;
}

int main(int count, char **words) {
    if (count == 2 && std::string(words[1]) == "echoes") return echoes();
    if (count < 5) return 2;
    std::string load = words[1], server = words[4];
    size_t records = std::strtoull(words[2], nullptr, 10), batch = std::strtoull(words[3], nullptr, 10);
    char echo[] = "echoes", *child[] = {words[0], echo, nullptr};
    auto begin = std::chrono::steady_clock::now();
    if (server == "heap") {
        InMemory queue;
        run(load, queue, records, batch);
    } else {
        Server queue(server == "echo" ? child : words + 4);
        run(load, queue, records, batch);
        queue.close();
    }
    double took = std::chrono::duration<double>(std::chrono::steady_clock::now() - begin).count();
    std::printf("%.6f %016llx\n", took, (unsigned long long)sum);
}
