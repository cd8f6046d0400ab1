// The peer of bench/sim: the machine of `ppq sim` (docs/simulation.md) over a heap in memory.
//
// `sim AGENDA UNTIL EVENTS` handles the events of a record file and writes the journal. `agenda SEED COUNT TIMES WORDS`
// writes a record file of so many events: times below TIMES, targets below 12, words below WORDS.
#include <cstdint>
#include <cstdio>
#include <cstdlib>
#include <cstring>
#include <functional>
#include <queue>
#include <string>
#include <vector>

struct Event {
    uint64_t time, target, word;
    bool operator>(const Event &other) const {
        if (time != other.time) return time > other.time;
        if (target != other.target) return target > other.target;
        return word > other.word;
    }
};
using Agenda = std::priority_queue<Event, std::vector<Event>, std::greater<Event>>;

enum class Kind { None, Count, Relay, Fork, Mortal };
struct Place {
    Kind kind;
    uint64_t kept;
};

// Text that is written in pieces of 64 KiB.
struct Lines {
    std::string text;

    void put(const char *piece) { text += piece; }
    void number(uint64_t number) {
        char digits[20], *at = digits + 20;
        do *--at = '0' + number % 10;
        while (number /= 10);
        text.append(at, digits + 20);
    }
    void entry(const Event &event) {
        number(event.time), put(" "), number(event.target), put(" "), number(event.word), put(" ");
    }
    void end_line() {
        text += '\n';
        if (text.size() > 65536 - 84) write();
    }
    void write() {
        if (std::fwrite(text.data(), 1, text.size(), stdout) != text.size()) std::exit(4);
        text.clear();
    }
};

// The program's roster: Count, Relay and Fork by turns at 12 places, and Mortal at 4 more.
static std::vector<Place> roster() {
    std::vector<Place> places;
    for (int i = 0; i < 16; i++) places.push_back({i >= 12 ? Kind::Mortal : i % 3 == 0 ? Kind::Count : i % 3 == 1 ? Kind::Relay : Kind::Fork, 0});
    return places;
}

static void follow(Agenda &agenda, const Event &event, uint64_t by, uint64_t peers, uint64_t word) {
    if (event.time + by >= event.time) agenda.push({event.time + by, (event.target + by) % peers, word});
}

// What the handler of a place replies; its follow-ups are pushed.
static uint64_t answer(Place &place, const Event &event, uint64_t peers, Agenda &agenda) {
    uint64_t word = event.word, before = place.kept;
    switch (place.kind) {
    case Kind::Count:
        return place.kept += word;
    case Kind::Relay:
        place.kept++;
        if (word > 0) follow(agenda, event, 1, peers, word - 1);
        return word;
    case Kind::Fork:
        place.kept = word;
        if (word > 1) follow(agenda, event, 1, peers, word / 2), follow(agenda, event, 2, peers, word / 2);
        return before;
    default:
        place.kept++;
        uint64_t reply = place.kept;
        if (word == 0) place.kind = Kind::None;
        return reply;
    }
}

static void simulate(Agenda &agenda, uint64_t until, uint64_t most) {
    std::vector<Place> places = roster();
    Lines lines;
    const char *how = nullptr;
    uint64_t count = 0;
    while (!how) {
        if (agenda.empty()) how = "empty";
        else if (agenda.top().time > until) how = "until";
        else if (count == most) how = "full";
        else {
            Event event = agenda.top();
            agenda.pop();
            count++;
            lines.entry(event);
            if (event.target >= places.size() || places[event.target].kind == Kind::None) lines.put("lost");
            else lines.number(answer(places[event.target], event, places.size(), agenda));
            lines.end_line();
        }
    }
    lines.put("end "), lines.put(how), lines.put(" count "), lines.number(count), lines.put("\n");
    lines.write();
}

static uint64_t big_endian(const unsigned char *bytes) {
    uint64_t number = 0;
    for (int i = 0; i < 8; i++) number = number << 8 | bytes[i];
    return number;
}

static Agenda read(const char *name) {
    std::FILE *file = std::fopen(name, "rb");
    if (!file) std::exit(11);
    std::vector<Event> events;
    std::vector<unsigned char> piece(24 * 4096);
    for (size_t n; (n = std::fread(piece.data(), 24, 4096, file)) > 0;)
        for (size_t i = 0; i < n; i++) events.push_back({big_endian(&piece[24 * i]), big_endian(&piece[24 * i + 8]), big_endian(&piece[24 * i + 16])});
    std::fclose(file);
    return Agenda(std::greater<Event>(), std::move(events));
}

static void put_number(uint64_t number) {
    for (int shift = 56; shift >= 0; shift -= 8) std::putchar(number >> shift & 255);
}

// Numbers that follow from a seed: those of splitmix64.
static uint64_t drawn(uint64_t &seed) {
    uint64_t z = seed += 0x9e3779b97f4a7c15;
    z = (z ^ z >> 30) * 0xbf58476d1ce4e5b9;
    z = (z ^ z >> 27) * 0x94d049bb133111eb;
    return z ^ z >> 31;
}

int main(int count, char **words) {
    if (count == 5 && !std::strcmp(words[1], "sim")) {
        Agenda agenda = read(words[2]);
        simulate(agenda, std::strtoull(words[3], nullptr, 10), std::strtoull(words[4], nullptr, 10));
        return 0;
    }
    if (count == 6 && !std::strcmp(words[1], "agenda")) {
        uint64_t seed = std::strtoull(words[2], nullptr, 10), n = std::strtoull(words[3], nullptr, 10);
        uint64_t times = std::strtoull(words[4], nullptr, 10), below = std::strtoull(words[5], nullptr, 10);
        for (; n > 0; n--) {
            put_number(drawn(seed) % times), put_number(drawn(seed) % 12), put_number(drawn(seed) % below);
        }
        return 0;
    }
    return 2;
}
