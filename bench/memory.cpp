// memory N...: how much of a table's words is ever written. For each N a table of capacity N is opened, filled with the work's marks and taken through the
// rounds of strikes and insertions. A line goes to standard output:
//   n,words of the table,words written by open,after the fill,after the rounds,pages of the table,pages written by open,after the fill,after the rounds,
//   levels,levels written,ns per open
// A page is 4 KiB, counted as if the table began one. The time is the least of many openings, of words that were all written before.
#include "markregister.h"
#include "work.hpp"

#include <chrono>
#include <cstdio>
#include <cstdlib>
#include <vector>

constexpr size_t PAGE_WORDS = 1024;
constexpr int OPENINGS = 101;

// What was written is told by two tables that have the same calls, in words of two patterns: a word that still has both patterns was not written, and a word
// that was written has lost one of them at least, whatever was written.
constexpr uint32_t PATTERNS[] = {0xA5A5A5A5, 0x5A5A5A5A};

static void accept(uint32_t number) {
    if (number != REGISTER_OK) abort();
}

struct Table {
    std::vector<uint32_t> words;
    uint32_t capacity, live = 0, rebuilt = 0;

    Table(uint32_t n, uint32_t pattern) : words(register_words(n), pattern), capacity(n) {}

    void open() { accept(register_open(words.data(), words.size(), capacity, &live)); }

    void insert(const std::vector<Mark> &marks) {
        for (Mark m : marks) accept(register_insert(words.data(), words.size(), m.x, m.y, m.tag, m.grade, &live, &rebuilt));
    }

    void strike(const std::vector<Mark> &marks) {
        for (Mark m : marks) accept(register_strike(words.data(), words.size(), m.x, m.y, m.tag, &live, &rebuilt));
    }
};

struct Written {
    size_t words = 0, pages = 0, levels = 0;
};

class Pair {
    Table first, second;

    bool written(size_t i) const { return first.words[i] != PATTERNS[0] || second.words[i] != PATTERNS[1]; }

public:
    explicit Pair(uint32_t n) : first(n, PATTERNS[0]), second(n, PATTERNS[1]) {}

    template <class Step> void both(Step step) {
        step(first);
        step(second);
    }

    size_t words() const { return first.words.size(); }

    // docs/LAYOUT.md: the levels are 24 C words each, from word 64 + 40 C on.
    Written look() const {
        Written w;
        size_t levels = 64 + 40 * size_t(first.capacity), level = 24 * size_t(first.capacity), page = SIZE_MAX;
        for (size_t i = 0; i < words(); i++) {
            if (!written(i)) continue;
            w.words++;
            if (i / PAGE_WORDS != page) w.pages++;
            page = i / PAGE_WORDS;
            if (i >= levels) w.levels = (i - levels) / level + 1;
        }
        return w;
    }
};

static double ns_per_open(uint32_t n) {
    Table table(n, 0);
    double least = 1e300;
    for (int i = 0; i < OPENINGS; i++) {
        auto start = std::chrono::steady_clock::now();
        table.open();
        std::chrono::duration<double, std::nano> spent = std::chrono::steady_clock::now() - start;
        if (spent.count() < least) least = spent.count();
    }
    return least;
}

static void print(uint32_t n) {
    Work work(n, 0, 1);
    Pair pair(n);
    pair.both([](Table &t) { t.open(); });
    Written open = pair.look();
    pair.both([&](Table &t) { t.insert(work.marks); });
    Written fill = pair.look();
    pair.both([&](Table &t) {
        for (const Work::Round &round : work.rounds) {
            t.strike(round.strikes);
            t.insert(round.insertions);
        }
    });
    Written rounds = pair.look();
    size_t words = pair.words(), pages = (words + PAGE_WORDS - 1) / PAGE_WORDS, levels = ((words - 64) / n - 40) / 24;
    printf("%u,%zu,%zu,%zu,%zu,%zu,%zu,%zu,%zu,%zu,%zu,%.0f\n", n, words, open.words, fill.words, rounds.words, pages, open.pages, fill.pages, rounds.pages,
           levels, rounds.levels, ns_per_open(n));
}

int main(int argc, char **argv) {
    for (int i = 1; i < argc; i++) print(static_cast<uint32_t>(atoi(argv[i])));
}
