// bench [--rows] N TRIALS REPEATS [PEER...]: every peer, or those named, does the work for N marks, with --rows for marks at whole centimetres; a line for each
// stage of each peer goes to standard output:
//   peer,n,stage,operations,ns per operation,sum of answers,sum of the sums of grades,sum of the worst grades,sum of visits,most visits
// The answers are counts, or for a change what was rebuilt. The peers take turns, and a stage's time is the least of its repeats. Status 1 where two peers that
// tell the same thing differ, 2 for arguments that make no sense. Under valgrind each stage is dumped by name, with one PEER and one repeat.
#include "peers.hpp"

#include <algorithm>
#include <chrono>
#include <cinttypes>
#include <cstdio>
#include <string>
#include <valgrind/callgrind.h>

struct Stage {
    double ns = 1e300;
    uint64_t operations = 0, answers = 0, sums = 0, worsts = 0, visits = 0;
    uint64_t digest = 0;  // of every single count, sum and worst, in order; made apart from the clock
    uint32_t most = 0;
};

using Stages = std::vector<std::pair<std::string, Stage>>;

// One measurement of a stage: its parts may come between those of others.
class Meter {
    std::chrono::duration<double, std::nano> spent{0};

public:
    Stage stage;

    template <class Part> void measure(uint64_t operations, Part part) {
        stage.operations += operations;
        CALLGRIND_TOGGLE_COLLECT;
        auto start = std::chrono::steady_clock::now();
        part();
        spent += std::chrono::steady_clock::now() - start;
        CALLGRIND_TOGGLE_COLLECT;
        stage.ns = spent.count() / static_cast<double>(stage.operations);
    }
};

template <class Peer, class How> void change(Meter &m, Peer &peer, const std::vector<Mark> &marks, How how) {
    m.measure(marks.size(), [&] {
        for (Mark mark : marks) m.stage.answers += (peer.*how)(mark);
    });
}

// Under valgrind the instructions since the last dump are those of this stage: rounds are run stage by stage there.
static void finish(Stages &stages, const std::string &name, const Meter &m) {
    if (RUNNING_ON_VALGRIND) CALLGRIND_DUMP_STATS_AT(name.c_str());
    stages.emplace_back(name, m.stage);
}

template <class Peer> Stages run(const Work &work) {
    Stages stages;
    Peer peer(static_cast<uint32_t>(work.marks.size()));
    Meter fill, strike, again;
    change(fill, peer, work.marks, &Peer::insert);
    finish(stages, "insert", fill);
    for (const Work::Round &round : work.rounds) {
        change(strike, peer, round.strikes, &Peer::strike);
        if (RUNNING_ON_VALGRIND) CALLGRIND_DUMP_STATS_AT("strike");
        change(again, peer, round.insertions, &Peer::insert);
        if (RUNNING_ON_VALGRIND) CALLGRIND_DUMP_STATS_AT("insert again");
    }
    stages.emplace_back("strike", strike.stage);
    stages.emplace_back("insert again", again.stage);
    for (int k = 0; k < 3; k++) {
        Meter m;
        m.measure(work.panes[k].size(), [&] {
            for (Pane pane : work.panes[k]) {
                Counted c = peer.count(pane);
                m.stage.answers += c.marks;
                m.stage.sums += c.sum;
                m.stage.worsts += c.worst;
                m.stage.visits += c.visits;
                if (m.stage.most < c.visits) m.stage.most = c.visits;
            }
        });
        for (Pane pane : work.panes[k]) {
            Counted c = peer.count(pane);
            for (uint32_t figure : {c.marks, c.sum, c.worst}) m.stage.digest = 31 * m.stage.digest + figure;
        }
        finish(stages, "count " + std::to_string(PANE_SIDES[k]) + " cm", m);
    }
    return stages;
}

// Keeps the least time of each stage.
static void keep(Stages &best, const Stages &now) {
    if (best.empty()) {
        best = now;
        return;
    }
    for (size_t i = 0; i < best.size(); i++)
        if (now[i].second.ns < best[i].second.ns) best[i].second = now[i].second;
}

static int fail(const char *peer, const std::string &stage, const char *what) {
    fprintf(stderr, "bench: %s differs in the %s of stage '%s'\n", peer, what, stage.c_str());
    return 1;
}

struct Peer {
    const char *name;
    Stages (*run)(const Work &);
    bool tells;  // visits, and what was rebuilt
    Stages best;
};

// Whether the peers agree, each with the first.
static int compare(const std::vector<Peer> &peers) {
    const Peer &first = peers[0];
    for (const Peer &p : peers)
        for (size_t i = 0; i < p.best.size(); i++) {
            const std::string &name = p.best[i].first;
            const Stage &a = first.best[i].second, &b = p.best[i].second;
            bool counts = name.compare(0, 5, "count") == 0, told = p.tells && first.tells;
            if ((counts || told) && (a.answers != b.answers || a.digest != b.digest)) return fail(p.name, name, "answers");
            if (counts && (a.sums != b.sums || a.worsts != b.worsts)) return fail(p.name, name, "grades");
            if (told && (a.visits != b.visits || a.most != b.most)) return fail(p.name, name, "visits");
        }
    return 0;
}

// The peers of these names, or all; none where a name is unknown.
static std::vector<Peer> choose(const std::vector<std::string> &names) {
    const Peer all[] = {{"register", run<Register>, true, {}}, {"twin", run<Twin>, true, {}}, {"parted", run<Parted>, true, {}},
                        {"scan", run<Scan>, false, {}}, {"rstar", run<RStar>, false, {}}, {"quadratic", run<Quadratic>, false, {}}};
    std::vector<Peer> chosen;
    for (const Peer &p : all)
        if (names.empty() || std::find(names.begin(), names.end(), p.name) != names.end()) chosen.push_back(p);
    if (!names.empty() && chosen.size() != names.size()) chosen.clear();
    return chosen;
}

static void print(const Peer &p, uint32_t n) {
    for (const auto &[name, s] : p.best)
        printf("%s,%u,%s,%" PRIu64 ",%.2f,%" PRIu64 ",%" PRIu64 ",%" PRIu64 ",%" PRIu64 ",%u\n", p.name, n, name.c_str(), s.operations, s.ns, s.answers,
               s.sums, s.worsts, s.visits, s.most);
}

int main(int argc, char **argv) {
    bool rows = argc > 1 && argv[1] == std::string("--rows");
    argc -= rows;
    argv += rows;
    if (argc < 4) return 2;
    uint32_t n = static_cast<uint32_t>(atoi(argv[1])), trials = static_cast<uint32_t>(atoi(argv[2]));
    std::vector<Peer> peers = choose({argv + 4, argv + argc});
    if (peers.empty()) return 2;
    Work work(n, trials, rows ? CENTIMETRE : 1);
    for (int i = 0; i < atoi(argv[3]); i++)
        for (Peer &p : peers) keep(p.best, p.run(work));
    for (const Peer &p : peers) print(p, n);
    return compare(peers);
}
