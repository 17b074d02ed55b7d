// The work that every peer does: graded marks in rows of scratches and single stones, strikes and insertions again, and trial panes of three sizes. The same
// numbers come out on every machine.
#ifndef WORK_HPP
#define WORK_HPP

#include <cstdint>
#include <vector>

struct Mark {
    uint32_t x, y, tag, grade;
};

struct Pane {
    uint32_t x1, x2, y1, y2;
};

constexpr uint32_t SHEET = 1000000;  // hundredths of a millimetre: ten metres
constexpr uint32_t CENTIMETRE = 1000;
constexpr uint32_t PANE_SIDES[] = {3, 30, 300};  // in centimetres
constexpr uint32_t WORST_GRADE = 100;            // the best is 1
constexpr uint32_t ROUNDS = 4;                   // of strikes and insertions again

class Random {
    uint64_t state;

public:
    explicit Random(uint64_t seed) : state(seed) {}

    uint64_t next() {  // splitmix64
        uint64_t z = state += 0x9E3779B97F4A7C15;
        z = (z ^ (z >> 30)) * 0xBF58476D1CE4E5B9;
        z = (z ^ (z >> 27)) * 0x94D049BB133111EB;
        return z ^ (z >> 31);
    }

    uint32_t below(uint32_t n) { return static_cast<uint32_t>(next() % n); }
};

// A camera's marks without end: one entry in five is a single stone, the others are scratches of 8 to 39 marks along a line, up to 3 mm apart in x and in y.
// Coordinates are cut to multiples of `grid`: with a wide one the marks lie in rows, and many share x or y.
// The tags are all different, so no mark comes twice. The grades have random numbers of their own: where the marks lie does not depend on them.
class Camera {
    Random random, grades;
    uint32_t grid, tag = 0, left = 0;
    int64_t x = 0, y = 0, dx = 0, dy = 0;

    uint32_t on_sheet(int64_t v) const { return (v < 0 ? 0 : v >= SHEET ? SHEET - 1 : static_cast<uint32_t>(v)) / grid * grid; }

public:
    Camera(uint64_t seed, uint32_t grid) : random(seed), grades(~seed), grid(grid) {}

    Mark next() {
        if (left == 0) {
            x = random.below(SHEET);
            y = random.below(SHEET);
            left = random.below(5) == 0 ? 1 : 8 + random.below(32);
            dx = static_cast<int64_t>(random.below(601)) - 300;
            dy = static_cast<int64_t>(random.below(601)) - 300;
        }
        left--;
        Mark m = {on_sheet(x), on_sheet(y), tag++, 1 + grades.below(WORST_GRADE)};
        x += dx + random.below(21) - 10;
        y += dy + random.below(21) - 10;
        return m;
    }
};

struct Work {
    struct Round {
        std::vector<Mark> strikes, insertions;
    };

    std::vector<Mark> marks;
    std::vector<Round> rounds;
    std::vector<Pane> panes[3];

    // n marks; as many strikes of random live marks and insertions of new ones, in four rounds; `trials` panes of each size.
    Work(uint32_t n, uint32_t trials, uint32_t grid) {
        Camera camera(n, grid);
        Random random(n + 1);
        for (uint32_t i = 0; i < n; i++) marks.push_back(camera.next());
        std::vector<Mark> live = marks;
        for (uint32_t r = 0; r < ROUNDS; r++) {
            Round round;
            for (uint32_t i = 0; i < n / ROUNDS; i++) {
                uint32_t k = random.below(static_cast<uint32_t>(live.size()));
                round.strikes.push_back(live[k]);
                live[k] = live.back();
                live.pop_back();
            }
            for (uint32_t i = 0; i < n / ROUNDS; i++) round.insertions.push_back(camera.next());
            live.insert(live.end(), round.insertions.begin(), round.insertions.end());
            rounds.push_back(round);
        }
        for (int k = 0; k < 3; k++) {
            uint32_t side = PANE_SIDES[k] * CENTIMETRE;
            for (uint32_t i = 0; i < trials; i++) {
                uint32_t x = random.below(SHEET - side), y = random.below(SHEET - side);
                panes[k].push_back({x, x + side, y, y + side});
            }
        }
    }
};

#endif
