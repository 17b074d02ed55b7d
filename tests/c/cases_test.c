/* Document 01's "Sheets to try", P3 to P12, and its sample, as restate them, call by call, as a table; what is refused for a grade; and R-2's ends and empty boxes. (P1 and P2 are in
   sizes_test.c.) */
#include "calls.h"
#include "check.h"

enum { WORDS = 13184, LISTED = 160 };    /* as `sheet` has them */

struct row {
    const char *name;
    size_t words;    /* lent, of the table */
    struct call call;
    struct answer expected;
};

static struct call enter(uint32_t x, uint32_t y, uint32_t tag, uint32_t grade) { return inserting((struct mark){x, y, tag, grade}); }

static struct call wash(uint32_t x, uint32_t y, uint32_t tag) { return striking((struct mark){x, y, tag, 0}); }

static struct call pane(uint32_t x1, uint32_t x2, uint32_t y1, uint32_t y2) { return counting((struct box){x1, x2, y1, y2}); }

static void try_row(const struct loan *l, const struct row *row) {
    struct loan lent = *l;
    lent.table.words = row->words;
    keep(l->table), keep(l->lists[0]), keep(l->lists[1]);
    struct answer r = ask(row->call, &lent);
    CHECK(same_answer(r, row->expected));
    if (!same_answer(r, row->expected)) show_call(row->name, row->call, r);
    CHECK(table_left_alone(row->call, r.number, l->table) && lists_left_alone(row->call, r, l) && all_guarded(l));
}

static void try_all(const struct loan *l, const struct row *rows, size_t n) {
    for (size_t i = 0; i < n; i++) try_row(l, &rows[i]);
}

#define TRY_ALL(loan, rows) try_all(loan, rows, sizeof(rows) / sizeof *(rows))

static void try_rows(const struct loan *l) {
    const struct row rows[] = {
        {"P3", 103, opening(1), {.number = 2}},
        {"P3", 104, opening(1), {.live = 0}},
        {"P4", 104, pane(0, UINT32_MAX, 0, UINT32_MAX), {.count = 0, .visits = 0, .sum = 0, .worst = 0}},
        {"P5", 104, enter(7, 8, 9, 3), {.live = 1}},
        {"P5", 104, pane(7, 8, 8, 9), {.count = 1, .visits = 1, .sum = 3, .worst = 3}},
        {"P10", 104, enter(7, 8, 10, 100), {.number = 7}},
        {"P10", 104, enter(7, 8, 9, 3), {.number = 8}},
        {"P10", 104, enter(7, 8, 9, 4), {.number = 8}},
        {"P11", 104, wash(7, 8, 9), {.live = 0}},
        {"P11", 104, enter(1, 2, 3, 100), {.live = 1}},
        {"P12", WORDS, opening(2), {.live = 0}},
        {"P12", WORDS, enter(3, 4, 5, 40), {.live = 1}},
        {"P12", WORDS, enter(3, 4, 6, 30), {.live = 2}},
        {"P12", WORDS, pane(3, 4, 4, 5), {.count = 2, .visits = 2, .sum = 70, .worst = 40}},
        {"edge", WORDS, opening(40), {.live = 0}},
        {"edge", WORDS, enter(999999, 999999, UINT32_MAX, 1), {.live = 1}},
        {"edge", WORDS, enter(1000000, 0, 0, 1), {.number = 5}},
        {"edge", WORDS, enter(0, 1000000, 0, 1), {.number = 5}},
        {"edge", WORDS, pane(999999, UINT32_MAX, 999999, UINT32_MAX), {.count = 1, .visits = 1, .sum = 1, .worst = 1}},
        {"edge", WORDS, pane(999999, 1000000, 999999, 1000000), {.count = 1, .visits = 1, .sum = 1, .worst = 1}},
        {"edge", WORDS, pane(0, 999999, 0, UINT32_MAX), {.count = 0, .visits = 1, .sum = 0, .worst = 0}},
        {"edge", WORDS, pane(0, UINT32_MAX, 0, 999999), {.count = 0, .visits = 1, .sum = 0, .worst = 0}},
        {"edge", WORDS, pane(1000000, UINT32_MAX, 0, UINT32_MAX), {.count = 0, .visits = 1, .sum = 0, .worst = 0}},
        {"edge", WORDS, pane(UINT32_MAX, UINT32_MAX, UINT32_MAX, UINT32_MAX), {.count = 0, .visits = 1, .sum = 0, .worst = 0}},
        {"edge", WORDS, pane(UINT32_MAX, UINT32_MAX - 1, 0, 0), {.number = 6}},
        {"check", WORDS, examining(), {.live = 1}},
        {"P8", WORDS, opening(40), {.live = 0}},
        {"P8", WORDS, enter(1, 0, 0, 1), {.live = 1, .rebuilt = 0}},
        {"P8", WORDS, enter(2, 0, 0, 1), {.live = 2, .rebuilt = 0}},
        {"P8", WORDS, enter(3, 0, 0, 1), {.live = 3, .rebuilt = 0}},
        {"P8", WORDS, enter(4, 0, 0, 1), {.live = 4, .rebuilt = 0}},
        {"P9", WORDS, enter(5, 0, 0, 1), {.live = 5, .rebuilt = 5}},
    };
    TRY_ALL(l, rows);
    const uint32_t *t = l->table.word, *root = t + record_at(40, ALONG_X, 0, t[ROOT] / 2 % 40);    /* P9: the weights at the root */
    CHECK(root[WEIGHT] == 2 && root[ARM + WEIGHT] == 3);
}

/* Number 12 comes after 3 and 5, before 8 and 7; and every call but open gives 3 for 103 words. */
static void try_grades(const struct loan *l) {
    static const uint32_t outside[] = {0, 101, 256, UINT32_MAX};
    const struct row full[] = {
        {"full", 104, opening(1), {.live = 0}},
        {"full", 104, enter(1, 2, 3, 50), {.live = 1}},
    };
    const struct row after[] = {
        {"another grade", 104, enter(1, 2, 3, 51), {.number = 8}},
        {"another grade", 104, enter(1, 2, 3, 100), {.number = 8}},
        {"kept", 104, pane(1, 2, 2, 3), {.count = 1, .visits = 1, .sum = 50, .worst = 50}},
        {"off", 104, pane(1, 2, 3, 4), {.count = 0, .visits = 1, .sum = 0, .worst = 0}},
        {"crossed", 104, pane(1, 0, 0, 0), {.number = 6}},
        {"short", 103, pane(1, 2, 2, 3), {.number = 3}},
        {"short", 103, enter(1, 2, 4, 1), {.number = 3}},
        {"short", 103, wash(1, 2, 3), {.number = 3}},
        {"short", 103, listing((struct box){1, 2, 2, 3}), {.number = 3}},
        {"short", 103, examining(), {.number = 3}},
        {"sound", 104, examining(), {.live = 1}},
        {"any grade", 104, striking((struct mark){1, 2, 3, 77}), {.live = 0}},
        {"greatest", 104, enter(1, 2, 3, 100), {.live = 1}},
        {"greatest", 104, pane(1, 2, 2, 3), {.count = 1, .visits = 1, .sum = 100, .worst = 100}},
    };
    TRY_ALL(l, full);
    for (size_t i = 0; i < sizeof outside / sizeof *outside; i++) {
        const struct row refused[] = {
            {"3 before 12", 103, enter(1, 2, 4, outside[i]), {.number = 3}},
            {"5 before 12", 104, enter(1000000, 2, 4, outside[i]), {.number = 5}},
            {"5 before 12", 104, enter(1, 1000000, 4, outside[i]), {.number = 5}},
            {"12 before 8", 104, enter(1, 2, 3, outside[i]), {.number = 12}},
            {"12 before 7", 104, enter(1, 2, 4, outside[i]), {.number = 12}},
        };
        TRY_ALL(l, refused);
    }
    TRY_ALL(l, after);
}

/* R-2 on the sample's three marks: a mark on the low end of a side is in the box, one on the high end is not; a box without a side is accepted and empty, and its
   visits are those of the written search. */
static void try_sides(const struct loan *l) {
    const struct row rows[] = {
        {"low end of both", WORDS, pane(20, 30, 5, 20), {.count = 1, .visits = 5, .sum = 7, .worst = 7}},
        {"high end of x", WORDS, pane(10, 20, 0, 31), {.count = 1, .visits = 3, .sum = 5, .worst = 5}},
        {"high end of y", WORDS, pane(0, 31, 5, 10), {.count = 1, .visits = 4, .sum = 7, .worst = 7}},
        {"both ends of y", WORDS, pane(0, 31, 10, 20), {.count = 1, .visits = 6, .sum = 5, .worst = 5}},
        {"both ends of x", WORDS, pane(10, 30, 0, UINT32_MAX), {.count = 2, .visits = 5, .sum = 12, .worst = 7}},
        {"empty, at the least", WORDS, pane(10, 10, 0, 31), {.count = 0, .visits = 1, .sum = 0, .worst = 0}},
        {"empty, between", WORDS, pane(15, 15, 0, 31), {.count = 0, .visits = 3, .sum = 0, .worst = 0}},
        {"empty, at the second", WORDS, pane(20, 20, 0, 31), {.count = 0, .visits = 3, .sum = 0, .worst = 0}},
        {"empty, at the greatest", WORDS, pane(30, 30, 0, 31), {.count = 0, .visits = 5, .sum = 0, .worst = 0}},
        {"empty, past all", WORDS, pane(31, 31, 0, 31), {.count = 0, .visits = 1, .sum = 0, .worst = 0}},
        {"empty along y", WORDS, pane(0, 31, 7, 7), {.count = 0, .visits = 4, .sum = 0, .worst = 0}},
        {"empty along both", WORDS, pane(20, 20, 5, 5), {.count = 0, .visits = 3, .sum = 0, .worst = 0}},
        {"crossed by 1", WORDS, pane(20, 19, 5, 5), {.number = 6}},
        {"crossed by 1", WORDS, pane(20, 20, 5, 4), {.number = 6}},
    };
    TRY_ALL(l, rows);
}

/* The sample as restate it. Where `sheet` prints R,11 no call is made. */
static void try_sample(const struct loan *l) {
    static const struct mark listed[] = {{10, 10, 1, 5}, {20, 5, 2, 7}};
    const struct row before[] = {
        {"sample", WORDS, opening(40), {.live = 0}},
        {"sample", WORDS, enter(10, 10, 1, 5), {.live = 1}},
        {"sample", WORDS, enter(20, 5, 2, 7), {.live = 2}},
        {"sample", WORDS, enter(30, 20, 3, 100), {.live = 3}},
        {"P6", WORDS, pane(0, 21, 0, 11), {.count = 2, .visits = 5, .sum = 12, .worst = 7}},
        {"P7", WORDS, pane(0, 31, 0, 11), {.count = 2, .visits = 6, .sum = 12, .worst = 7}},
        {"sample", WORDS, listing((struct box){0, 31, 0, 11}), {.count = 2, .visits = 6, .which = 2}},
    };
    const struct row after[] = {
        {"sample", WORDS, wash(10, 10, 1), {.live = 2}},
        {"sample", WORDS, pane(0, 31, 0, 31), {.count = 2, .visits = 2, .sum = 107, .worst = 100}},
        {"sample", WORDS, wash(10, 10, 1), {.number = 9}},
        {"sample", WORDS, enter(1000000, 0, 1, 101), {.number = 5}},
        {"sample", WORDS, enter(40, 0, 1, 101), {.number = 12}},
        {"sample", WORDS, pane(20, 10, 0, 0), {.number = 6}},
        {"check", WORDS, examining(), {.live = 2}},
    };
    TRY_ALL(l, before);
    CHECK(memcmp(l->lists[1].word, listed, sizeof listed) == 0);
    try_sides(l);
    TRY_ALL(l, after);
}

/* Lists of 4k words and of 4k - 1; and a crossed box before lists that are too short. */
static void try_lists(struct loan *l) {
    const struct box all = {0, 31, 0, 31}, crossed = {1, 0, 0, 0};
    static const size_t lengths[][2] = {{8, 8}, {7, 8}, {8, 7}, {6, 6}, {0, LISTED}, {LISTED, 0}, {0, 0}};
    for (size_t i = 0; i < sizeof lengths / sizeof *lengths; i++) {
        memcpy(l->lent, lengths[i], sizeof l->lent);
        int suffice = lengths[i][0] >= 8 && lengths[i][1] >= 8;
        struct answer listed = {.count = 2, .visits = 4, .which = 2}, refused = {.number = 10, .count = 2};
        try_row(l, &(struct row){"lists", WORDS, listing(all), suffice ? listed : refused});
        try_row(l, &(struct row){"crossed", WORDS, listing(crossed), {.number = 6}});
    }
    try_row(l, &(struct row){"empty", WORDS, listing((struct box){20, 20, 5, 5}), {.count = 0, .visits = 1, .which = 1}});
    try_row(l, &(struct row){"no mark", WORDS, listing((struct box){0, 1, 0, 1}), {.count = 0, .visits = 1, .which = 1}});
}

int main(void) {
    struct loan l = borrow(WORDS, LISTED);
    try_rows(&l);
    try_grades(&l);
    try_sample(&l);
    try_lists(&l);
    pay_back(l);
    return checks_report();
}
