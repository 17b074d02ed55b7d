/* All six calls on tables of random runs with some words changed, and on words that were never a table, between guard words: what document 01 says of any
   words, and of a table that is sound all the same. */
#include "check.h"
#include "damage.h"
#include "sound.h"

#include <time.h>

enum { MOST_SECONDS = 2 };    /* of one call; it is processor time, so that others on the machine do not count */

static unsigned long numbers[KINDS][LARGEST_NUMBER + 1], calls, sound_ones;
static clock_t slowest;

/* The number of a call that rests on no tree, where it has one: 0 says that the tree decides. */
static uint32_t settled_number(struct call c, const struct loan *l) {
    int updates = c.kind == INSERT || c.kind == STRIKE, searches = c.kind == COUNT || c.kind == LIST;
    if (c.kind == OPEN && (c.capacity < 1 || c.capacity > LARGEST)) return REGISTER_CAPACITY;
    if (c.kind == OPEN) return l->table.words < words_for(c.capacity) ? REGISTER_SHORT_TABLE : REGISTER_OK;
    if (is_no_table(l->table.kept, l->table.words)) return REGISTER_NOT_A_TABLE;
    if (updates && is_outside(c.mark)) return REGISTER_MARK_OUTSIDE;
    if (c.kind == INSERT && is_grade_outside(c.mark)) return REGISTER_GRADE_OUTSIDE;
    if (searches && is_crossed(c.box)) return REGISTER_BOX_CROSSED;
    return REGISTER_OK;
}

/* Those numbers; an opening has others, which no other call gives. */
static int rests_on_no_tree(uint32_t number) {
    return number == REGISTER_NOT_A_TABLE || number == REGISTER_MARK_OUTSIDE || number == REGISTER_GRADE_OUTSIDE || number == REGISTER_BOX_CROSSED;
}

/* Where the search for a mark comes to by the words, coded from docs/LAYOUT.md: a slot that has it, one that has another mark or none at all, or nowhere. */
enum sought { HAS, LACKS, NOWHERE };

static enum sought sought_by_words(const uint32_t *t, struct mark m) {
    uint32_t node = t[ROOT];
    if (t[ROOT + WEIGHT] == 0) return LACKS;
    for (int steps = 0; steps < 1000; steps++) {
        if (node / 2 >= t[1]) return NOWHERE;
        struct mark here = mark_at(t, node / 2);
        if (node % 2 == 0) return same_mark(here, m) ? HAS : LACKS;
        node = t[record_at(t[1], ALONG_X, 0, node / 2) + (below(ALONG_X, m, here) ? 0 : ARM)];
    }
    return NOWHERE;
}

/* What a count of the same box gives on the words as they were. */
static struct answer counted_before(struct box b, const struct loan *l) {
    struct answer r = {0};
    r.number = register_count(l->table.kept, l->table.words, b.x1, b.x2, b.y1, b.y2, &r.count, &r.visits, &r.sum, &r.worst);
    return r;
}

/* (4 D + 1) (2 D + 1) for the capacity's levels. */
static uint32_t most_visits(uint32_t capacity) { return (4 * levels_for(capacity) + 1) * (2 * levels_for(capacity) + 1); }

/* What document 01 says of an answer that rests on the words of an unsound table: it comes by the words that were met. */
static int update_may_give(struct call c, struct answer r, const uint32_t *was) {
    enum sought found = sought_by_words(was, c.mark);
    int full = was[2] == was[1];
    if (r.number == REGISTER_PRESENT) return found == HAS;
    if (r.number == REGISTER_ABSENT) return found == LACKS;
    if (r.number == REGISTER_FULL) return found == LACKS && full;
    if (r.number != REGISTER_OK) return 1;
    return c.kind == INSERT ? found == LACKS && !full : found == HAS;
}

static int search_may_give(struct call c, struct answer r, const struct loan *l) {
    const uint32_t *was = l->table.kept;
    size_t needed = list_words(r.count);
    int longer = needed <= l->lent[0] && needed <= l->lent[1];
    if (r.number != REGISTER_OK && r.number != REGISTER_SHORT_LIST) return 1;
    if (r.count > was[2]) return 0;
    if (c.kind == COUNT) return r.visits <= most_visits(was[1]);
    if (r.count != counted_before(c.box, l).count) return 0;
    return r.number == REGISTER_SHORT_LIST ? !longer : longer && (r.which == 1 || r.which == 2);
}

static int may_give(struct call c, struct answer r, const struct loan *l) {
    if (c.kind == INSERT || c.kind == STRIKE) return update_may_give(c, r, l->table.kept);
    return c.kind == COUNT || c.kind == LIST ? search_may_give(c, r, l) : 1;
}

/* A sound table never gives 4, its marks decide what a call gives, and an update leaves a sound one. */
static int serves(struct call c, struct answer r, const struct loan *l) {
    const uint32_t *was = l->table.kept;
    struct mark *marks = allocate(was[2] * sizeof *marks);
    uint32_t n = live_marks(was, marks), same = 0, k;
    for (uint32_t i = 0; i < n; i++) same += (uint32_t)same_mark(marks[i], c.mark);
    k = scan(marks, n, c.box, marks);
    struct grades g = all_grades(marks, k);
    free(marks);
    int right = r.number != REGISTER_UNSOUND;
    if (c.kind == INSERT) right = right && r.number == (same > 0 ? REGISTER_PRESENT : n == was[1] ? REGISTER_FULL : REGISTER_OK);
    if (c.kind == STRIKE) right = right && r.number == (same > 0 ? REGISTER_OK : REGISTER_ABSENT);
    if (c.kind == COUNT || c.kind == LIST) right = right && r.count == k;
    if (c.kind == COUNT) right = right && same_grades((struct grades){r.sum, r.worst}, g);
    if ((c.kind == INSERT || c.kind == STRIKE) && r.number == REGISTER_OK)
        right = right && r.live == (c.kind == INSERT ? n + 1 : n - 1) && verdict(l->table.word, l->table.words) == REGISTER_OK;
    return right;
}

static void try_call(struct call c, const struct loan *l) {
    uint32_t found = verdict(l->table.word, l->table.words);
    for (int i = 0; i < 2; i++) keep(l->lists[i]);
    keep(l->table);
    clock_t began = clock();
    struct answer r = ask(c, l);
    clock_t took = clock() - began;
    uint32_t settled = settled_number(c, l);
    if (took > slowest) slowest = took;
    COMPARE(took <= MOST_SECONDS * CLOCKS_PER_SEC);
    COMPARE(has_number(c.kind, r.number));
    if (settled != REGISTER_OK || c.kind == OPEN) COMPARE(r.number == settled);
    else COMPARE(!rests_on_no_tree(r.number) && may_give(c, r, l));
    if (r.number != REGISTER_OK) COMPARE(gives_no_figure(r));
    COMPARE(table_left_alone(c, r.number, l->table) && lists_left_alone(c, r, l) && all_guarded(l));
    if (c.kind == EXAMINE) COMPARE(r.number == found && r.live == (found == REGISTER_OK ? l->table.word[2] : 0));
    if (c.kind == OPEN && r.number == REGISTER_OK) COMPARE(r.live == 0 && verdict(l->table.word, l->table.words) == REGISTER_OK);
    if (found == REGISTER_OK && settled == REGISTER_OK && c.kind != OPEN) COMPARE(serves(c, r, l));
    numbers[c.kind][r.number % (LARGEST_NUMBER + 1)]++;
    calls++;
    sound_ones += found == REGISTER_OK;
}

/* A mark of some slot, or any; with any grade. */
static struct mark any_mark(const uint32_t *t, uint32_t capacity, uint32_t span) {
    struct mark m = {draw(span), draw(span), draw(3), 0};
    if (!one_in(4)) m = mark_at(t, draw(capacity));
    m.grade = any_grade();
    if (one_in(40)) m.x = LARGEST_COORDINATE + draw(2);
    return m;
}

static struct call any_call(const uint32_t *t, uint32_t capacity, uint32_t span) {
    struct mark m = any_mark(t, capacity, span);
    struct box b = {draw(span), draw(2 * span), draw(span), draw(2 * span)};
    if (one_in(3)) b.x1 = 0, b.x2 = UINT32_MAX;
    if (one_in(3)) b.y1 = 0, b.y2 = UINT32_MAX;
    switch (draw(16)) {
    case 0: return opening(one_in(4) ? draw(70000) : 1 + draw(capacity));
    case 1: case 2: case 3: case 4: return inserting(m);
    case 5: case 6: case 7: case 8: return striking(m);
    case 9: case 10: return counting(b);
    case 11: case 12: case 13: return listing(b);
    default: return examining();
    }
}

/* Some calls in a row: what an update makes of damaged words is met by the next. */
static void try_calls(struct loan *l, uint32_t capacity, uint32_t span) {
    for (uint32_t i = 1 + draw(4); i > 0; i--) {
        for (int j = 0; j < 2; j++) l->lent[j] = one_in(4) ? draw((uint32_t)l->lists[j].words) : l->lists[j].words;
        try_call(any_call(l->table.word, capacity, span), l);
    }
}

static void damaged_tables(uint32_t capacity, uint32_t span, unsigned tables, unsigned rounds) {
    size_t own = words_for(capacity);
    struct loan made = borrow(own, 0), l = borrow(own + draw(9), list_words(capacity + 1));
    for (unsigned i = 0; i < tables; i++) {
        random_table(&made, capacity, span, 1 + draw(6 * capacity));
        for (unsigned j = 0; j < rounds; j++) {
            memcpy(l.table.word, made.table.word, own * sizeof *l.table.word);
            for (uint32_t k = 1 + draw(4); k > 0; k--) damage(l.table.word, l.table.words, capacity);
            try_calls(&l, capacity, span);
        }
    }
    pay_back(made);
    pay_back(l);
}

static void no_tables(uint32_t capacity, unsigned rounds) {
    size_t own = words_for(capacity);
    for (size_t words = own - 2; words <= own + 1; words++) {
        struct loan l = borrow(words, list_words(capacity + 1));
        for (unsigned i = 0; i < rounds; i++) {
            garbage(l.table.word, words, capacity);
            try_calls(&l, capacity, 2 * capacity);
        }
        pay_back(l);
    }
}

/* Runs of any short length, the empty one too. */
static void short_runs(void) {
    for (size_t words = 0; words < SMALLEST_TABLE + 4; words++) {
        struct loan l = borrow(words, list_words(3));
        for (unsigned i = 0; i < 60; i++) {
            for (size_t j = 0; j < words; j++) l.table.word[j] = draw(3);
            struct mark m = {draw(3), draw(3), draw(3), any_grade()};
            struct box b = {0, draw(3), 0, draw(3)};
            struct call some[KINDS] = {opening(draw(3)), inserting(m), striking(m), counting(b), listing(b), examining()};
            try_call(some[draw(KINDS)], &l);
        }
        pay_back(l);
    }
}

/* An arm to a node, and beside it another to the same, in whose cells a box of 3 to 5 finds no end. */
static void put_two_ways(uint32_t *record, uint32_t node) {
    static const uint32_t weights[] = {2, 8};
    for (int i = 0; i < 2; i++) {
        uint32_t arm[ARM] = {node, weights[i], 0, 9, grades_word((struct grades){weights[i], 1})};
        memcpy(record + ARM * i, arm, sizeof arm);
    }
}

/* Nodes in a chain, in the main tree and in its auxiliary trees, each with two ways to the next: 2^38 ways lead to the leaf at its end. */
static void doubled_ways(void) {
    enum { CAPACITY = 60, DEPTH = 38, LAST = 50 };
    struct loan l = borrow(words_for(CAPACITY), list_words(CAPACITY));
    struct mark m = {5, 6, 7, 1}, other = {5, 6, 8, 1};
    struct box b = {3, 5, 3, 5};
    struct call some[] = {inserting(other), striking(m), counting(b), listing(b), examining()};
    const uint32_t root[ARM] = {1, 10, 0, 9, grades_word((struct grades){10, 1})};    /* of the main tree, and of each auxiliary tree */
    for (size_t i = 0; i < sizeof some / sizeof *some; i++) {
        uint32_t *t = l.table.word;
        memset(t, 0, l.table.words * sizeof *t);
        ask(opening(CAPACITY), &l);
        t[2] = 10;
        memcpy(t + ROOT, root, sizeof root);
        for (uint32_t s = 0; s < DEPTH; s++) {
            uint32_t next = s + 1 < DEPTH ? 2 * (s + 1) + 1 : 2 * LAST;
            put_two_ways(t + record_at(CAPACITY, ALONG_X, 0, s), next);
            memcpy(t + auxiliary_at(s), root, sizeof root);
            for (uint32_t d = 0; d < levels_for(CAPACITY); d++) put_two_ways(t + record_at(CAPACITY, ALONG_Y, d, s), next);
        }
        memcpy(t + slot_at(LAST), &m, sizeof m);
        try_call(some[i], &l);
    }
    pay_back(l);
}

/* A lone leaf of a slot that the table does not have: no update takes it for a mark, nor for the lack of one. */
static void phantom_leaf(void) {
    struct loan l = borrow(words_for(1), list_words(3));
    struct mark zero = {0, 0, 0, 1};
    struct call some[] = {inserting(zero), striking(zero), inserting((struct mark){1, 2, 3, 4})};
    for (size_t i = 0; i < sizeof some / sizeof *some; i++) {
        static const uint32_t leaf[ARM] = {2 * 1000000, 1, 0, 0, 257};
        ask(opening(1), &l);
        l.table.word[2] = 1;
        memcpy(l.table.word + ROOT, leaf, sizeof leaf);
        CHECK(ask(some[i], &l).number == REGISTER_UNSOUND && l.table.word[0] == 0);
    }
    pay_back(l);
}

/* Two marks, and a weight that says 65,536: no count tells of more marks than are live, and no list goes by it. */
static void lying_weight(void) {
    struct loan l = borrow(words_for(2), list_words(LARGEST));
    struct box all = {0, UINT32_MAX, 0, UINT32_MAX};
    ask(opening(2), &l);
    for (uint32_t i = 0; i < 2; i++) ask(inserting((struct mark){i, i, i, 10 + i}), &l);
    CHECK(ask(counting(all), &l).count == 2);
    for (size_t i = 0; i < l.table.words; i++) {
        uint32_t was = l.table.word[i];
        if (was != 2 || i < HEADER) continue;
        l.table.word[i] = LARGEST;    /* each word that may be a weight of the root */
        try_call(counting(all), &l);
        try_call(listing(all), &l);
        l.table.word[i] = was;
    }
    l.table.word[auxiliary_at(l.table.word[ROOT] / 2) + WEIGHT] = LARGEST;
    struct answer counted = ask(counting(all), &l), listed = ask(listing(all), &l);
    CHECK(counted.number == REGISTER_UNSOUND && gives_no_figure(counted) && listed.number == REGISTER_UNSOUND && gives_no_figure(listed));
    pay_back(l);
}

/* Every number that a damaged table can give came up. */
static void check_numbers(void) {
    for (int kind = 0; kind < KINDS; kind++)
        for (unsigned n = 0; n <= LARGEST_NUMBER; n++) CHECK(has_number(kind, n) == (numbers[kind][n] > 50));
    CHECK(calls > 300000 && sound_ones > 20000);
}

int main(void) {
    checks_limit(600);
    for (uint32_t capacity = 1; capacity <= 24; capacity++) damaged_tables(capacity, 1 + draw(2 * capacity), 60, 120);
    damaged_tables(60, 4, 60, 200);    /* rows of equal x and y */
    damaged_tables(60, 1000000, 60, 200);
    for (uint32_t capacity = 100; capacity <= 300; capacity += 50) damaged_tables(capacity, capacity, 10, 100);
    damaged_tables(4000, 2000, 3, 30);
    for (uint32_t capacity = 1; capacity <= 20; capacity++) no_tables(capacity, 300);
    short_runs();
    checks_limit(60);
    doubled_ways();
    phantom_leaf();
    lying_weight();
    fprintf(stderr, "%lu calls, %lu on sound tables; the slowest took %.3f s\n", calls, sound_ones, (double)slowest / CLOCKS_PER_SEC);
    check_numbers();
    return checks_report();
}
