/* The check of a table beside one coded apart (sound.h), on tables of random runs and on the same tables damaged, in each grade and each stored figure of
   grades too; the order of a list beside qsort. */
#include "check.h"
#include "damage.h"
#include "sound.h"

static unsigned long given[REGISTER_UNSOUND + 1];    /* how often each number */

/* Both say the same, and nothing is written. */
static void examine(const struct loan *l) {
    const uint32_t *t = l->table.word;
    struct answer expected = {.number = verdict(t, l->table.words)};
    if (expected.number == REGISTER_OK) expected.live = t[2];
    keep(l->table);
    struct answer r = ask(examining(), l);
    COMPARE(same_answer(r, expected) && unchanged_from(l->table, 0));
    given[expected.number]++;
}

static void damaged_tables(uint32_t capacity, uint32_t span, unsigned tables, unsigned rounds) {
    size_t own = words_for(capacity);
    struct loan made = borrow(own, 0), l = borrow(own + draw(9), 0);
    for (unsigned i = 0; i < tables; i++) {
        random_table(&made, capacity, span, 1 + draw(6 * capacity));
        for (unsigned j = 0; j <= rounds; j++) {
            memcpy(l.table.word, made.table.word, own * sizeof *l.table.word);
            for (uint32_t k = draw(5); j > 0 && k > 0; k--) damage(l.table.word, l.table.words, capacity);
            examine(&l);
        }
        COMPARE(guarded(l.table));
    }
    pay_back(made);
    pay_back(l);
}

static void no_tables(uint32_t capacity, unsigned rounds) {
    for (size_t words = words_for(capacity) - 2; words <= words_for(capacity) + 1; words++) {
        struct loan l = borrow(words, 0);
        for (unsigned i = 0; i < rounds; i++) {
            garbage(l.table.word, words, capacity);
            examine(&l);
        }
        ask(opening(capacity), &l);
        examine(&l);
        COMPARE(guarded(l.table));
        pay_back(l);
    }
}

/* An arm of a sound table's trees: its place, and that of the record beneath it, or 0 for a leaf. */
struct place {
    size_t arm, record;
};

/* The arms of a tree, each behind those beneath it; the place past them. */
static struct place *arms_of(const uint32_t *t, enum axis axis, uint32_t d, size_t arm, struct place *to) {
    uint32_t s = t[arm] / 2, below_main = axis == ALONG_X ? d + 1 : d;
    size_t record = 0;
    if (t[arm] % 2 == 1) {
        record = record_at(t[1], axis, d, s);
        if (axis == ALONG_X) to = arms_of(t, ALONG_Y, d, auxiliary_at(s), to);
        to = arms_of(t, axis, below_main, record, to);
        to = arms_of(t, axis, below_main, record + ARM, to);
    }
    *to = (struct place){arm, record};
    return to + 1;
}

/* The check refuses the table by 4 with another word at a place; then that is as it was. */
static void refuses_word(const struct loan *l, size_t at, uint32_t word) {
    uint32_t was = l->table.word[at];
    l->table.word[at] = word;
    COMPARE(verdict(l->table.word, l->table.words) == REGISTER_UNSOUND);
    examine(l);
    l->table.word[at] = was;
}

/* The figures of grades, as they follow from the marks. */
static void sum_up(uint32_t *t, const struct place *arms, size_t n) {
    for (size_t i = 0; i < n; i++) {
        const uint32_t *record = t + arms[i].record;
        struct grades g = grades_of(mark_at(t, t[arms[i].arm] / 2));
        if (arms[i].record != 0) g = joined(grades_in(record[GRADES]), grades_in(record[ARM + GRADES]));
        t[arms[i].arm + GRADES] = grades_word(g);
    }
}

/* Another grade of a live mark: outside, or right in itself but not in the figures above it; outside, and told so by all of them. */
static void refuses_grades(const struct loan *l, uint32_t s, const struct place *arms, size_t n) {
    uint32_t *t = l->table.word, *grade = t + slot_at(s) + GRADE, was = *grade;
    const uint32_t others[] = {0, LARGEST_GRADE + 1, UINT32_MAX, was + 256, was % LARGEST_GRADE + 1, (was + 48) % LARGEST_GRADE + 1};
    static const uint32_t outside[] = {0, LARGEST_GRADE + 1, 127};
    for (size_t i = 0; i < sizeof others / sizeof *others; i++) refuses_word(l, slot_at(s) + GRADE, others[i]);
    for (size_t i = 0; i < sizeof outside / sizeof *outside; i++) {
        *grade = outside[i];
        sum_up(t, arms, n);
        COMPARE(ask(examining(), l).number == REGISTER_UNSOUND);
    }
    *grade = was;
    sum_up(t, arms, n);
    examine(l);
}

/* Each grade, and each bit of each figure of grades: of the root, of main and auxiliary records, and of auxiliary trees. */
static void damaged_grades(uint32_t capacity, uint32_t span) {
    struct loan l = borrow(words_for(capacity), 0);
    struct place *arms = allocate(2 * (size_t)capacity * (levels_for(capacity) + 2) * sizeof *arms);
    uint32_t *t = l.table.word;
    do random_table(&l, capacity, span, 6 * capacity); while (t[2] == 0);
    COMPARE(verdict(t, l.table.words) == REGISTER_OK);
    size_t n = (size_t)(arms_of(t, ALONG_X, 0, ROOT, arms) - arms);
    for (size_t i = 0; i < n; i++)
        for (int bit = 0; bit < 32; bit++) refuses_word(&l, arms[i].arm + GRADES, t[arms[i].arm + GRADES] ^ 1u << bit);
    for (uint32_t i = 0; i < t[2]; i++) refuses_grades(&l, t[list_at(capacity, USED) + i], arms, n);
    COMPARE(guarded(l.table));
    free(arms);
    pay_back(l);
}

/* The marks of a box, listed, are those that qsort puts in order, in the list that the passes end in; counted, they have their grades. */
static void compare_list(struct loan *l, struct box b, uint32_t more) {
    struct mark *marks = allocate(l->table.word[2] * sizeof *marks);
    uint32_t k = scan(marks, live_marks(l->table.word, marks), b, marks);
    qsort(marks, k, sizeof *marks, by_x);
    for (int i = 0; i < 2; i++) {
        l->lent[i] = list_words(k) + draw(more);
        scribble(l->lists[i]);
    }
    struct answer r = ask(listing(b), l), counted = ask(counting(b), l);
    COMPARE(counted.count == k && same_grades((struct grades){counted.sum, counted.worst}, all_grades(marks, k)));
    COMPARE(r.number == REGISTER_OK && r.count == k && r.which == which_list(k));
    COMPARE(r.which - 1 < 2 && memcmp(l->lists[r.which - 1].word, marks, k * sizeof *marks) == 0);
    COMPARE(lists_left_alone(listing(b), r, l) && all_guarded(l));
    free(marks);
}

/* Boxes of 0 to 300 marks: one stands at each x from 1 on, their y as chance has it. */
static void small_lists(uint32_t capacity) {
    struct loan l = borrow(words_for(capacity), list_words(capacity) + 9);
    ask(opening(capacity), &l);
    for (uint32_t x = 1; x <= capacity; x++) ask(inserting((struct mark){x, draw(1000), draw(UINT32_MAX), right_grade()}), &l);
    for (uint32_t k = 0; k <= capacity; k++)
        for (int i = 0; i < 3; i++) {
            uint32_t from = 1 + draw(capacity - k + 1);
            compare_list(&l, k == 0 ? (struct box){0, 0, 0, 999} : (struct box){from, from + k - 1, 0, 999}, 9);
        }
    pay_back(l);
}

/* The whole of a large table, where many marks share a place or a coordinate, and parts of it. */
static void large_lists(uint32_t capacity, uint32_t span, uint32_t least_grade) {
    struct loan l = borrow(words_for(capacity), list_words(capacity) + 1);
    ask(opening(capacity), &l);
    for (uint32_t i = 0, live = 0; live < capacity && i < 2 * capacity; i++) {
        struct mark m = {draw(span), draw(span), draw(UINT32_MAX), least_grade + draw(LARGEST_GRADE + 1 - least_grade)};
        live += ask(inserting(m), &l).number == REGISTER_OK;
    }
    compare_list(&l, (struct box){0, UINT32_MAX, 0, UINT32_MAX}, 1);
    compare_list(&l, (struct box){0, span / 2, 0, UINT32_MAX}, 2);
    compare_list(&l, (struct box){0, UINT32_MAX, span / 3, span / 2}, 2);
    examine(&l);
    pay_back(l);
}

int main(void) {
    checks_limit(600);
    for (uint32_t capacity = 1; capacity <= 24; capacity++) damaged_tables(capacity, 1 + draw(2 * capacity), 40, 200);
    damaged_tables(60, 4, 30, 300);    /* rows of equal x and y */
    damaged_tables(60, 1000000, 30, 300);
    damaged_tables(700, 40, 6, 60);
    for (uint32_t capacity = 1; capacity <= 6; capacity++) no_tables(capacity, 3000);
    for (uint32_t capacity = 1; capacity <= 24; capacity++) damaged_grades(capacity, 1 + capacity);
    damaged_grades(60, 1000000);
    CHECK(given[REGISTER_OK] > 20000 && given[REGISTER_NOT_A_TABLE] > 10000 && given[REGISTER_UNSOUND] > 100000);
    small_lists(300);
    large_lists(LARGEST, 1000000, LARGEST_GRADE);    /* the greatest sum that a table can have */
    large_lists(50000, 30, 1);
    return checks_report();
}
