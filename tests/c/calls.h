/* The six calls as values: a call, its answer, and the words that an answer says are left alone. */
#ifndef CALLS_H
#define CALLS_H

#include "layout.h"
#include "lent.h"
#include "markregister.h"

#include <stdio.h>

enum kind { OPEN, INSERT, STRIKE, COUNT, LIST, EXAMINE, KINDS };

struct call {
    enum kind kind;
    uint32_t capacity;    /* of an opening */
    struct mark mark;     /* of an insertion or a strike, which is told no grade */
    struct box box;       /* of a count or a list */
};

/* A figure that a call does not give is 0. */
struct answer {
    uint32_t number, live, rebuilt, count, visits, sum, worst, which;
};

enum { LARGEST_NUMBER = REGISTER_GRADE_OUTSIDE };

/* What a call is lent. The lists are longer runs, of which a call is lent so many words. */
struct loan {
    struct lent table, lists[2];
    size_t lent[2];
};

static inline struct call opening(uint32_t capacity) { return (struct call){.kind = OPEN, .capacity = capacity}; }

static inline struct call inserting(struct mark m) { return (struct call){.kind = INSERT, .mark = m}; }

static inline struct call striking(struct mark m) { return (struct call){.kind = STRIKE, .mark = m}; }

static inline struct call counting(struct box b) { return (struct call){.kind = COUNT, .box = b}; }

static inline struct call listing(struct box b) { return (struct call){.kind = LIST, .box = b}; }

static inline struct call examining(void) { return (struct call){.kind = EXAMINE}; }

/* A grade that a mark may have. */
static inline uint32_t right_grade(void) { return 1 + draw(LARGEST_GRADE); }

/* Such a grade, at times the least or the greatest; or one that is refused. */
static inline uint32_t any_grade(void) {
    static const uint32_t edges[] = {1, LARGEST_GRADE, 0, LARGEST_GRADE + 1, 256, UINT32_MAX};
    return one_in(10) ? edges[draw(6)] : right_grade();
}

/* Makes a call. Every figure of it starts as a number that no sound table gives, so that one which is not written is seen. */
static inline struct answer ask(struct call c, const struct loan *l) {
    enum { UNWRITTEN = 0x7EEDFACE };
    uint32_t *t = l->table.word, *first = l->lists[0].word, *second = l->lists[1].word;
    size_t n = l->table.words;
    struct answer r = {0};
    struct mark m = c.mark;
    struct box b = c.box;
    if (c.kind == COUNT || c.kind == LIST) r.count = r.visits = UNWRITTEN; else r.live = UNWRITTEN;
    if (c.kind == INSERT || c.kind == STRIKE) r.rebuilt = UNWRITTEN;
    if (c.kind == COUNT) r.sum = r.worst = UNWRITTEN;
    if (c.kind == LIST) r.which = UNWRITTEN;
    switch (c.kind) {
    case OPEN: r.number = register_open(t, n, c.capacity, &r.live); break;
    case INSERT: r.number = register_insert(t, n, m.x, m.y, m.tag, m.grade, &r.live, &r.rebuilt); break;
    case STRIKE: r.number = register_strike(t, n, m.x, m.y, m.tag, &r.live, &r.rebuilt); break;
    case COUNT: r.number = register_count(t, n, b.x1, b.x2, b.y1, b.y2, &r.count, &r.visits, &r.sum, &r.worst); break;
    case LIST:
        r.number = register_list(t, n, b.x1, b.x2, b.y1, b.y2, first, l->lent[0], second, l->lent[1], &r.count, &r.visits, &r.which);
        break;
    default: r.number = register_check(t, n, &r.live); break;
    }
    return r;
}

/* For whoever looks into a difference. */
static inline void show_call(const char *what, struct call c, struct answer r) {
    static const char *const kinds[KINDS] = {"open", "insert", "strike", "count", "list", "check"};
    fprintf(stderr, "%s: %s, capacity %u, mark %u,%u,%u,%u, box %u,%u,%u,%u: ", what, kinds[c.kind], c.capacity, c.mark.x, c.mark.y, c.mark.tag,
            c.mark.grade, c.box.x1, c.box.x2, c.box.y1, c.box.y2);
    fprintf(stderr, "number %u, live %u, rebuilt %u, count %u, visits %u, sum %u, worst %u, which %u\n", r.number, r.live, r.rebuilt, r.count, r.visits,
            r.sum, r.worst, r.which);
}

/* Document 01, "Where each call may stop": whether one of a call's rows has the number. */
static inline int has_number(enum kind kind, uint32_t number) {
    enum { OK = 1 << REGISTER_OK, TABLE = OK | 1 << REGISTER_NOT_A_TABLE | 1 << REGISTER_UNSOUND };
    static const unsigned rows[KINDS] = {
        [OPEN] = OK | 1 << REGISTER_CAPACITY | 1 << REGISTER_SHORT_TABLE,
        [INSERT] = TABLE | 1 << REGISTER_MARK_OUTSIDE | 1 << REGISTER_GRADE_OUTSIDE | 1 << REGISTER_PRESENT | 1 << REGISTER_FULL,
        [STRIKE] = TABLE | 1 << REGISTER_MARK_OUTSIDE | 1 << REGISTER_ABSENT,
        [COUNT] = TABLE | 1 << REGISTER_BOX_CROSSED,
        [LIST] = TABLE | 1 << REGISTER_BOX_CROSSED | 1 << REGISTER_SHORT_LIST,
        [EXAMINE] = TABLE,
    };
    return number <= LARGEST_NUMBER && (rows[kind] >> number & 1) == 1;
}

static inline int same_answer(struct answer a, struct answer b) { return memcmp(&a, &b, sizeof a) == 0; }

/* Document 01: a refusal gives 0 for every figure, save the marks with number 10. */
static inline int gives_no_figure(struct answer r) {
    struct answer none = {.number = r.number, .count = r.number == REGISTER_SHORT_LIST ? r.count : 0};
    return same_answer(r, none);
}

static inline int same_words(struct lent t, size_t from, size_t end) { return memcmp(t.kept + from, t.word + from, (end - from) * sizeof *t.kept) == 0; }

/* Document 01, "Where each call may stop": the words of the table that a call with this number leaves as they were. An open writes words 0 to 7 and the lists
   `used` and `place`. */
static inline int table_left_alone(struct call c, uint32_t number, struct lent t) {
    int updates = c.kind == INSERT || c.kind == STRIKE;
    if (updates && number == REGISTER_UNSOUND) return t.word[0] == 0 && unchanged_from(t, words_for(t.kept[1]));
    if (number != REGISTER_OK || c.kind == COUNT || c.kind == LIST || c.kind == EXAMINE) return unchanged_from(t, 0);
    if (c.kind == OPEN) return same_words(t, ROOT + ARM, list_at(c.capacity, USED)) && unchanged_from(t, list_at(c.capacity, RUN_A));
    return unchanged_from(t, words_for(t.kept[1]));
}

/* The words of a table that docs/LAYOUT.md leaves unused are as they were kept: an update of a sound table writes at the layout's places only. */
static inline int unused_left_alone(struct lent t) {
    uint32_t c = t.kept[1];
    int same = same_words(t, ROOT + ARM, HEADER) && same_words(t, list_at(c, LISTS), level_at(c, 0));
    for (uint32_t d = 0; d < levels_for(c); d++) same = same && same_words(t, record_at(c, ALONG_Y, d, c), level_at(c, d + 1));
    return same;
}

/* The words that each list must have for so many marks. */
static inline size_t list_words(uint32_t marks) { return MARK * (size_t)marks; }

/* What of the lists is left alone: all, and after an accepted list the words past the marks in both. */
static inline int lists_left_alone(struct call c, struct answer r, const struct loan *l) {
    size_t from = c.kind == LIST && r.number == REGISTER_OK ? list_words(r.count) : 0;
    return unchanged_from(l->lists[0], from) && unchanged_from(l->lists[1], from);
}

static inline int all_guarded(const struct loan *l) { return guarded(l->table) && guarded(l->lists[0]) && guarded(l->lists[1]); }

/* A table and two lists of so many words. Lent one after the other: C leaves the order within an initializer open, and each is filled with drawn words. */
static inline struct loan borrow(size_t words, size_t list_words) {
    struct loan l = {.lent = {list_words, list_words}};
    l.table = lend(words);
    for (int i = 0; i < 2; i++) l.lists[i] = lend(list_words);
    return l;
}

static inline void pay_back(struct loan l) {
    take_back(l.table);
    take_back(l.lists[0]);
    take_back(l.lists[1]);
}

#endif
