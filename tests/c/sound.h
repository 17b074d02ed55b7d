/* Whether a table is sound, coded apart from the library: from docs/LAYOUT.md and document 01, with sets of slots in scratch memory where the library counts.
   Quadratic in places, and meant to be read beside them. */
#ifndef SOUND_H
#define SOUND_H

#include "layout.h"
#include "lent.h"
#include "markregister.h"

/* A table, where its records stand, and what has been read of it. */
struct reading {
    const uint32_t *words;
    uint32_t capacity, levels;
    const uint8_t *is_live;    /* by slot */
};

static int by_slot(const void *a, const void *b) {
    uint32_t p = *(const uint32_t *)a, q = *(const uint32_t *)b;
    return p < q ? -1 : p > q;
}

/* The slots of two lists are the same. */
static int same_slots(const uint32_t *a, const uint32_t *b, uint32_t n) {
    uint32_t *p = allocate(2 * (size_t)n * sizeof *p), *q = p + n;
    memcpy(p, a, n * sizeof *p);
    memcpy(q, b, n * sizeof *p);
    qsort(p, n, sizeof *p, by_slot);
    qsort(q, n, sizeof *q, by_slot);
    int same = memcmp(p, q, n * sizeof *p) == 0;
    free(p);
    return same;
}

/* The slots are live, and their marks right and in order; and an arm tells of them what is so. */
static int is_arm_of(const struct reading *r, enum axis axis, const uint32_t *arm, const uint32_t *slots, uint32_t n) {
    struct mark first = mark_at(r->words, slots[0]), last = mark_at(r->words, slots[n - 1]);
    struct grades g = {0, 0};
    for (uint32_t i = 0; i < n; i++) {
        struct mark m = mark_at(r->words, slots[i]);
        if (!r->is_live[slots[i]] || is_outside(m) || is_grade_outside(m)) return 0;
        if (i > 0 && !below(axis, mark_at(r->words, slots[i - 1]), m)) return 0;
        g = joined(g, grades_of(m));
    }
    if (arm[LEAST] != (axis == ALONG_X ? first.x : first.y) || arm[GREATEST] != (axis == ALONG_X ? last.x : last.y)) return 0;
    return arm[WEIGHT] == n && arm[GRADES] == grades_word(g);
}

/* The slots of the tree of an arm in order, at most `room`; 0 where it is none by the rules. Depth d is that of the main node, or of the main node whose
   auxiliary tree this is. */
static uint32_t read_tree(const struct reading *r, enum axis axis, uint32_t d, unsigned deep, const uint32_t *arm, uint32_t *slots, uint32_t room) {
    uint32_t s = arm[0] / 2;
    if (room == 0 || deep > 64 || s >= r->capacity) return 0;
    uint32_t n = 1;
    slots[0] = s;
    if (arm[0] % 2 == 1) {
        if (axis == ALONG_X && d >= r->levels) return 0;    /* no auxiliary tree so deep */
        const uint32_t *record = r->words + record_at(r->capacity, axis, d, s);
        uint32_t below_main = axis == ALONG_X ? d + 1 : d;
        uint32_t left = read_tree(r, axis, below_main, deep + 1, record, slots, room);
        if (left == 0) return 0;
        uint32_t right = read_tree(r, axis, below_main, deep + 1, record + ARM, slots + left, room - left);
        n = left + right;
        if (right == 0 || slots[left] != s || 4 * left < n || 4 * right < n) return 0;
        if (axis == ALONG_X) {
            uint32_t *others = allocate(n * sizeof *others);
            int same = read_tree(r, ALONG_Y, d, 0, r->words + auxiliary_at(s), others, n) == n && same_slots(slots, others, n);
            free(others);
            if (!same) return 0;
        }
    }
    return is_arm_of(r, axis, arm, slots, n) ? n : 0;
}

/* Every slot once in `used`, and where `place` says; marks those that are live. */
static int read_slots(const uint32_t *t, uint32_t capacity, uint32_t live, uint8_t *is_live) {
    const uint32_t *used = t + list_at(capacity, USED), *place = t + list_at(capacity, PLACE);
    uint8_t *seen = calloc(capacity, 1);
    if (seen == NULL) abort();
    int right = 1;
    for (uint32_t i = 0; i < capacity; i++) {
        if (used[i] >= capacity || seen[used[i]] || place[used[i]] != i) {
            right = 0;
            break;
        }
        seen[used[i]] = 1;
        is_live[used[i]] = i < live;
    }
    free(seen);
    return right;
}

/* Document 01's row for number 3: the run is no table. */
static int is_no_table(const uint32_t *t, size_t words) {
    if (words < SMALLEST_TABLE || t[0] != 1) return 1;
    return t[1] < 1 || t[1] > LARGEST || words < words_for(t[1]) || t[2] > t[1];
}

/* What the check call must return. Words past W(C) are no part of the table. */
static uint32_t verdict(const uint32_t *t, size_t words) {
    if (is_no_table(t, words)) return REGISTER_NOT_A_TABLE;
    uint32_t capacity = t[1], live = t[2], *slots = allocate(capacity * sizeof *slots);
    uint8_t *is_live = allocate(capacity);
    struct reading r = {t, capacity, levels_for(capacity), is_live};
    int sound = read_slots(t, capacity, live, is_live);
    if (sound) sound = live == 0 ? t[ROOT + WEIGHT] == 0 : read_tree(&r, ALONG_X, 0, 0, t + ROOT, slots, live) == live;
    free(is_live);
    free(slots);
    return sound ? REGISTER_OK : REGISTER_UNSOUND;
}

/* The marks of a sound table, as `used` has them. */
static inline uint32_t live_marks(const uint32_t *t, struct mark *marks) {
    const uint32_t *used = t + list_at(t[1], USED);
    for (uint32_t i = 0; i < t[2]; i++) marks[i] = mark_at(t, used[i]);
    return t[2];
}

#endif
