/* Tables of random runs, and changes to them of many kinds: most leave a table unsound by a hair, some leave it sound. */
#ifndef DAMAGE_H
#define DAMAGE_H

#include "calls.h"

/* A table after a random run of insertions and strikes. */
static inline void random_table(const struct loan *l, uint32_t capacity, uint32_t span, unsigned steps) {
    ask(opening(capacity), l);
    for (unsigned i = 0; i < steps; i++) {
        struct mark m = {draw(span), draw(span), draw(3), right_grade()};
        if (ask(inserting(m), l).number == REGISTER_PRESENT && one_in(2)) ask(striking(m), l);
    }
}

/* Another leaf in an arm, with the cell and the grades it would have: the wrong neighbour that an old register left behind. */
static inline void put_leaf(uint32_t *t, uint32_t capacity, size_t arm, enum axis axis) {
    uint32_t s = t[list_at(capacity, USED) + draw(capacity)] % capacity;
    struct mark m = mark_at(t, s);
    t[arm] = 2 * s;
    t[arm + WEIGHT] = 1;
    t[arm + LEAST] = t[arm + GREATEST] = axis == ALONG_X ? m.x : m.y;
    t[arm + GRADES] = grades_word(grades_of(m));
}

/* The word of an arm: of a main record, of the auxiliary tree in it, or of an auxiliary record. */
static inline size_t any_arm(uint32_t capacity, enum axis *axis) {
    uint32_t s = draw(capacity), levels = levels_for(capacity);
    *axis = one_in(3) ? ALONG_X : ALONG_Y;
    if (*axis == ALONG_Y && (levels == 0 || one_in(2))) return auxiliary_at(s);
    return record_at(capacity, *axis, *axis == ALONG_Y ? draw(levels) : 0, s) + (one_in(2) ? ARM : 0);
}

/* Two slots change places in `used`, and mostly in `place`. */
static inline void swap_slots(uint32_t *t, uint32_t capacity) {
    uint32_t *used = t + list_at(capacity, USED), *place = t + list_at(capacity, PLACE), i = draw(capacity), j = draw(capacity), v = used[i];
    used[i] = used[j];
    used[j] = v;
    if (!one_in(3) && used[i] < capacity && used[j] < capacity) place[used[i]] = i, place[used[j]] = j;
}

/* One change. */
static inline void damage(uint32_t *t, size_t words, uint32_t capacity) {
    size_t at = draw((uint32_t)words), to = draw((uint32_t)words);
    uint32_t s = draw(capacity), by = one_in(2) ? 1 : UINT32_MAX, v;
    enum axis axis;
    size_t arm = any_arm(capacity, &axis);
    switch (draw(17)) {
    case 0: t[at] = draw(UINT32_MAX); break;
    case 1: t[at] = draw(2 * capacity + 2); break;
    case 2: t[at] += by; break;
    case 3: v = t[at], t[at] = t[to], t[to] = v; break;
    case 4: t[to] = t[at]; break;
    case 5: swap_slots(t, capacity); break;
    case 6: t[2] += by; break;
    case 7: put_leaf(t, capacity, arm, axis); break;
    case 8: case 9: case 10: t[arm] = 2 * s + 1; break;    /* a way round, or two ways to one node */
    case 11: t[arm + WEIGHT + draw(GRADES)] += by; break;
    case 12: t[slot_at(s) + draw(GRADE)] = draw(LARGEST_COORDINATE + 3); break;
    case 13: t[slot_at(s) + GRADE] = any_grade(); break;
    case 14: t[arm + GRADES] ^= 1u << draw(32); break;
    case 15: t[arm + GRADES] = grades_word((struct grades){draw(LARGEST_GRADE * capacity), right_grade()}); break;
    default: t[slot_at(s) + draw(MARK)] += by; break;
    }
}

/* Words that were never a table, with a header that mostly says they are one. */
static inline void garbage(uint32_t *t, size_t words, uint32_t capacity) {
    for (size_t i = 0; i < words; i++) t[i] = one_in(4) ? draw(UINT32_MAX) : draw(2 * capacity + 1);
    t[0] = !one_in(9);
    t[1] = one_in(9) ? draw(70000) : capacity;
    t[2] = draw(capacity + 2);
    t[ROOT + WEIGHT] = t[2];
}

#endif
