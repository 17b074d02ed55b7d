/* W(C), and where the words of a table stand: from docs/LAYOUT.md and document 01, coded apart from the library. */
#ifndef LAYOUT_H
#define LAYOUT_H

#include "marks.h"

#include <stddef.h>

enum { HEADER = 64, PER_MARK = 40, PER_LEVEL = 24, LARGEST = 65536, SMALLEST_TABLE = 104 };

/* An arm: a node's number, then the words named here. A record is a left and a right arm. */
enum { WEIGHT = 1, LEAST = 2, GREATEST = 3, GRADES = 4, ARM = 5, RECORD = 2 * ARM };

/* A slot: a mark, whose last word is its grade, then a main record and the arm of an auxiliary tree. */
enum { GRADE = 3, MARK = 4, SLOT = MARK + RECORD + ARM };

enum { ROOT = 3 };    /* the word where the main tree's arm begins */

__extension__ typedef unsigned __int128 wide;    /* wide enough for 4^39 */

/* D(C), the largest D with 4^D <= 3^D C, by raising D from 0. */
static inline uint32_t levels_for(uint32_t capacity) {
    wide four = 1, three = 1;
    uint32_t d = 0;
    while (four * 4 <= three * 3 * capacity) {
        four *= 4;
        three *= 3;
        d++;
    }
    return d;
}

/* The auxiliary records of a depth; and past the last of them the end. */
static inline size_t level_at(uint32_t capacity, uint32_t d) { return HEADER + capacity * (PER_MARK + PER_LEVEL * (size_t)d); }

/* W(C) = 64 + C (40 + 24 D). */
static inline size_t words_for(uint32_t capacity) { return level_at(capacity, levels_for(capacity)); }

static inline size_t slot_at(uint32_t s) { return HEADER + SLOT * (size_t)s; }

/* The lists of a word for each slot, in their order. */
enum list { USED, PLACE, RUN_A, RUN_B, LISTS };

static inline size_t list_at(uint32_t capacity, enum list i) { return slot_at(capacity) + (size_t)i * capacity; }

/* The record of the inner node named s: of the main tree, or of an auxiliary tree in the level of depth d. */
static inline size_t record_at(uint32_t capacity, enum axis axis, uint32_t d, uint32_t s) {
    return axis == ALONG_X ? slot_at(s) + MARK : level_at(capacity, d) + RECORD * (size_t)s;
}

static inline size_t auxiliary_at(uint32_t s) { return slot_at(s) + MARK + RECORD; }

static inline struct mark mark_at(const uint32_t *t, uint32_t s) {
    const uint32_t *w = t + slot_at(s);
    return (struct mark){w[0], w[1], w[2], w[GRADE]};
}

/* What an arm has for the grades beneath it. */
static inline uint32_t grades_word(struct grades g) { return g.sum * 256 + g.worst; }

static inline struct grades grades_in(uint32_t word) { return (struct grades){word / 256, word % 256}; }

#endif
