/* The register of marks on a glass sheet: the C interface of the proved library libmarkregister.a.
 *
 * A mark is x, y, tag and a grade: x and y count hundredths of a millimetre, 0 to 999,999, the tag
 * is any word, and the grade is 1 to 100, 100 the worst. Two marks are the same exactly if x, y and tag
 * agree: the grade is no part of that, nor of any order. A box is x1, x2, y1, y2, any words with
 * x1 <= x2 and y1 <= y2. It holds a mark when x1 <= x < x2 and y1 <= y < y2: its low ends are in it
 * and its high ends are not. So panes that share a cut share no mark, one on the cut is in the pane on
 * the far side, and the counts and sums of panes laid edge to edge are those of the whole. A box with
 * x1 = x2 or y1 = y2 is empty, and no error. The whole sheet is 0, 1000000, 0, 1000000.
 *
 * A table is a run of words that the caller lends to each call, register_words(capacity) of them or
 * more. It is the caller's memory, and nothing is kept anywhere else: the library allocates nothing,
 * so there may be any number of tables, and a copy of a table's words is a table. Only open, insert
 * and strike write in it, and words at register_words(capacity) and beyond are never written.
 * Word 0 is 1 for an open table, word 1 is the capacity, word 2 the live marks.
 *
 * Each call returns a number: REGISTER_OK, or why it refused. Where more than one reason applies, it
 * gives the one that stands first in the call's list below; REGISTER_UNSOUND, set apart there by a
 * semicolon, comes whenever the search finds no tree. A refusal
 *   - writes 0 to every number lent for a figure, save `count` with REGISTER_SHORT_LIST;
 *   - changes no word of the table and of the lists, save that an insert or a strike which gives
 *     REGISTER_UNSOUND closes the table: it sets word 0 to 0 and may have written other words below
 *     register_words(capacity). Such a table can only be opened anew.
 * A table that was opened, that is lent whole and that nobody else wrote in never gives
 * REGISTER_NOT_A_TABLE or REGISTER_UNSOUND. On any other words each call still ends and stays within
 * what it was lent, but its figures may mean nothing: register_check tells.
 *
 * What the caller sees to: a length is the number of words that may be used there; the runs lent to
 * one call (the table, the lists, the numbers that take figures back) do not overlap; no pointer is
 * null, not even that of a run of 0 words; nobody else writes in them during the call. */
#ifndef MARKREGISTER_H
#define MARKREGISTER_H

#include <stddef.h>
#include <stdint.h>

#ifdef __cplusplus
extern "C" {
#endif

/* What a call returns. 11 is no call's: the program `sheet` prints it for what is no line. */
enum {
    REGISTER_OK = 0,
    REGISTER_CAPACITY = 1,      /* the capacity is 0 or above REGISTER_LARGEST_CAPACITY */
    REGISTER_SHORT_TABLE = 2,   /* the table has fewer than register_words(capacity) words */
    REGISTER_NOT_A_TABLE = 3,   /* not an open table: fewer than 104 words, word 0 not 1, a capacity
                                   out of range, too few words for it, or more live marks than it */
    REGISTER_UNSOUND = 4,       /* the words of the table hold no tree, or tell of more marks than
                                   are live */
    REGISTER_MARK_OUTSIDE = 5,  /* x or y is above REGISTER_LARGEST_COORDINATE */
    REGISTER_BOX_CROSSED = 6,   /* x1 > x2 or y1 > y2; a box with equal ends is empty, not crossed */
    REGISTER_FULL = 7,          /* as many marks are live as the capacity says */
    REGISTER_PRESENT = 8,       /* the same mark is live, whatever its grade */
    REGISTER_ABSENT = 9,        /* no such mark is live */
    REGISTER_SHORT_LIST = 10,   /* a list has fewer than four words for each mark of the box */
    REGISTER_GRADE_OUTSIDE = 12 /* the grade is 0 or above REGISTER_LARGEST_GRADE */
};

enum {
    REGISTER_LARGEST_CAPACITY = 65536,
    REGISTER_LARGEST_COORDINATE = 999999,
    REGISTER_LARGEST_GRADE = 100,
    REGISTER_MARK_WORDS = 4 /* of a list, for each mark: x, y, tag, grade */
};

/* The words that a table for `capacity` marks needs, so that a caller can size the run it lends;
 * 0 for a capacity out of range. */
size_t register_words(uint32_t capacity);

/* Makes of the lent words an open table without marks, whatever stood there.
 * Refuses by: REGISTER_CAPACITY, REGISTER_SHORT_TABLE.
 * *live: 0. */
uint32_t register_open(uint32_t *table, size_t words, uint32_t capacity, uint32_t *live);

/* Enters a mark. The same mark with another grade is refused too, and the live one keeps its own:
 * to grade a mark anew, strike it off first.
 * Refuses by: REGISTER_NOT_A_TABLE, REGISTER_MARK_OUTSIDE, REGISTER_GRADE_OUTSIDE,
 * REGISTER_PRESENT, REGISTER_FULL; REGISTER_UNSOUND.
 * *live: the live marks, this one among them. *rebuilt: how many marks the part of the tree had that
 * was built afresh to keep it balanced, mostly 0. */
uint32_t register_insert(uint32_t *table, size_t words, uint32_t x, uint32_t y, uint32_t tag,
                         uint32_t grade, uint32_t *live, uint32_t *rebuilt);

/* Strikes a mark off, whatever its grade. Its room is used again.
 * Refuses by: REGISTER_NOT_A_TABLE, REGISTER_MARK_OUTSIDE, REGISTER_ABSENT; REGISTER_UNSOUND.
 * *live: the marks that are left. *rebuilt: as for register_insert. */
uint32_t register_strike(uint32_t *table, size_t words, uint32_t x, uint32_t y, uint32_t tag,
                         uint32_t *live, uint32_t *rebuilt);

/* Counts the marks that a box holds, and sums up their grades. Where a line cuts a box in two, count
 * and sum of the whole are the totals of both parts, and worst is the greater.
 * Refuses by: REGISTER_NOT_A_TABLE, REGISTER_BOX_CROSSED; REGISTER_UNSOUND.
 * *count: the marks. *visits: how many nodes of the trees the search came to. *sum: the sum of the
 * marks' grades. *worst: the greatest of their grades. A box without marks has 0 for both. */
uint32_t register_count(const uint32_t *table, size_t words, uint32_t x1, uint32_t x2, uint32_t y1,
                        uint32_t y2, uint32_t *count, uint32_t *visits, uint32_t *sum,
                        uint32_t *worst);

/* Lists the marks that a box holds, four words a mark (x, y, tag, grade), ascending by x, y, tag.
 * They are sorted to and fro between two lent lists, and *which says in which of them they stand at
 * the end: 1 for `first`, 2 for `second`; 1 where there was nothing to sort, as with one mark or
 * none. The first 4 * *count words of the other list may then be anything; words past 4 * *count are
 * unchanged in both.
 * Refuses by: REGISTER_NOT_A_TABLE, REGISTER_BOX_CROSSED, REGISTER_SHORT_LIST; REGISTER_UNSOUND.
 * *count: the marks; with REGISTER_SHORT_LIST too, so that the caller knows what to lend: each list
 * needs 4 * *count words. *visits: the nodes that the search and the walk through what it found came
 * to, at most 2 * *count more than a count's. *which: 0 in a refusal. */
uint32_t register_list(const uint32_t *table, size_t words, uint32_t x1, uint32_t x2, uint32_t y1,
                       uint32_t y2, uint32_t *first, size_t first_words, uint32_t *second,
                       size_t second_words, uint32_t *count, uint32_t *visits, uint32_t *which);

/* Tells whether a table is sound: its words hold the trees of its live marks, each with a grade of 1
 * to 100, balanced and with every stored figure right, and all other room in it is free. It goes
 * through all of that, and so takes longer than the other calls.
 * Refuses, exactly where the table is not sound, by: REGISTER_NOT_A_TABLE, REGISTER_UNSOUND.
 * *live: the live marks. */
uint32_t register_check(const uint32_t *table, size_t words, uint32_t *live);

#ifdef __cplusplus
}
#endif

#endif
