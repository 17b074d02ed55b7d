/* A planner at work: the camera enters flaws with their grades, the washer strikes some off, trial panes are counted and judged by the sum of their grades, and
   the marks of the worst pane are listed.
   gcc -O2 -Iinclude examples/planner.c crates/markregister/out/libmarkregister.a -o target/planner */
#include "markregister.h"

#include <stdio.h>
#include <stdlib.h>

enum { CAPACITY = 8, PANES = 4 };

struct mark {
    uint32_t x, y, tag, grade;
};

/* The fourth was seen before, with another grade; the sixth lies off the sheet; the seventh has no grade; and for the last there is no room. */
static const struct mark seen[] = {{12000, 40000, 1, 100}, {12000, 8000, 2, 15}, {55500, 21000, 3, 90}, {12000, 40000, 1, 60},
                                   {999999, 0, 4, 1},      {1000000, 0, 5, 30},  {61000, 21000, 6, 0},  {61000, 21000, 6, 20},
                                   {60200, 20500, 7, 45},  {60200, 20500, 8, 5}, {50000, 30000, 9, 2},  {5, 5, 10, 100}};
static const struct mark washed[] = {{12000, 8000, 2, 15}, {55500, 21000, 3, 90}, {70000, 70000, 11, 1}};
/* The first two share the cut at 50000, on which mark 9 lies: it is the second's alone. The last is the wrong way round. */
static const uint32_t panes[PANES][4] = {{0, 50000, 0, 50000}, {50000, 100000, 0, 50000}, {100000, UINT32_MAX, 0, UINT32_MAX}, {50000, 0, 0, 50000}};

static const char *meaning(uint32_t number) {
    static const char *const meanings[] = {
        [REGISTER_OK] = "done",
        [REGISTER_CAPACITY] = "capacity out of range",
        [REGISTER_SHORT_TABLE] = "table too short",
        [REGISTER_NOT_A_TABLE] = "not a table",
        [REGISTER_UNSOUND] = "table not sound",
        [REGISTER_MARK_OUTSIDE] = "off the sheet",
        [REGISTER_BOX_CROSSED] = "box crossed",
        [REGISTER_FULL] = "register full",
        [REGISTER_PRESENT] = "already entered",
        [REGISTER_ABSENT] = "never entered",
        [REGISTER_SHORT_LIST] = "list too short",
        [REGISTER_GRADE_OUTSIDE] = "no such grade",
    };
    int known = number < sizeof meanings / sizeof *meanings && meanings[number] != NULL;
    return known ? meanings[number] : "unknown number";
}

static void stop(const char *where, const char *why) {
    fprintf(stderr, "planner: %s: %s\n", where, why);
    exit(EXIT_FAILURE);
}

/* Two numbers mean that somebody wrote in the table; after the others the planner goes on. */
static int accepted(const char *call, uint32_t number) {
    if (number == REGISTER_NOT_A_TABLE || number == REGISTER_UNSOUND) stop(call, meaning(number));
    if (number != REGISTER_OK) printf("%s refused: %s\n", call, meaning(number));
    return number == REGISTER_OK;
}

static uint32_t *words_to_lend(size_t words) {
    uint32_t *run = malloc((words > 0 ? words : 1) * sizeof *run);    /* no lent pointer is null */
    if (run == NULL) stop("words to lend", "out of memory");
    return run;
}

/* Lends two lists of no words first: the refusal tells how many marks they must hold. */
static void show(const uint32_t *table, size_t words, const uint32_t p[4]) {
    uint32_t none[2], count, visits, which;
    uint32_t number = register_list(table, words, p[0], p[1], p[2], p[3], none, 0, none + 1, 0, &count, &visits, &which);
    size_t each = (size_t)REGISTER_MARK_WORDS * count;
    uint32_t *first = words_to_lend(each), *second = words_to_lend(each);
    if (number == REGISTER_SHORT_LIST)
        number = register_list(table, words, p[0], p[1], p[2], p[3], first, each, second, each, &count, &visits, &which);
    if (accepted("list", number)) {
        const uint32_t *m = which == 1 ? first : second;
        for (uint32_t i = 0; i < count; i++, m += REGISTER_MARK_WORDS) printf("  mark %u at %u,%u: grade %u\n", m[2], m[0], m[1], m[3]);
    }
    free(first);
    free(second);
}

int main(void) {
    size_t words = register_words(CAPACITY);
    uint32_t *table = words_to_lend(words), live, rebuilt, count, visits, sum, worst, most = 0, worst_pane = 0;
    if (!accepted("open", register_open(table, words, CAPACITY, &live))) return EXIT_FAILURE;

    for (size_t i = 0; i < sizeof seen / sizeof *seen; i++)
        if (accepted("insert", register_insert(table, words, seen[i].x, seen[i].y, seen[i].tag, seen[i].grade, &live, &rebuilt)))
            printf("mark %u entered: %u live, %u of them built afresh\n", seen[i].tag, live, rebuilt);

    for (size_t i = 0; i < sizeof washed / sizeof *washed; i++)
        if (accepted("strike", register_strike(table, words, washed[i].x, washed[i].y, washed[i].tag, &live, &rebuilt)))
            printf("mark %u washed off: %u live, %u of them built afresh\n", washed[i].tag, live, rebuilt);

    for (uint32_t i = 0; i < PANES; i++) {
        const uint32_t *p = panes[i];
        if (!accepted("count", register_count(table, words, p[0], p[1], p[2], p[3], &count, &visits, &sum, &worst))) continue;
        printf("pane %u: %u marks, grades sum to %u, the worst is %u; %u visits\n", i + 1, count, sum, worst, visits);
        if (sum > most) most = sum, worst_pane = i;
    }
    printf("pane %u is the worst:\n", worst_pane + 1);
    show(table, words, panes[worst_pane]);

    if (!accepted("check", register_check(table, words, &live))) return EXIT_FAILURE;
    printf("the table is sound, %u marks live\n", live);
    free(table);
    return EXIT_SUCCESS;
}
