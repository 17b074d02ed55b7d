/* Marks, boxes, the two orders of marks, and their grades summed up, for the tests. */
#ifndef MARKS_H
#define MARKS_H

#include <stdint.h>

enum { LARGEST_COORDINATE = 999999, LARGEST_GRADE = 100 };

struct mark {
    uint32_t x, y, tag, grade;
};

/* Of some marks; 0 and 0 where there is none. */
struct grades {
    uint32_t sum, worst;
};

struct box {
    uint32_t x1, x2, y1, y2;
};

enum axis { ALONG_X, ALONG_Y };

static inline int below(enum axis axis, struct mark a, struct mark b) {
    uint32_t p[] = {axis == ALONG_X ? a.x : a.y, axis == ALONG_X ? a.y : a.x, a.tag};
    uint32_t q[] = {axis == ALONG_X ? b.x : b.y, axis == ALONG_X ? b.y : b.x, b.tag};
    for (int i = 0; i < 3; i++)
        if (p[i] != q[i]) return p[i] < q[i];
    return 0;
}

static inline int by_x(const void *a, const void *b) {
    const struct mark *p = a, *q = b;
    return below(ALONG_X, *p, *q) ? -1 : below(ALONG_X, *q, *p);
}

static inline int by_y(const void *a, const void *b) {
    const struct mark *p = a, *q = b;
    return below(ALONG_Y, *p, *q) ? -1 : below(ALONG_Y, *q, *p);
}

/* The grade is no part of it. */
static inline int same_mark(struct mark a, struct mark b) { return a.x == b.x && a.y == b.y && a.tag == b.tag; }

static inline int is_outside(struct mark m) { return m.x > LARGEST_COORDINATE || m.y > LARGEST_COORDINATE; }

static inline int is_grade_outside(struct mark m) { return m.grade < 1 || m.grade > LARGEST_GRADE; }

/* A side has its low end and not its high one. */
static inline int holds_mark(struct box b, struct mark m) { return b.x1 <= m.x && m.x < b.x2 && b.y1 <= m.y && m.y < b.y2; }

static inline int is_crossed(struct box b) { return b.x1 > b.x2 || b.y1 > b.y2; }

static inline int is_empty(struct box b) { return b.x1 == b.x2 || b.y1 == b.y2; }

/* Puts those of n marks that a box holds into `held`, in their order, and tells how many: the simple scan. */
static inline uint32_t scan(const struct mark *marks, uint32_t n, struct box b, struct mark *held) {
    uint32_t k = 0;
    for (uint32_t i = 0; i < n; i++)
        if (holds_mark(b, marks[i])) held[k++] = marks[i];
    return k;
}

static inline struct grades joined(struct grades a, struct grades b) {
    return (struct grades){a.sum + b.sum, a.worst > b.worst ? a.worst : b.worst};
}

static inline struct grades grades_of(struct mark m) { return (struct grades){m.grade, m.grade}; }

static inline struct grades all_grades(const struct mark *marks, uint32_t n) {
    struct grades g = {0, 0};
    for (uint32_t i = 0; i < n; i++) g = joined(g, grades_of(marks[i]));
    return g;
}

static inline int same_grades(struct grades a, struct grades b) { return a.sum == b.sum && a.worst == b.worst; }

/* The list that holds k sorted marks: there are p passes, the least p with 2^p >= k, and even p means the first. */
static inline uint32_t which_list(uint32_t k) {
    uint32_t p = 0;
    for (uint64_t reach = 1; reach < k; reach *= 2) p++;
    return p % 2 == 0 ? 1 : 2;
}

#endif
