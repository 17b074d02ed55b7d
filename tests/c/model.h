/* A two-fold tree of marks by document 01's rules, coded apart from the library: nodes from the heap, each with what it stands for. Meant to be read beside
   document 01, "The tree" and "The search and its visits". */
#ifndef MODEL_H
#define MODEL_H

#include "marks.h"

#include <stdlib.h>

struct node {
    enum axis axis;
    uint32_t weight;
    struct grades grades;
    struct mark least, greatest;              /* of the marks beneath; a leaf's own mark */
    struct node *left, *right, *auxiliary;    /* of an inner node; the auxiliary of one along x */
};

struct found {
    uint32_t count, visits;
    struct grades grades;
};

/* The places on the way of an update, from the root down. A balanced tree of 65,536 marks is 38 deep. */
struct way {
    struct node **place[64];
    unsigned steps;
};

static int is_leaf(const struct node *t) { return t->left == NULL; }

static void forget(struct node *t) {
    if (t == NULL) return;
    forget(t->left);
    forget(t->right);
    forget(t->auxiliary);
    free(t);
}

static struct node *make_leaf(enum axis axis, struct mark m) {
    struct node *t = malloc(sizeof *t);
    if (t == NULL) abort();
    *t = (struct node){axis, 1, grades_of(m), m, m, NULL, NULL, NULL};
    return t;
}

/* What an inner node stands for, once its children are right. */
static void sum_up(struct node *t) {
    if (is_leaf(t)) return;
    t->weight = t->left->weight + t->right->weight;
    t->grades = joined(t->left->grades, t->right->grades);
    t->least = t->left->least;
    t->greatest = t->right->greatest;
}

static int is_balanced(const struct node *t) { return is_leaf(t) || (4 * t->left->weight >= t->weight && 4 * t->right->weight >= t->weight); }

/* Of n marks in the order of the axis. */
static struct node *build(enum axis axis, const struct mark *marks, uint32_t n) {
    struct node *t = make_leaf(axis, marks[0]);
    if (n == 1) return t;
    t->left = build(axis, marks, n / 2);
    t->right = build(axis, marks + n / 2, n - n / 2);
    sum_up(t);
    if (axis == ALONG_X) {
        struct mark *sorted = malloc(n * sizeof *sorted);
        if (sorted == NULL) abort();
        for (uint32_t i = 0; i < n; i++) sorted[i] = marks[i];
        qsort(sorted, n, sizeof *sorted, by_y);
        t->auxiliary = build(ALONG_Y, sorted, n);
        free(sorted);
    }
    return t;
}

static struct mark *collect(const struct node *t, struct mark *to) {
    if (!is_leaf(t)) return collect(t->right, collect(t->left, to));
    *to = t->least;
    return to + 1;
}

/* Builds the node at a place afresh; its weight. */
static uint32_t build_afresh(struct node **at) {
    struct node *old = *at;
    struct mark *marks = malloc(old->weight * sizeof *marks);
    if (marks == NULL) abort();
    collect(old, marks);
    *at = build(old->axis, marks, old->weight);
    forget(old);
    free(marks);
    return (*at)->weight;
}

/* After an update: the nodes on its way stand for what they have now, and the unbalanced one nearest the root, if any, is built afresh. Its weight, or 0. */
static uint32_t mend(const struct way *w) {
    for (unsigned i = w->steps; i-- > 0;) sum_up(*w->place[i]);
    for (unsigned i = 0; i < w->steps; i++)
        if (!is_balanced(*w->place[i])) return build_afresh(w->place[i]);
    return 0;
}

/* The child on the way to a mark. */
static struct node **towards(struct node *t, struct mark m) { return below(t->axis, m, t->right->least) ? &t->left : &t->right; }

static uint32_t insert(enum axis axis, struct node **at, struct mark m) {
    struct way w = {.steps = 0};
    if (*at == NULL) {
        *at = make_leaf(axis, m);
        return 0;
    }
    for (; !is_leaf(*at); at = towards(*at, m)) {
        w.place[w.steps++] = at;
        if (axis == ALONG_X) insert(ALONG_Y, &(*at)->auxiliary, m);
    }
    struct mark two[2] = {(*at)->least, m};
    if (below(axis, m, two[0])) two[1] = two[0], two[0] = m;
    forget(*at);
    *at = build(axis, two, 2);
    return mend(&w);
}

static uint32_t strike(struct node **at, struct mark m) {
    struct way w = {.steps = 0};
    for (; !is_leaf(*at); at = towards(*at, m)) {
        w.place[w.steps++] = at;
        if ((*at)->axis == ALONG_X) strike(&(*at)->auxiliary, m);
    }
    forget(*at);
    *at = NULL;
    if (w.steps == 0) return 0;
    struct node **parent = w.place[w.steps - 1], *old = *parent;    /* the sibling takes its place */
    *parent = old->left == NULL ? old->right : old->left;
    old->left = old->right = NULL;
    forget(old);
    return mend(&w);
}

static struct found both(struct found a, struct found b) { return (struct found){a.count + b.count, a.visits + b.visits, joined(a.grades, b.grades)}; }

/* Counts, or where `walks` lists: in an auxiliary a cell inside the side is then walked, one visit a node. */
static struct found search(const struct node *t, struct box b, int walks) {
    static const struct found visit = {.visits = 1};
    if (t == NULL) return (struct found){0};
    if (is_leaf(t)) return holds_mark(b, t->least) ? (struct found){1, 1, t->grades} : visit;
    int x = t->axis == ALONG_X;
    uint32_t low = x ? t->least.x : t->least.y, high = x ? t->greatest.x : t->greatest.y, from = x ? b.x1 : b.y1, to = x ? b.x2 : b.y2;
    if (from <= low && high < to)
        return x ? both(visit, search(t->auxiliary, b, walks)) : (struct found){t->weight, walks ? 2 * t->weight - 1 : 1, t->grades};
    if (high < from || to <= low) return visit;
    return both(visit, both(search(t->left, b, walks), search(t->right, b, walks)));
}

/* Every node of the tree and of its auxiliary trees is balanced, and an auxiliary has its node's weight and grades. */
static int stands(const struct node *t) {
    if (t == NULL || is_leaf(t)) return 1;
    const struct node *a = t->auxiliary;
    if (t->axis == ALONG_X && (a->weight != t->weight || !same_grades(a->grades, t->grades) || !stands(a))) return 0;
    return is_balanced(t) && t->weight == t->left->weight + t->right->weight && stands(t->left) && stands(t->right);
}

#endif
