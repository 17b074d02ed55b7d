/* Random runs of all six calls beside document 01's plain list of marks, searched by a simple scan, and the model of the tree (model.h) for visits and
   'rebuilt'. At each call the number, every figure, a list's answer and all lent words are compared. */
#include "calls.h"
#include "check.h"
#include "model.h"

/* The capacity of the largest run: the sanitizers take three times as long, and twice the memory. */
#ifndef LARGE
#ifdef __SANITIZE_ADDRESS__
#define LARGE 16384
#else
#define LARGE 65536
#endif
#endif

struct run {
    struct loan loan;
    uint32_t capacity, span, tags;
    struct mark *plain, *held;        /* the live marks ascending by x, y, tag; those of the last box */
    uint32_t live;
    struct node *tree;
    unsigned searches, rest;          /* of a hundred calls, those that count or list, and those that open or check */
    unsigned long readings, every;    /* a table too large to be compared at each call is so at one in so many of those that must not write */
    int grows, in_step;               /* whether the table's copy is what stands in it before a call */
};

static unsigned long numbers[KINDS][LARGEST_NUMBER + 1], rebuilds;
static unsigned long fallen;    /* how often the worst grade of a box fell with a strike */
static unsigned long empty_boxes, opened_empty, on_high_ends;    /* boxes without a side; such that the search went on into; boxes with a mark just past a side */

/* Where a mark stands in the plain list, or would. */
static uint32_t place_of(const struct run *r, struct mark m) {
    uint32_t from = 0, to = r->live;
    while (from < to) {
        uint32_t mid = from + (to - from) / 2;
        if (below(ALONG_X, r->plain[mid], m)) from = mid + 1; else to = mid;
    }
    return from;
}

/* What the searched boxes were: that the ends were met. */
static void tell_box(const struct run *r, struct box b, uint32_t visits) {
    struct box closed = {b.x1, b.x2 + (b.x2 < UINT32_MAX), b.y1, b.y2 + (b.y2 < UINT32_MAX)};
    empty_boxes += (unsigned)is_empty(b);
    opened_empty += is_empty(b) && visits > 1;
    on_high_ends += scan(r->plain, r->live, closed, r->held) > scan(r->plain, r->live, b, r->held);
}

/* The steps of document 01, "The history". */

static struct answer open_step(struct run *r, uint32_t capacity) {
    if (capacity < 1 || capacity > LARGEST) return (struct answer){.number = REGISTER_CAPACITY};
    if (r->loan.table.words < words_for(capacity)) return (struct answer){.number = REGISTER_SHORT_TABLE};
    r->capacity = capacity;
    r->live = 0;
    forget(r->tree);
    r->tree = NULL;
    return (struct answer){0};
}

static struct answer insert_step(struct run *r, struct mark m) {
    uint32_t i = place_of(r, m);
    if (is_outside(m)) return (struct answer){.number = REGISTER_MARK_OUTSIDE};
    if (is_grade_outside(m)) return (struct answer){.number = REGISTER_GRADE_OUTSIDE};
    if (i < r->live && same_mark(r->plain[i], m)) return (struct answer){.number = REGISTER_PRESENT};
    if (r->live == r->capacity) return (struct answer){.number = REGISTER_FULL};
    memmove(r->plain + i + 1, r->plain + i, (r->live++ - i) * sizeof m);
    r->plain[i] = m;
    return (struct answer){.live = r->live, .rebuilt = insert(ALONG_X, &r->tree, m)};
}

static struct answer strike_step(struct run *r, struct mark m) {
    uint32_t i = place_of(r, m);
    if (is_outside(m)) return (struct answer){.number = REGISTER_MARK_OUTSIDE};
    if (i == r->live || !same_mark(r->plain[i], m)) return (struct answer){.number = REGISTER_ABSENT};
    memmove(r->plain + i, r->plain + i + 1, (--r->live - i) * sizeof m);
    return (struct answer){.live = r->live, .rebuilt = strike(&r->tree, m)};
}

static struct answer search_step(struct run *r, struct box b, int lists) {
    if (is_crossed(b)) return (struct answer){.number = REGISTER_BOX_CROSSED};
    struct found f = search(r->tree, b, lists);
    tell_box(r, b, f.visits);
    uint32_t k = scan(r->plain, r->live, b, r->held);
    struct grades g = all_grades(r->held, k);
    COMPARE(f.count == k && same_grades(f.grades, g));
    if (!lists) return (struct answer){.count = k, .visits = f.visits, .sum = g.sum, .worst = g.worst};
    if (r->loan.lent[0] < list_words(k) || r->loan.lent[1] < list_words(k)) return (struct answer){.number = REGISTER_SHORT_LIST, .count = k};
    return (struct answer){.count = k, .visits = f.visits, .which = which_list(k)};
}

static struct answer step(struct run *r, struct call c) {
    switch (c.kind) {
    case OPEN: return open_step(r, c.capacity);
    case INSERT: return insert_step(r, c.mark);
    case STRIKE: return strike_step(r, c.mark);
    case COUNT: return search_step(r, c.box, 0);
    case LIST: return search_step(r, c.box, 1);
    default: return (struct answer){.live = r->live};
    }
}

/* An accepted list's marks stand word for word in the list that it names, and both lists are left alone past them. */
static void compare_lists(struct run *r, struct call c, struct answer a) {
    const struct lent *lists = r->loan.lists;
    if (a.number == REGISTER_OK) COMPARE(memcmp(lists[a.which - 1].word, r->held, a.count * sizeof *r->held) == 0);
    COMPARE(lists_left_alone(c, a, &r->loan));
    if (a.number == REGISTER_OK) keep(lists[0]), keep(lists[1]);
}

static void make_call(struct run *r, struct call c) {
    struct lent table = r->loan.table;
    struct answer expected = step(r, c), a;
    int writes = expected.number == REGISTER_OK && (c.kind == OPEN || c.kind == INSERT || c.kind == STRIKE);
    int watched = r->every == 1 || (!writes && r->readings++ % r->every == 0);
    if (watched && !r->in_step) keep(table), r->in_step = 1;
    a = ask(c, &r->loan);
    COMPARE(same_answer(a, expected));
    if (!same_answer(a, expected)) {
        if (differing <= SHOWN) show_call("expected", c, expected), show_call("given", c, a);
        return;
    }
    if (watched) COMPARE(table_left_alone(c, a.number, table));
    if (watched && writes && c.kind != OPEN) COMPARE(unused_left_alone(table));
    if (writes) r->in_step = 0;
    if (c.kind == LIST) compare_lists(r, c, a);
    COMPARE(all_guarded(&r->loan));
    numbers[c.kind][a.number]++;
    rebuilds += a.rebuilt != 0;
}

/* A mark of the run's span, or one that is live, or at the edge of the sheet, or beyond it; with any grade. */
static struct mark any_mark(const struct run *r, uint32_t live_ones) {
    struct mark m = {draw(r->span), draw(r->span), draw(r->tags), 0};
    if (r->live > 0 && draw(10) < live_ones) m = r->plain[draw(r->live)];
    m.grade = any_grade();
    if (!one_in(12)) return m;
    switch (draw(8)) {
    case 0: m.x = LARGEST_COORDINATE; break;
    case 1: m.y = LARGEST_COORDINATE; break;
    case 2: m.x = LARGEST_COORDINATE + 1; break;
    case 3: m.y = LARGEST_COORDINATE + 1; break;
    case 4: m.x = UINT32_MAX - draw(3); break;
    case 5: m.y = UINT32_MAX; break;
    case 6: m.tag = UINT32_MAX - draw(2); break;
    default: m.tag++; break;
    }
    return m;
}

static void order(uint32_t *low, uint32_t *high) {
    uint32_t v = *low;
    if (v > *high) *low = *high, *high = v;
}

static struct box any_box(const struct run *r) {
    struct box b = {draw(r->span + 1), draw(r->span + 1), draw(r->span + 1), draw(r->span + 1)};
    struct mark m = r->live > 0 ? r->plain[draw(r->live)] : (struct mark){0};
    if (one_in(6)) b.x1 = 0, b.x2 = UINT32_MAX;
    if (one_in(6)) b.y1 = 0, b.y2 = UINT32_MAX;
    if (one_in(8)) b.x1 = m.x, b.x2 = m.x + draw(2);    /* empty, or of one coordinate */
    if (one_in(8)) b.y1 = m.y, b.y2 = m.y + draw(2);
    if (one_in(12)) b.x2 = m.x;
    if (one_in(12)) b.y2 = m.y;
    if (one_in(20)) b.x2 = UINT32_MAX;
    if (one_in(12)) return b;    /* it may be crossed */
    order(&b.x1, &b.x2);
    order(&b.y1, &b.y2);
    return b;
}

/* Lends lists for the marks of a box: just as long as they must be, a word shorter, of no words, or longer. */
static void lend_lists(struct run *r, struct box b) {
    size_t needed = list_words(scan(r->plain, r->live, b, r->held));
    for (int i = 0; i < 2; i++) {
        r->loan.lent[i] = needed;
        switch (draw(8)) {
        case 0: r->loan.lent[i] = needed > 0 ? needed - 1 : 0; break;
        case 1: r->loan.lent[i] = 0; break;
        case 2: case 3: r->loan.lent[i] = r->loan.lists[i].words; break;
        }
    }
}

/* A capacity that is refused, or any that the words suffice for. */
static uint32_t any_capacity(const struct run *r) {
    static const uint32_t refused[] = {0, LARGEST + 1, UINT32_MAX, LARGEST};
    uint32_t capacity = LARGEST;
    if (!one_in(4)) return one_in(8) ? r->capacity + 40 : refused[draw(4)];
    while (words_for(capacity) > r->loan.table.words) capacity = draw(capacity) + 1;
    return capacity;
}

/* Fills the table to the brim and stays there for a while, then empties most of it. */
static int grows_now(struct run *r) {
    if (r->live == r->capacity && one_in(20)) r->grows = 0;
    if (r->live <= r->capacity / 4 && one_in(4)) r->grows = 1;
    return r->grows;
}

static void count_some(struct run *r) { make_call(r, counting(any_box(r))); }

static void list_some(struct run *r) {
    struct box b = any_box(r);
    lend_lists(r, b);
    make_call(r, listing(b));
}

/* The worst mark of a box is struck, and the box counted before and after. */
static void strike_worst(struct run *r) {
    struct box b = any_box(r);
    make_call(r, counting(b));
    uint32_t k = scan(r->plain, r->live, b, r->held);
    if (k == 0) return;
    struct mark worst = r->held[0];
    for (uint32_t i = 1; i < k; i++)
        if (r->held[i].grade > worst.grade) worst = r->held[i];
    make_call(r, striking(worst));
    make_call(r, counting(b));
    fallen += all_grades(r->held, k - 1).worst < worst.grade;
}

static void random_call(struct run *r) {
    uint32_t n = draw(100);
    if (n < r->searches) {
        if (one_in(2)) count_some(r); else list_some(r);
    } else if (n < r->searches + r->rest) {
        make_call(r, one_in(4) ? opening(any_capacity(r)) : examining());
    } else if ((draw(5) < 4) == grows_now(r)) {
        make_call(r, inserting(any_mark(r, 2)));
    } else if (one_in(5)) {
        strike_worst(r);
    } else {
        make_call(r, striking(any_mark(r, 8)));
    }
}

static struct run begin(uint32_t capacity, uint32_t span, uint32_t tags) {
    struct run r = {.capacity = capacity, .span = span, .tags = tags, .searches = 40, .rest = 5, .every = 1, .grows = 1};
    r.loan = borrow(words_for(capacity) + draw(50), list_words(capacity) + draw(5));
    r.plain = allocate((capacity + 1) * sizeof *r.plain);
    r.held = allocate((capacity + 1) * sizeof *r.held);
    make_call(&r, opening(0));
    make_call(&r, opening(LARGEST + 1));
    if (capacity < LARGEST) make_call(&r, opening(LARGEST));
    make_call(&r, opening(capacity));
    return r;
}

static void end(struct run *r) {
    COMPARE(stands(r->tree));
    make_call(r, examining());
    forget(r->tree);
    free(r->plain);
    free(r->held);
    pay_back(r->loan);
}

static void random_run(uint32_t capacity, uint32_t span, uint32_t tags, unsigned calls) {
    struct run r = begin(capacity, span, tags);
    for (unsigned i = 0; i < calls; i++) random_call(&r);
    end(&r);
}

/* A table of thousands of marks is first filled, with few calls of other kinds, and never opened anew. */
static void filled_run(uint32_t capacity, uint32_t span, uint32_t tags, unsigned calls) {
    struct run r = begin(capacity, span, tags);
    r.rest = 0;
    while (r.live < capacity) make_call(&r, inserting(any_mark(&r, 0)));
    for (unsigned i = 0; i < calls; i++) random_call(&r);
    end(&r);
}

/* One search for every so many updates. */
static void look(struct run *r, uint32_t i) {
    if (i % 64 == 0) count_some(r);
    if (i % 1024 == 0) list_some(r);
    if (i % 16384 == 0) make_call(r, examining());
}

/* The largest table: filled full by rows of equal x, struck to a half row by row and at random, refilled. */
static void largest_run(uint32_t capacity) {
    struct run r = begin(capacity, 1000, UINT32_MAX);
    uint32_t rows = 64, each = capacity / rows;
    r.every = 64;
    for (uint32_t i = 0; i < capacity; i++) {
        make_call(&r, inserting((struct mark){i / each * 15, draw(1000), i, right_grade()}));
        look(&r, i);
    }
    make_call(&r, inserting((struct mark){0, 0, UINT32_MAX, 1}));    /* full */
    make_call(&r, inserting(r.plain[draw(capacity)]));               /* full, and present */
    while (r.live > capacity * 3 / 4) make_call(&r, striking(r.plain[0]));
    for (; r.live > capacity / 2; look(&r, r.live)) make_call(&r, striking(any_mark(&r, 9)));
    for (; r.live < capacity; look(&r, r.live)) make_call(&r, inserting(any_mark(&r, 0)));
    make_call(&r, inserting((struct mark){0, 0, UINT32_MAX, 1}));
    for (int i = 0; i < 2; i++) r.loan.lent[i] = list_words(capacity);
    make_call(&r, listing((struct box){0, UINT32_MAX, 0, UINT32_MAX}));
    end(&r);
}

/* Every number of each call came up, and often, but 3 and 4: no call of a run gives them. */
static void check_numbers(void) {
    for (int kind = 0; kind < KINDS; kind++)
        for (unsigned n = 0; n <= LARGEST_NUMBER; n++) {
            int comes = has_number(kind, n) && n != REGISTER_NOT_A_TABLE && n != REGISTER_UNSOUND;
            CHECK(comes ? numbers[kind][n] > 100 : numbers[kind][n] == 0);
        }
    CHECK(rebuilds > 1000 && fallen > 1000);
    CHECK(empty_boxes > 10000 && opened_empty > 1000 && on_high_ends > 10000);
}

int main(void) {
    checks_limit(900);
    for (uint32_t capacity = 1; capacity <= 24; capacity++) {
        random_run(capacity, 1 + capacity, 2, 6000);
        random_run(capacity, 2, 1 + capacity, 6000);    /* marks that differ in tag only */
        random_run(capacity, 1000000, 2, 6000);
    }
    for (int i = 0; i < 3; i++) {
        random_run(60, 4, 9, 20000);    /* rows of equal x and y */
        random_run(60, 1, 90, 10000);   /* one place */
        random_run(60, 1000000, 1, 20000);
    }
    random_run(200, 1000000, 2, 20000);
    random_run(200, 12, 4, 20000);
    random_run(1000, 40, 2, 12000);
    filled_run(1000, 1000000, 2, 6000);
    filled_run(4000, 1000000, 2, 4000);
    filled_run(4000, 100, 3, 3000);
    largest_run(LARGE);
    check_numbers();
    return checks_report();
}
