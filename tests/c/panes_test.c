/* Panes that share a cut: where a line cuts a box in two, count and sum of the whole are the totals of both parts and the worst is the greater; so panes
   laid edge to edge over a sheet add up to the sheet, and each mark is listed by exactly one of them. Visits of empty boxes beside the model of the tree. */
#include "calls.h"
#include "check.h"
#include "model.h"

enum { CAPACITY = 400, MOST_LINES = 12 };

/* A register, and its marks in the model. */
struct sheet {
    struct loan loan;
    struct mark *marks;
    uint32_t live, span;
    struct node *tree;
};

static void enter(struct sheet *s, struct mark m) {
    if (ask(inserting(m), &s->loan).number != REGISTER_OK) return;
    s->marks[s->live++] = m;
    insert(ALONG_X, &s->tree, m);
}

static void wash_off(struct sheet *s, uint32_t i) {
    COMPARE(ask(striking(s->marks[i]), &s->loan).number == REGISTER_OK);
    strike(&s->tree, s->marks[i]);
    s->marks[i] = s->marks[--s->live];
}

static struct sheet random_sheet(uint32_t span) {
    struct sheet s = {.loan = borrow(words_for(CAPACITY), list_words(CAPACITY)), .marks = allocate(CAPACITY * sizeof(struct mark)), .span = span};
    ask(opening(CAPACITY), &s.loan);
    for (uint32_t i = draw(2 * CAPACITY); i > 0 && s.live < CAPACITY; i--) enter(&s, (struct mark){draw(span), draw(span), draw(3), right_grade()});
    for (uint32_t i = draw(s.live + 1) / 2; i > 0; i--) wash_off(&s, draw(s.live));
    return s;
}

static void put_away(struct sheet *s) {
    COMPARE(all_guarded(&s->loan) && stands(s->tree));
    pay_back(s->loan);
    forget(s->tree);
    free(s->marks);
}

/* Counted, and held against the model: no box but a crossed one is refused. */
static struct answer counted(const struct sheet *s, struct box b) {
    struct answer r = ask(counting(b), &s->loan);
    struct found f = search(s->tree, b, 0);
    struct answer expected = {.count = f.count, .visits = f.visits, .sum = f.grades.sum, .worst = f.grades.worst};
    if (is_crossed(b)) expected = (struct answer){.number = REGISTER_BOX_CROSSED};
    COMPARE(same_answer(r, expected));
    return r;
}

static struct answer both_parts(struct answer a, struct answer b) {
    struct grades g = joined((struct grades){a.sum, a.worst}, (struct grades){b.sum, b.worst});
    return (struct answer){.number = a.number, .count = a.count + b.count, .sum = g.sum, .worst = g.worst};
}

static int adds_up(struct answer parts, struct answer whole) {
    return parts.number == whole.number && parts.count == whole.count && parts.sum == whole.sum && parts.worst == whole.worst;
}

/* A coordinate: of a mark, one beside it, any of the span, or far out. */
static uint32_t any_end(const struct sheet *s, enum axis axis) {
    struct mark m = s->live > 0 ? s->marks[draw(s->live)] : (struct mark){0};
    uint32_t v = axis == ALONG_X ? m.x : m.y;
    switch (draw(6)) {
    case 0: case 1: return v;
    case 2: return v + 1;
    case 3: return v > 0 ? v - 1 : UINT32_MAX;
    case 4: return one_in(4) ? UINT32_MAX - draw(2) : LARGEST_COORDINATE + draw(3);
    default: return draw(s->span + 1);
    }
}

static int by_value(const void *a, const void *b) {
    const uint32_t *p = a, *q = b;
    return *p < *q ? -1 : *p > *q;
}

/* n ends in order: the lines of panes side by side. */
static void any_lines(const struct sheet *s, enum axis axis, uint32_t *line, uint32_t n) {
    for (uint32_t i = 0; i < n; i++) line[i] = any_end(s, axis);
    qsort(line, n, sizeof *line, by_value);
}

/* The box between two lines along an axis, and two of the other. */
static struct box between(enum axis axis, uint32_t from, uint32_t to, const uint32_t other[2]) {
    return axis == ALONG_X ? (struct box){from, to, other[0], other[1]} : (struct box){other[0], other[1], from, to};
}

/* A box cut by a line between two of its sides, or on one of them; at times its other two sides are the wrong way round, and so are those of its parts. */
static void cut_box(const struct sheet *s, enum axis axis) {
    uint32_t line[3], other[2];
    any_lines(s, axis, line, 3);
    any_lines(s, axis == ALONG_X ? ALONG_Y : ALONG_X, other, 2);
    if (one_in(4)) line[1] = line[one_in(2) ? 0 : 2];
    if (one_in(8)) other[0] = other[1] + (other[1] < UINT32_MAX);
    struct answer near = counted(s, between(axis, line[0], line[1], other)), far = counted(s, between(axis, line[1], line[2], other));
    COMPARE(near.number == far.number && adds_up(both_parts(near, far), counted(s, between(axis, line[0], line[2], other))));
}

/* The lines that cut a sheet into n - 1 panes side by side, the first and the last on its sides. */
static void sheet_lines(const struct sheet *s, enum axis axis, uint32_t end, uint32_t *line, uint32_t n) {
    any_lines(s, axis, line, n);
    for (uint32_t i = 0; i < n; i++)
        if (line[i] > end) line[i] = end;
    line[0] = 0;
    line[n - 1] = end;
}

/* Lists a pane, and tells of each mark of the sheet how often it was listed. */
static void list_pane(const struct sheet *s, struct box pane, uint32_t count, uint32_t *times) {
    struct answer r = ask(listing(pane), &s->loan);
    COMPARE(r.number == REGISTER_OK && r.count == count);
    for (uint32_t i = 0; i < r.count; i++) {
        struct mark m;
        memcpy(&m, s->loan.lists[r.which - 1].word + list_words(i), sizeof m);
        for (uint32_t j = 0; j < s->live; j++) times[j] += (uint32_t)(same_mark(s->marks[j], m) && s->marks[j].grade == m.grade);
    }
}

/* The whole sheet in panes edge to edge. */
static void tile_sheet(const struct sheet *s, uint32_t end) {
    uint32_t columns[MOST_LINES], rows[MOST_LINES], n = 2 + draw(MOST_LINES - 1), times[CAPACITY] = {0};
    struct answer total = {0};
    sheet_lines(s, ALONG_X, end, columns, n);
    sheet_lines(s, ALONG_Y, end, rows, n);
    for (uint32_t i = 0; i + 1 < n; i++)
        for (uint32_t j = 0; j + 1 < n; j++) {
            struct box pane = {columns[i], columns[i + 1], rows[j], rows[j + 1]};
            struct answer r = counted(s, pane);
            total = both_parts(total, r);
            list_pane(s, pane, r.count, times);
        }
    for (uint32_t i = 0; i < s->live; i++) COMPARE(times[i] == 1);
    COMPARE(adds_up(total, counted(s, (struct box){0, end, 0, end})) && total.count == s->live);
    COMPARE(same_grades((struct grades){total.sum, total.worst}, all_grades(s->marks, s->live)));
}

/* A box on each mark whose sides the mark lies on: on the low ends in it, on either high end out of it. */
static void four_sides(const struct sheet *s) {
    struct sheet one = {.loan = borrow(words_for(1), list_words(1)), .marks = allocate(sizeof(struct mark))};
    for (uint32_t i = 0; i < s->live && i < 60; i++) {
        struct mark m = s->marks[i];
        one.live = 0;
        forget(one.tree), one.tree = NULL;
        ask(opening(1), &one.loan);
        enter(&one, m);
        const struct box in[] = {{m.x, m.x + 1, m.y, m.y + 1}, {m.x, UINT32_MAX, m.y, UINT32_MAX}, {0, m.x + 1, 0, m.y + 1}};
        const struct box out[] = {{0, m.x, 0, UINT32_MAX}, {0, UINT32_MAX, 0, m.y}, {m.x + 1, UINT32_MAX, 0, UINT32_MAX}, {0, UINT32_MAX, m.y + 1, UINT32_MAX},
                                  {m.x, m.x, m.y, m.y + 1}, {m.x, m.x + 1, m.y, m.y}};
        for (size_t j = 0; j < sizeof in / sizeof *in; j++) COMPARE(counted(&one, in[j]).sum == m.grade);
        for (size_t j = 0; j < sizeof out / sizeof *out; j++) COMPARE(counted(&one, out[j]).sum == 0);
    }
    put_away(&one);
}

/* Boxes without a side, at the coordinates of the marks and beside them: empty, and the visits are the model's. */
static void empty_boxes(const struct sheet *s) {
    for (uint32_t i = 0; i < s->live; i++)
        for (uint32_t by = 0; by < 3; by++) {
            uint32_t x = s->marks[i].x + by, y = s->marks[i].y + by;
            const struct box some[] = {{x, x, 0, UINT32_MAX}, {0, UINT32_MAX, y, y}, {x, x, y, y}, {x, x, 0, y}, {0, x, y, y}};
            for (size_t j = 0; j < sizeof some / sizeof *some; j++) {
                COMPARE(counted(s, some[j]).count == 0);
                struct answer l = ask(listing(some[j]), &s->loan);
                COMPARE(l.number == REGISTER_OK && l.count == 0 && l.visits == search(s->tree, some[j], 1).visits && l.which == 1);
            }
        }
}

int main(void) {
    static const uint32_t spans[] = {1, 2, 3, 7, 20, 100, LARGEST_COORDINATE + 1};
    checks_limit(300);
    for (uint32_t i = 0; i < 140; i++) {
        struct sheet s = random_sheet(spans[i % 7]);
        for (int j = 0; j < 200; j++) cut_box(&s, ALONG_X), cut_box(&s, ALONG_Y);
        for (int j = 0; j < 6; j++) tile_sheet(&s, one_in(3) ? UINT32_MAX : LARGEST_COORDINATE + 1);
        if (i % 10 == 0) four_sides(&s);
        empty_boxes(&s);
        put_away(&s);
    }
    CHECK(compared > 500000);
    return checks_report();
}
