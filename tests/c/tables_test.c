/* Tables and answers stay what they were: runs of all six calls, on sound tables and on any words, with one digest of every word of the tables and one of every
   answer and list. They were taken with the library before R-5 ("no answer and no word left in a table changes"). A landing that means to change a word or a
   figure puts those that the test prints in their stead, and says so in docs/CHANGES.md. */
#include "calls.h"
#include "check.h"

#include <inttypes.h>

struct digests {
    uint64_t tables, answers;
};

static struct digests digests;
static unsigned long accepted[KINDS], rebuilds, met_damage;

/* One step that loses nothing: of two digests that differ, what becomes of them by the same word differs. */
static uint64_t with_word(uint64_t digest, uint32_t word) {
    digest = (digest ^ word) * 0x9E3779B97F4A7C15u;
    return digest ^ digest >> 29;
}

static uint64_t with_words(uint64_t digest, const uint32_t *word, size_t words) {
    for (size_t i = 0; i < words; i++) digest = with_word(digest, word[i]);
    return digest;
}

static void take_table(struct lent t) { digests.tables = with_words(digests.tables, t.word, t.words); }

static void take_answer(struct answer a, const struct lent lists[2]) {
    const uint32_t figures[] = {a.number, a.live, a.rebuilt, a.count, a.visits, a.sum, a.worst, a.which};
    digests.answers = with_words(digests.answers, figures, sizeof figures / sizeof *figures);
    for (int i = 0; i < 2 && a.which > 0; i++) digests.answers = with_words(digests.answers, lists[i].word, list_words(a.count));
}

struct run {
    struct loan loan;
    uint32_t capacity, span, tags;
    unsigned long calls, every;    /* the table's words are taken at one call in so many */
};

static void make_call(struct run *r, struct call c) {
    struct answer a = ask(c, &r->loan);
    take_answer(a, r->loan.lists);
    if (++r->calls % r->every == 0) take_table(r->loan.table);
    accepted[c.kind] += a.number == REGISTER_OK;
    rebuilds += a.rebuilt > 0;
    met_damage += a.number == REGISTER_UNSOUND;
}

/* Numbers are drawn in an order that C settles, not two in one initializer or sum: the digests must not depend on the compiler. */

static struct mark any_mark(const struct run *r) {
    struct mark m;
    m.x = draw(r->span);
    m.y = draw(r->span);
    m.tag = draw(r->tags);
    m.grade = right_grade();
    return m;
}

/* The mark of a slot in use, or on damaged words of any slot. */
static struct mark stored_mark(const struct run *r) {
    const uint32_t *t = r->loan.table.word, live = t[2];
    uint32_t i = draw(live > 0 && live < r->capacity ? live : r->capacity), s = t[list_at(r->capacity, USED) + i];
    return mark_at(t, s < r->capacity ? s : i);
}

static struct box any_box(const struct run *r) {
    struct box b;
    b.x1 = draw(r->span + 1);
    b.x2 = b.x1 + draw(r->span + 1);
    b.y1 = draw(r->span + 1);
    b.y2 = b.y1 + draw(r->span + 1);
    return b;
}

/* So many insertions in a hundred changes: above 50 the table fills, below it empties. */
static void random_call(struct run *r, uint32_t insertions) {
    uint32_t n = draw(100);
    if (n < 5) make_call(r, counting(any_box(r)));
    else if (n < 10) make_call(r, listing(any_box(r)));
    else if (n < 11) make_call(r, examining());
    else if (draw(100) < insertions) make_call(r, inserting(any_mark(r)));
    else make_call(r, striking(one_in(8) ? any_mark(r) : stored_mark(r)));
}

static struct run begin(uint32_t capacity, uint32_t span, uint32_t tags, unsigned long every) {
    struct run r = {borrow(words_for(capacity) + 7, list_words(capacity) + 3), capacity, span, tags, 0, every};
    make_call(&r, opening(capacity));
    return r;
}

static void end(struct run *r) {
    take_table(r->loan.table);
    COMPARE(all_guarded(&r->loan));
    pay_back(r->loan);
}

/* Fills and empties a table by turns. */
static void sound_run(uint32_t capacity, uint32_t span, uint32_t tags, unsigned calls, unsigned long every) {
    struct run r = begin(capacity, span, tags, every);
    for (unsigned i = 0; i < calls; i++) random_call(&r, i / (2 * capacity + 1) % 3 == 2 ? 15 : 85);
    make_call(&r, examining());
    end(&r);
}

static void few_marks(void) {
    for (uint32_t capacity = 1; capacity <= 24; capacity++) {
        sound_run(capacity, 1 + capacity, 2, 500, 1);
        sound_run(capacity, LARGEST_COORDINATE + 1, 2, 500, 1);
    }
}

/* Places that are shared: the tags decide. */
static void shared_places(void) {
    sound_run(24, 1, 90, 3000, 1);
    sound_run(60, 1, UINT32_MAX, 3000, 3);
    sound_run(60, 2, 30, 3000, 3);
}

/* Rows along x and along y: one coordinate decides, or the other. */
static void rows(void) {
    sound_run(60, 8, 3, 4000, 3);
    sound_run(1000, 40, 2, 9000, 150);
}

static void whole_sheets(void) {
    sound_run(1000, LARGEST_COORDINATE + 1, 2, 9000, 150);
    sound_run(8000, LARGEST_COORDINATE + 1, UINT32_MAX, 60000, 10000);
}

/* Words of any kind: small, at the ends, or in the middle, where a number of 31 bits ends. */
static uint32_t any_word(uint32_t span) {
    switch (draw(5)) {
    case 0: return draw(span);
    case 1: return UINT32_MAX - draw(3);
    case 2: return 0x7FFFFFFF + draw(3);
    case 3: return LARGEST_COORDINATE + draw(3);
    default: return draw(UINT32_MAX);
    }
}

/* A word of a slot's mark mostly, or any word but the header's first three. */
static void spoil(struct run *r) {
    size_t words = r->loan.table.words, at = slot_at(draw(r->capacity));
    at += draw(GRADE);
    if (one_in(6)) at = ROOT + draw((uint32_t)words - ROOT);
    r->loan.table.word[at] = any_word(r->span);
}

/* Tables whose marks are any words, and then some calls. */
static void any_words(void) {
    for (unsigned i = 0; i < 6000; i++) {
        uint32_t capacity = 2 + draw(30);
        struct run r = begin(capacity, one_in(2) ? 6 : LARGEST_COORDINATE + 1, 3, 1000);
        for (uint32_t j = draw(3 * capacity); j > 0; j--) make_call(&r, inserting(any_mark(&r)));
        for (uint32_t j = one_in(2) ? 1 + draw(3) : 4 * capacity; j > 0; j--) spoil(&r);
        for (uint32_t j = 0; j < 8; j++) {
            random_call(&r, 70);
            r.loan.table.word[0] = 1;    /* a call that met damage has closed the table */
        }
        end(&r);
    }
}

static const struct {
    const char *name;
    void (*make)(void);
    struct digests digests;
} series[] = {
    {"few marks", few_marks, {0xEA77A82A76F298DB, 0x61A8C14CA2353E60}},
    {"shared places", shared_places, {0xEB8AD02BF08223AA, 0xF49236BA0A520E71}},
    {"rows", rows, {0x1434DD8A783C1D39, 0x012F51B39A0105E7}},
    {"whole sheets", whole_sheets, {0x30BA02C36A12ADAC, 0x836A313B8C1B974C}},
    {"any words", any_words, {0xEDE81A69BCE9F248, 0x6854D3E35C111800}},
};

/* A digest tells one bit of one word. */
static void check_digest(void) {
    uint32_t word[100] = {0};
    uint64_t before = with_words(0, word, 100);
    word[50] ^= 0x80000000;
    CHECK(before != with_words(0, word, 100));
}

int main(void) {
    checks_limit(300);
    for (size_t i = 0; i < sizeof series / sizeof *series; i++) {
        digests = (struct digests){0, 0};
        series[i].make();
        if (memcmp(&digests, &series[i].digests, sizeof digests) != 0)
            fprintf(stderr, "%s: tables 0x%016" PRIX64 ", answers 0x%016" PRIX64 "\n", series[i].name, digests.tables, digests.answers);
        CHECK(digests.tables == series[i].digests.tables);
        CHECK(digests.answers == series[i].digests.answers);
    }
    CHECK(accepted[INSERT] > 100000 && accepted[STRIKE] > 30000 && accepted[COUNT] > 5000 && accepted[LIST] > 5000 && accepted[EXAMINE] > 1000);
    CHECK(rebuilds > 10000 && met_damage > 500);
    check_digest();
    return checks_report();
}
