/* Runs of words lent between guard words, with a copy of what stood there; and random numbers. */
#ifndef LENT_H
#define LENT_H

#include <stddef.h>
#include <stdint.h>
#include <stdlib.h>
#include <string.h>

#ifndef GUARD
#define GUARD 64    /* words on either side of a run. With 0 valgrind sees each access past a run */
#endif

static const uint32_t GUARD_WORD = 0xA5A55A5A;

static uint64_t state = 88172645463325252u;

/* A random number below n. */
static inline uint32_t draw(uint32_t n) {
    state ^= state << 13;
    state ^= state >> 7;
    state ^= state << 17;
    return (uint32_t)((state >> 16) % n);
}

static inline int one_in(uint32_t n) { return draw(n) == 0; }

struct lent {
    uint32_t *all, *word, *kept;
    size_t words;
};

static inline void *allocate(size_t bytes) {
    void *p = malloc(bytes > 0 ? bytes : 1);
    if (p == NULL) abort();
    return p;
}

/* Takes a copy of the words, to compare with later. */
static inline void keep(struct lent t) { memcpy(t.kept, t.word, t.words * sizeof *t.kept); }

/* The words from one on are as they were kept. */
static inline int unchanged_from(struct lent t, size_t from) {
    return from >= t.words || memcmp(t.kept + from, t.word + from, (t.words - from) * sizeof *t.kept) == 0;
}

static inline void scribble(struct lent t) {
    for (size_t i = 0; i < t.words; i++) t.word[i] = draw(UINT32_MAX);
    keep(t);
}

/* A run of that many words, of random ones. */
static inline struct lent lend(size_t words) {
    size_t bytes = (words + 2 * GUARD) * sizeof(uint32_t);
    struct lent t = {allocate(bytes), NULL, allocate(words * sizeof(uint32_t)), words};
    for (size_t i = 0; i < words + 2 * GUARD; i++) t.all[i] = GUARD_WORD;
    t.word = t.all + GUARD;
    scribble(t);
    return t;
}

static inline int guarded(struct lent t) {
    for (size_t i = GUARD; i-- > 0;)
        if (t.all[i] != GUARD_WORD || t.all[GUARD + t.words + i] != GUARD_WORD) return 0;
    return 1;
}

static inline void take_back(struct lent t) {
    free(t.all);
    free(t.kept);
}

#endif
