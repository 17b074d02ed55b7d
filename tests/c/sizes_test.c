/* The sizes of every capacity beside an independent computation (layout.h). */
#include "check.h"
#include "layout.h"
#include "markregister.h"

/* D(C), read off the words that the library asks for. */
static size_t levels_asked(uint32_t capacity) { return ((register_words(capacity) - HEADER) / capacity - PER_MARK) / PER_LEVEL; }

int main(void) {
    for (uint32_t capacity = 1; capacity <= LARGEST; capacity++)
        COMPARE(levels_asked(capacity) == levels_for(capacity) && register_words(capacity) == words_for(capacity));

    /* document 01, P1 and P2, restated by R-1 */
    CHECK(levels_asked(1) == 0 && levels_asked(2) == 2 && levels_asked(3) == 3);
    CHECK(levels_asked(4) == 4 && levels_asked(5) == 5 && levels_asked(8) == 7);
    CHECK(register_words(1) == 104 && register_words(40) == 13184);

    /* out of range */
    CHECK(register_words(0) == 0);
    CHECK(register_words(LARGEST) == HEADER + (size_t)LARGEST * (PER_MARK + PER_LEVEL * 38));
    CHECK(register_words(LARGEST + 1) == 0);
    CHECK(register_words(UINT32_MAX) == 0);
    return checks_report();
}
