// The header in C++, included twice: each function and number can be named there.
#include "markregister.h"
#include "markregister.h"

#include <cstddef>
#include <cstdint>

std::size_t (*const words)(std::uint32_t) = register_words;
const std::uint32_t number = REGISTER_OK;

std::uint32_t planner(std::uint32_t *table, std::size_t n, std::uint32_t *first, std::uint32_t *second) {
    std::uint32_t live, rebuilt, count, visits, sum, worst, which;
    if (register_open(table, n, 1, &live) != number) return REGISTER_CAPACITY;
    if (register_insert(table, n, 1, 2, 3, REGISTER_LARGEST_GRADE, &live, &rebuilt) == REGISTER_GRADE_OUTSIDE) return REGISTER_GRADE_OUTSIDE;
    if (register_strike(table, n, 1, 2, 3, &live, &rebuilt) == REGISTER_ABSENT) return REGISTER_ABSENT;
    if (register_count(table, n, 0, 1, 0, 1, &count, &visits, &sum, &worst) == REGISTER_BOX_CROSSED) return REGISTER_BOX_CROSSED;
    const std::size_t each = REGISTER_MARK_WORDS;
    if (register_list(table, n, 0, 1, 0, 1, first, each, second, each, &count, &visits, &which) == REGISTER_SHORT_LIST) return REGISTER_SHORT_LIST;
    return register_check(table, n, &live);
}
