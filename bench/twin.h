/* The register's twin: the same two-fold tree in the same words, written in C as one would without proofs. It trusts its caller and its table: no length is
   passed, no word is doubted, nothing is tested that a sound table has anyway. */
#ifndef TWIN_H
#define TWIN_H

#include <stdint.h>

#ifdef __cplusplus
extern "C" {
#endif

/* Each gives document 01's number, as the register's call of the same name does. */
uint32_t twin_open(uint32_t *table, uint32_t capacity, uint32_t *live);
uint32_t twin_insert(uint32_t *table, uint32_t x, uint32_t y, uint32_t tag, uint32_t grade, uint32_t *live, uint32_t *rebuilt);
uint32_t twin_strike(uint32_t *table, uint32_t x, uint32_t y, uint32_t tag, uint32_t *live, uint32_t *rebuilt);
uint32_t twin_count(const uint32_t *table, uint32_t x1, uint32_t x2, uint32_t y1, uint32_t y2, uint32_t *count, uint32_t *visits, uint32_t *sum,
                    uint32_t *worst);

/* The same answer, by the register's own way of searching. */
uint32_t twin_count_parted(const uint32_t *table, uint32_t x1, uint32_t x2, uint32_t y1, uint32_t y2, uint32_t *count, uint32_t *visits, uint32_t *sum,
                           uint32_t *worst);

#ifdef __cplusplus
}
#endif

#endif
