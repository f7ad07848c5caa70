/* The program that the benchmark compares with; the same promise as rse8080_settle, and parts of it that book.c and payout.c take. */
#ifndef CAREFUL_H
#define CAREFUL_H

#include <stddef.h>
#include <stdint.h>

/* What the areas of a file pay in each hour, upward (on-peak plus off-peak) and downward, and which of them pass: bit k is area k, counted
 * in file order. */
typedef struct {
    size_t areas;
    int64_t amount[24][2];
    uint32_t passing[24][2];
} careful_collected_t;

uint64_t careful_settle(const uint8_t *file, size_t file_len, uint8_t *statement, size_t statement_len);

/* What settlement collects, or what it refuses; never 13. */
uint64_t careful_collect(const uint8_t *file, size_t file_len, careful_collected_t *collected);

/* The numbers that a file needs which the check accepts. */
size_t careful_numbers_needed(const uint8_t *file);

/* Whether YYYYMMDD is a real date, 2000 to 2099. */
int careful_real_date(uint32_t date);

/* R(a / b), halves away from zero. */
static inline int64_t careful_rounded(int64_t a, int64_t b)
{
    int64_t q = a / b, r = a % b;
    if (2 * (r < 0 ? -r : r) >= b) {
        q += a < 0 ? -1 : 1;
    }
    return q;
}

#endif
