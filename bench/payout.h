/* The payments under 8088 that the benchmark compares with. */
#ifndef PAYOUT_H
#define PAYOUT_H

#include <stddef.h>
#include <stdint.h>

/* Pays what a day collects out to the areas that passed, by a basis of 24 numbers an area: 48 payments an area and 48 rests. The lengths of
 * the basis and of the payments are in numbers. Answers 0 or number * 1,000,000 + place; a refusal changes nothing. */
uint64_t careful_pay_out(const uint8_t *file, size_t file_len, const uint32_t *basis, size_t basis_len, int64_t *payments, size_t payments_len);

#endif
