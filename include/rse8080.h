/* rse8080.h - settlement of charge code 8080 (resource sufficiency surcharges), one call.
 *
 * Link with librse8080.a, which `make -C examples/host archive` writes to target/staticlib/ (x86-64, System V calling convention).
 * It needs nothing but memcpy and memset.
 */
#ifndef RSE8080_H
#define RSE8080_H

#include <stddef.h>
#include <stdint.h>

#ifdef __cplusplus
extern "C" {
#endif

/* The numbers of an hour of a statement: which stands where, how many they are before the charges, and with K charges. */
#define RSE8080_ON_PEAK 0u       /* the on-peak amount */
#define RSE8080_OFF_PEAK 1u      /* the off-peak amount */
#define RSE8080_DOWNWARD 2u      /* the downward amount */
#define RSE8080_SURCHARGE 3u     /* S, the surcharge before the credit */
#define RSE8080_CREDIT 4u        /* the credit, which may be above S or below 0 */
#define RSE8080_AMOUNTS_SHOWN 5u /* the first charge stands here */
#define RSE8080_HOUR_NUMBERS(K) (RSE8080_AMOUNTS_SHOWN + (K))

/* Sizes that are enough for every day file. The longest statement has an area with 64 coordinators and seven with one. */
#define RSE8080_MOST_FILE_BYTES 65536u /* a longer file is refused with 1 */
#define RSE8080_MOST_NUMBERS (24u * RSE8080_HOUR_NUMBERS(64u) + 7u * 24u * RSE8080_HOUR_NUMBERS(1u)) /* 2,664 */
#define RSE8080_MOST_STATEMENT_BYTES (8u * RSE8080_MOST_NUMBERS)                                     /* 21,312 */

/* What the number of an answer means, and its place. "Word" is the number of a 32-bit word of the file, counted from 0.
 * docs/REFUSALS.md says of each what to look at. */
#define RSE8080_ACCEPTED 0u                /* settled; place 0 */
#define RSE8080_BAD_LENGTH 1u              /* file under 16 bytes, over 65,536, or no multiple of 4; place 0 */
#define RSE8080_BAD_EDITION 2u             /* the edition is not 1; place: word 0 */
#define RSE8080_BAD_AREA_COUNT 3u          /* not 1 to 8 areas, or the contents are cut off; place: word 2 */
#define RSE8080_BAD_DATE 4u                /* no such trading day; place: word 1 */
#define RSE8080_BAD_PEAK_HOURS 5u          /* the peak hours are neither 0 nor 4,194,240; place: word 3 */
#define RSE8080_BAD_CONTENTS 6u            /* a contents word, or a body whose size differs from its L and K; place: word */
#define RSE8080_BAD_BODY_HEAD 7u           /* a number of an area's head; place: word */
#define RSE8080_BAD_COORDINATOR 8u         /* a coordinator number; place: word */
#define RSE8080_OUT_OF_RANGE 9u            /* an hourly number out of range; place: word */
#define RSE8080_RUNNING_DEMAND 10u         /* the hour's demands pass 100,000,000; place: word */
#define RSE8080_PRICE_WITHOUT_QUANTITY 11u /* a needed price has no quantity under it; place: the hour's first interval word */
#define RSE8080_AMOUNT_WITHOUT_DEMAND 12u  /* CISO, an amount and no demand; place: the hour's first demand word */
#define RSE8080_STATEMENT_TOO_SHORT 13u    /* place: the numbers needed, so 8 times as many bytes */
#define RSE8080_TOO_FEW_INTERVALS 16u      /* a needed price has fewer than 9L of its 12L interval prices; place as for 11 */

/* Checks the whole file, and settles it into the statement.
 *
 * file, file_len            The day file (docs/FORMAT.md).
 * statement, statement_len  Where the statement is written: 8 bytes a number, little-endian, two's complement, in cents.
 *                           Area after area in file order, each 24 hours; an hour is its on-peak amount, its off-peak
 *                           amount, its downward amount, S, the credit, and then a charge for each of the area's K
 *                           coordinators. The charges add up to the three amounts; S and the credit are shown, and nobody
 *                           is charged them. The numbers needed are the sum of 24 * (5 + K) over the areas. Room for
 *                           RSE8080_MOST_STATEMENT_BYTES is enough for every file.
 *
 * Returns number * 1,000,000 + place; the place is always below 1,000,000. 0: settled. Anything else: refused, and no byte
 * of the statement was changed. rse8080_number and rse8080_place take the answer apart.
 *
 * Every file and every length may be handed over: the call checks all of it, always returns, and reads and writes nothing
 * outside the two buffers. Bytes behind the numbers needed, and bytes behind the last whole number, stay as they were.
 *
 * The two buffers must not overlap, and nothing else may write to them during the call. Neither needs an alignment. A length
 * of 0 is fine, and the pointer may then be null. A length must not be more than PTRDIFF_MAX, as of any object.
 *
 * The call uses no heap, no file, no global, and less than 8 KiB of stack (tests/host/run reads it off the machine code),
 * so it may be called from several threads at once on separate statements. */
uint64_t rse8080_settle(const uint8_t *file, size_t file_len, uint8_t *statement, size_t statement_len);

/* The number of an answer: 0, or one of the refusals above. */
static inline uint32_t rse8080_number(uint64_t answer)
{
    return (uint32_t)(answer / 1000000u);
}

/* The place of an answer. */
static inline uint32_t rse8080_place(uint64_t answer)
{
    return (uint32_t)(answer % 1000000u);
}

/* Number i of a statement, in cents. */
static inline int64_t rse8080_cents(const uint8_t *statement, size_t i)
{
    uint64_t bits = 0;
    int k;
    for (k = 7; k >= 0; k--) {
        bits = bits << 8 | statement[8 * i + (size_t)k];
    }
    return bits <= (uint64_t)INT64_MAX ? (int64_t)bits : -(int64_t)(UINT64_MAX - bits) - 1;
}

#ifdef __cplusplus
}
#endif

#endif
