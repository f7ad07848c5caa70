/* Paying out under 8088 (document 02, section 7), as a careful C programmer would write it: one pass over the areas for what they pay and
 * where they pass, every check in its order, then shares only where something was collected. It is what the benchmark compares with, and is
 * not proved. */
#include "payout.h"

#include "careful.h"

#include <string.h>

#define HOURS 24u
#define PAIRED_HOURS (2u * HOURS) /* upward and downward of each hour: the numbers of an area, and of the rests */
#define MOST_AREAS 8u
#define MOST_BASIS 10000000u
#define REFUSED(number, place) ((uint64_t)(number) * 1000000u + (uint64_t)(place))

/* 24 numbers an area, 0 to 10,000,000, in each hour together at most that. No sum of eight numbers in their range passes 32 bits. */
static int basis_is_right(const uint32_t *basis, size_t basis_len, size_t areas)
{
    uint32_t sums[HOURS] = {0}, broken = 0;
    size_t k, h;
    if (basis_len != HOURS * areas) {
        return 0;
    }
    for (k = 0; k < areas; k++, basis += HOURS) {
        for (h = 0; h < HOURS; h++) {
            broken |= basis[h] > MOST_BASIS;
            sums[h] += basis[h];
        }
    }
    for (h = 0; h < HOURS; h++) {
        broken |= sums[h] > MOST_BASIS;
    }
    return !broken;
}

/* Shares an amount of an hour and direction over the passing areas, by running totals of their basis, or leaves it as the rest where they
 * have none. The basis and the payments start at the first area's; the rest stands where the payment of one more area would. */
static void share_out(int64_t amount, uint32_t passing, const uint32_t *basis, size_t areas, int64_t *payments)
{
    uint32_t weights[MOST_AREAS], total = 0, running = 0;
    int64_t before = 0;
    size_t k;
    for (k = 0; k < areas; k++) {
        weights[k] = passing >> k & 1 ? basis[HOURS * k] : 0;
        total += weights[k];
    }
    if (total == 0) {
        payments[PAIRED_HOURS * areas] = amount;
        return;
    }
    for (k = 0; running < total; k++) {
        if (weights[k] != 0) {
            int64_t up_to;
            running += weights[k];
            up_to = running == total ? amount : careful_rounded(amount * running, total);
            payments[PAIRED_HOURS * k] = up_to - before;
            before = up_to;
        }
    }
}

uint64_t careful_pay_out(const uint8_t *file, size_t file_len, const uint32_t *basis, size_t basis_len, int64_t *payments, size_t payments_len)
{
    careful_collected_t collected;
    uint64_t answer = careful_collect(file, file_len, &collected);
    size_t needed, h, direction;
    if (answer != 0) {
        return answer;
    }
    if (!basis_is_right(basis, basis_len, collected.areas)) {
        return REFUSED(23, 0);
    }
    needed = PAIRED_HOURS * (collected.areas + 1);
    if (payments_len < needed) {
        return REFUSED(24, needed);
    }
    memset(payments, 0, needed * sizeof *payments);
    for (h = 0; h < HOURS; h++) {
        for (direction = 0; direction < 2; direction++) {
            if (collected.amount[h][direction] != 0) {
                share_out(collected.amount[h][direction], collected.passing[h][direction], basis + h, collected.areas, payments + 2 * h + direction);
            }
        }
    }
    return 0;
}
