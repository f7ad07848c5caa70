/* Times the payments under 8088 and the careful C program on the same day files, alternately, in one process.
 *
 *     payments NAME.day ..
 *
 * For each file a line: its name, its bytes, the answer, both times a call and their ratio. Each figure is the median of ROUNDS rounds;
 * in a round both programs make the same number of calls, one after the other, and which comes first changes from round to round. The
 * basis is made here, and the payments are not cleared between calls. Exits 1 where the two programs answer differently or leave different
 * numbers, or a day is not paid out. */
#define _POSIX_C_SOURCE 200809L
#include "payout.h"
#include "rse8080.h"

#include <stdio.h>
#include <stdlib.h>
#include <string.h>
#include <time.h>

#define ROUNDS 51
#define ROUND_NANOSECONDS 4e6
#define MOST_AREAS 8
#define MOST_BASIS (24 * MOST_AREAS)
#define MOST_PAYMENTS (48 * MOST_AREAS + 48)

/* The call as the library of crates/payout_timing gives it to C: it answers the number of its refusal. */
uint32_t payout_timing_pay_out(const uint8_t *file, size_t file_len, const uint32_t *basis, size_t basis_len, int64_t *payments, size_t payments_len);

typedef uint64_t pay_out_t(void);

static uint8_t file[RSE8080_MOST_FILE_BYTES + 1];
static size_t length, basis_len;
static uint32_t basis[MOST_BASIS];
static int64_t ours[MOST_PAYMENTS], theirs[MOST_PAYMENTS];
static volatile uint64_t sink;

static uint64_t our_call(void)
{
    return payout_timing_pay_out(file, length, basis, basis_len, ours, MOST_PAYMENTS);
}

static uint64_t their_call(void)
{
    return careful_pay_out(file, length, basis, basis_len, theirs, MOST_PAYMENTS);
}

static double now(void)
{
    struct timespec t;
    clock_gettime(CLOCK_MONOTONIC, &t);
    return 1e9 * (double)t.tv_sec + (double)t.tv_nsec;
}

static double time_calls(pay_out_t *pay_out, size_t calls)
{
    double start = now();
    size_t i;
    for (i = 0; i < calls; i++) {
        sink = pay_out();
    }
    return (now() - start) / (double)calls;
}

static int compare(const void *a, const void *b)
{
    double x = *(const double *)a, y = *(const double *)b;
    return (x > y) - (x < y);
}

static double median(double *values)
{
    qsort(values, ROUNDS, sizeof *values, compare);
    return values[ROUNDS / 2];
}

static void stop(const char *name, const char *what)
{
    fprintf(stderr, "payments: %s: %s\n", name, what);
    exit(1);
}

/* Reads a day, and makes a basis for its areas: numbers that differ in every area and hour, of which eight are within 10,000,000. */
static void read_file(const char *name)
{
    FILE *in = fopen(name, "rb");
    size_t areas, k;
    if (in == NULL) {
        perror(name);
        exit(1);
    }
    length = fread(file, 1, sizeof file, in);
    fclose(in);
    areas = length < 12 ? 0 : file[8];
    if (areas < 1 || areas > MOST_AREAS) {
        stop(name, "no day file");
    }
    basis_len = 24 * areas;
    for (k = 0; k < basis_len; k++) {
        basis[k] = (uint32_t)(1000000 + 10000 * (k / 24) + 1009 * (k % 24));
    }
}

static void run(const char *name)
{
    double a[ROUNDS], b[ROUNDS], ratio[ROUNDS];
    const char *base = strrchr(name, '/');
    uint64_t answer;
    size_t calls, round;
    read_file(name);
    memset(ours, 0, sizeof ours);
    memset(theirs, 0, sizeof theirs);
    answer = our_call();
    if (answer != their_call() / 1000000u || memcmp(ours, theirs, sizeof ours) != 0) {
        stop(name, "the two programs answer differently");
    }
    if (answer != 0) {
        stop(name, "the day is not paid out");
    }
    calls = (size_t)(ROUND_NANOSECONDS / time_calls(their_call, 20)) + 1;
    for (round = 0; round < ROUNDS; round++) {
        if (round % 2 == 0) {
            a[round] = time_calls(our_call, calls);
            b[round] = time_calls(their_call, calls);
        } else {
            b[round] = time_calls(their_call, calls);
            a[round] = time_calls(our_call, calls);
        }
        ratio[round] = a[round] / b[round];
    }
    if (memcmp(ours, theirs, sizeof ours) != 0) {
        stop(name, "the two programs leave different numbers");
    }
    printf("paid-out-%-15s %6zu bytes  answer %8llu  payout  %9.0f ns  C %9.0f ns  ratio %.2f\n", base == NULL ? name : base + 1, length, (unsigned long long)answer, median(a),
           median(b), median(ratio));
}

int main(int argc, char **argv)
{
    int i;
    for (i = 1; i < argc; i++) {
        run(argv[i]);
    }
    return 0;
}
