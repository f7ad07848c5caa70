/* Times rse8080_settle and the careful C program on the same day files, alternately, in one process.
 *
 *     bench NAME.day ..
 *
 * For each file a line: its name, its bytes, the answer, both times a call and their ratio. Each figure is the median of ROUNDS rounds;
 * in a round both programs make the same number of calls, one after the other, and which comes first changes from round to round. The
 * statement is not cleared between calls. Exits 1 where the two programs answer differently. */
#define _POSIX_C_SOURCE 200809L
#include "careful.h"
#include "rse8080.h"

#include <stdio.h>
#include <stdlib.h>
#include <string.h>
#include <time.h>

#define ROUNDS 51
#define ROUND_NANOSECONDS 4e6

typedef uint64_t settle_t(const uint8_t *, size_t, uint8_t *, size_t);

static uint8_t file[RSE8080_MOST_FILE_BYTES + 1];
static size_t length;
static uint8_t ours[RSE8080_MOST_STATEMENT_BYTES], theirs[RSE8080_MOST_STATEMENT_BYTES];
static volatile uint64_t sink;

static double now(void)
{
    struct timespec t;
    clock_gettime(CLOCK_MONOTONIC, &t);
    return 1e9 * (double)t.tv_sec + (double)t.tv_nsec;
}

static double time_calls(settle_t *settle, uint8_t *statement, size_t calls)
{
    double start = now();
    size_t i;
    for (i = 0; i < calls; i++) {
        sink = settle(file, length, statement, RSE8080_MOST_STATEMENT_BYTES);
    }
    return (now() - start) / (double)calls;
}

static int compare(const void *a, const void *b)
{
    double x = *(const double *)a, y = *(const double *)b;
    return (x > y) - (x < y);
}

static double median(double *values)
{
    qsort(values, ROUNDS, sizeof *values, compare);
    return values[ROUNDS / 2];
}

static void read_file(const char *name)
{
    FILE *in = fopen(name, "rb");
    if (in == NULL) {
        perror(name);
        exit(1);
    }
    length = fread(file, 1, sizeof file, in);
    fclose(in);
}

static void run(const char *name)
{
    double a[ROUNDS], b[ROUNDS], ratio[ROUNDS];
    const char *base = strrchr(name, '/');
    uint64_t answer;
    size_t calls, round;
    read_file(name);
    memset(ours, 0, sizeof ours);
    memset(theirs, 0, sizeof theirs);
    answer = rse8080_settle(file, length, ours, sizeof ours);
    if (answer != careful_settle(file, length, theirs, sizeof theirs) || memcmp(ours, theirs, sizeof ours) != 0) {
        fprintf(stderr, "bench: %s: the two programs answer differently\n", name);
        exit(1);
    }
    calls = (size_t)(ROUND_NANOSECONDS / time_calls(careful_settle, theirs, 20)) + 1;
    for (round = 0; round < ROUNDS; round++) {
        if (round % 2 == 0) {
            a[round] = time_calls(rse8080_settle, ours, calls);
            b[round] = time_calls(careful_settle, theirs, calls);
        } else {
            b[round] = time_calls(careful_settle, theirs, calls);
            a[round] = time_calls(rse8080_settle, ours, calls);
        }
        ratio[round] = a[round] / b[round];
    }
    printf("%-24s %6zu bytes  answer %8llu  rse8080 %9.0f ns  C %9.0f ns  ratio %.2f\n", base == NULL ? name : base + 1, length, (unsigned long long)answer, median(a),
           median(b), median(ratio));
}

int main(int argc, char **argv)
{
    int i;
    for (i = 1; i < argc; i++) {
        run(argv[i]);
    }
    return 0;
}
