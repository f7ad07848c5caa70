/* Settles a year of days in a loop, on one thread and then on two, and prints days a second.
 *
 *     year NAME.day
 *
 * The year is the given day under each date of 2026, every day in memory of its own. Two threads share the year between them, one the
 * days of even number and the other those of odd number, each with a statement of its own: the call has no state that they would share.
 * Each figure is the median of ROUNDS rounds. Exits 1 where a day is not settled. */
#define _POSIX_C_SOURCE 200809L
#include "rse8080.h"

#include <pthread.h>
#include <stdio.h>
#include <stdlib.h>
#include <string.h>
#include <time.h>

#define DAYS 365
#define YEARS 20
#define ROUNDS 5
#define THREADS 2

typedef struct {
    size_t first, step;
    uint64_t answers;
    uint8_t statement[RSE8080_MOST_STATEMENT_BYTES];
} worker_t;

static uint8_t *year;
static size_t length;

static double now(void)
{
    struct timespec t;
    clock_gettime(CLOCK_MONOTONIC, &t);
    return (double)t.tv_sec + 1e-9 * (double)t.tv_nsec;
}

static void *settle_days(void *argument)
{
    worker_t *worker = argument;
    size_t round, day;
    for (round = 0; round < YEARS; round++) {
        for (day = worker->first; day < DAYS; day += worker->step) {
            worker->answers |= rse8080_settle(year + day * length, length, worker->statement, sizeof worker->statement);
        }
    }
    return NULL;
}

static int compare(const void *a, const void *b)
{
    double x = *(const double *)a, y = *(const double *)b;
    return (x > y) - (x < y);
}

/* Days a second on so many threads. */
static double measured(size_t threads)
{
    static worker_t workers[THREADS];
    pthread_t ids[THREADS];
    double rates[ROUNDS];
    size_t round, k;
    for (round = 0; round < ROUNDS; round++) {
        double start = now();
        for (k = 0; k < threads; k++) {
            workers[k].first = k;
            workers[k].step = threads;
            workers[k].answers = 0;
            if (pthread_create(&ids[k], NULL, settle_days, &workers[k]) != 0) {
                fprintf(stderr, "year: a thread cannot be started\n");
                exit(1);
            }
        }
        for (k = 0; k < threads; k++) {
            pthread_join(ids[k], NULL);
            if (workers[k].answers != 0) {
                fprintf(stderr, "year: a day is not settled\n");
                exit(1);
            }
        }
        rates[round] = DAYS * YEARS / (now() - start);
    }
    qsort(rates, ROUNDS, sizeof *rates, compare);
    return rates[ROUNDS / 2];
}

static void put_word(uint8_t *bytes, uint32_t word)
{
    size_t i;
    for (i = 0; i < 4; i++) {
        bytes[i] = (uint8_t)(word >> (8 * i));
    }
}

static void make_year(const char *name)
{
    static const uint32_t lengths[12] = {31, 28, 31, 30, 31, 30, 31, 31, 30, 31, 30, 31};
    static uint8_t file[RSE8080_MOST_FILE_BYTES];
    FILE *in = fopen(name, "rb");
    uint32_t month, day;
    uint8_t *to;
    if (in == NULL) {
        perror(name);
        exit(1);
    }
    length = fread(file, 1, sizeof file, in);
    fclose(in);
    year = malloc(DAYS * length);
    if (year == NULL || length < 8) {
        fprintf(stderr, "year: %s cannot be made a year of\n", name);
        exit(1);
    }
    to = year;
    for (month = 1; month <= 12; month++) {
        for (day = 1; day <= lengths[month - 1]; day++, to += length) {
            memcpy(to, file, length);
            put_word(to + 4, 20260000 + 100 * month + day);
        }
    }
}

int main(int argc, char **argv)
{
    const char *base;
    double one, two;
    if (argc != 2) {
        fprintf(stderr, "usage: year NAME.day\n");
        return 1;
    }
    make_year(argv[1]);
    base = strrchr(argv[1], '/');
    one = measured(1);
    two = measured(2);
    printf("%-24s a year in a loop: %.0f days a second on one thread, %.0f on two, ratio %.2f\n", base == NULL ? argv[1] : base + 1, one, two, two / one);
    free(year);
    return 0;
}
