/* Times the calls of a month book and the careful C program on the same book, alternately, in one process.
 *
 *     month NAME.book
 *
 * Three lines, each with the book's bytes, the answer, both times a call and their ratio: the month settled, which for the C program is a
 * call of careful_settle for each day; the first day withdrawn; and the same day added again, at the front. Each figure is the median of
 * ROUNDS rounds; in a round both programs make the same number of calls, one after the other, and which comes first changes from round to
 * round. The statement is not cleared between calls. Exits 1 where the two programs answer differently or leave
 * different bytes, or a day is not settled. */
#define _POSIX_C_SOURCE 200809L
#include "book.h"
#include "rse8080.h"

#include <stdio.h>
#include <stdlib.h>
#include <string.h>
#include <time.h>

#define ROUNDS 51
#define ROUND_NANOSECONDS 4e6
#define MOST_DAYS 31
#define MOST_NUMBERS (MOST_DAYS * RSE8080_MOST_NUMBERS)
#define MOST_BOOK_BYTES (4u * (2u + 3u * MOST_DAYS) + MOST_DAYS * RSE8080_MOST_FILE_BYTES)

/* The calls as the library of crates/month_timing gives them to C: each answers the number of its refusal. */
uint32_t month_timing_settle(const uint8_t *book, size_t book_len, int64_t *statement, size_t statement_len, uint64_t *table, size_t table_len);
uint32_t month_timing_add_day(uint8_t *book, size_t book_len, const uint8_t *file, size_t file_len);
uint32_t month_timing_withdraw_day(uint8_t *book, size_t book_len, uint32_t date);

/* What one of the two programs is lent. */
typedef struct {
    uint8_t book[MOST_BOOK_BYTES];
    int64_t statement[MOST_NUMBERS];
    uint64_t table[MOST_DAYS];
} lent_t;

enum { SETTLED, WITHDRAWN, ADDED, CALLS };

/* The nanoseconds that a call took. */
typedef struct {
    double of[CALLS];
} times_t;

static lent_t ours, theirs;
static uint8_t first_file[RSE8080_MOST_FILE_BYTES];
static size_t book_len, first_len;
static uint32_t first_date;
static volatile uint64_t sink;

static uint64_t our_call(int call)
{
    if (call == SETTLED) {
        return month_timing_settle(ours.book, book_len, ours.statement, MOST_NUMBERS, ours.table, MOST_DAYS);
    }
    return call == WITHDRAWN ? month_timing_withdraw_day(ours.book, book_len, first_date) : month_timing_add_day(ours.book, book_len, first_file, first_len);
}

static uint64_t their_call(int call)
{
    if (call == SETTLED) {
        return careful_settle_month(theirs.book, book_len, (uint8_t *)theirs.statement, sizeof theirs.statement, theirs.table, MOST_DAYS);
    }
    return call == WITHDRAWN ? careful_withdraw_day(theirs.book, book_len, first_date) : careful_add_day(theirs.book, book_len, first_file, first_len);
}

static double now(void)
{
    struct timespec t;
    clock_gettime(CLOCK_MONOTONIC, &t);
    return 1e9 * (double)t.tv_sec + (double)t.tv_nsec;
}

/* A day is withdrawn and added again by turns, so that each call finds the book that it is for. */
static times_t time_calls(uint64_t (*program)(int), size_t months, size_t changes)
{
    times_t times = {{0, 0, 0}};
    double start = now(), end;
    size_t i;
    for (i = 0; i < months; i++) {
        sink = program(SETTLED);
    }
    times.of[SETTLED] = (now() - start) / (double)months;
    start = now();
    for (i = 0; i < changes; i++) {
        sink = program(WITHDRAWN);
        end = now();
        times.of[WITHDRAWN] += (end - start) / (double)changes;
        sink = program(ADDED);
        start = now();
        times.of[ADDED] += (start - end) / (double)changes;
    }
    return times;
}

static int compare(const void *a, const void *b)
{
    double x = *(const double *)a, y = *(const double *)b;
    return (x > y) - (x < y);
}

static double median(double *values)
{
    qsort(values, ROUNDS, sizeof *values, compare);
    return values[ROUNDS / 2];
}

static uint32_t word(const uint8_t *bytes, size_t i)
{
    return (uint32_t)bytes[4 * i] | (uint32_t)bytes[4 * i + 1] << 8 | (uint32_t)bytes[4 * i + 2] << 16 | (uint32_t)bytes[4 * i + 3] << 24;
}

static void stop(const char *name, const char *what)
{
    fprintf(stderr, "month: %s: %s\n", name, what);
    exit(1);
}

/* Reads the book for both programs, and the file of its first day. */
static void read_book(const char *name)
{
    FILE *in = fopen(name, "rb");
    size_t first;
    if (in == NULL) {
        perror(name);
        exit(1);
    }
    book_len = fread(ours.book, 1, sizeof ours.book, in);
    fclose(in);
    memcpy(theirs.book, ours.book, book_len);
    if (careful_settle_month(theirs.book, book_len, NULL, 0, theirs.table, MOST_DAYS) != 0 || word(ours.book, 1) == 0) {
        stop(name, "no month book with a day");
    }
    first_date = word(ours.book, 2);
    first = 4 * (size_t)word(ours.book, 3);
    first_len = 4 * (size_t)word(ours.book, 4);
    if (first_len > sizeof first_file) {
        stop(name, "the first day is longer than a day file");
    }
    memcpy(first_file, ours.book + first, first_len);
}

int main(int argc, char **argv)
{
    static const char *const names[CALLS] = {"month-settled", "day-withdrawn", "day-added"};
    static double a[CALLS][ROUNDS], b[CALLS][ROUNDS], ratio[CALLS][ROUNDS];
    uint64_t answers[CALLS];
    size_t months, changes, round, day;
    times_t times;
    int call;
    if (argc != 2) {
        fprintf(stderr, "usage: month NAME.book\n");
        return 1;
    }
    read_book(argv[1]);
    memset(theirs.table, 0, sizeof theirs.table);
    for (call = 0; call < CALLS; call++) {
        answers[call] = our_call(call);
        if (answers[call] != their_call(call) || memcmp(&ours, &theirs, sizeof ours) != 0) {
            stop(argv[1], "the two programs answer differently");
        }
    }
    for (day = 0; day < MOST_DAYS; day++) {
        if (ours.table[day] != 0) {
            stop(argv[1], "a day is not settled");
        }
    }
    times = time_calls(their_call, 5, 5);
    months = (size_t)(ROUND_NANOSECONDS / times.of[SETTLED]) + 1;
    changes = (size_t)(ROUND_NANOSECONDS / (times.of[WITHDRAWN] + times.of[ADDED])) + 1;
    for (round = 0; round < ROUNDS; round++) {
        times_t our_times, their_times;
        if (round % 2 == 0) {
            our_times = time_calls(our_call, months, changes);
            their_times = time_calls(their_call, months, changes);
        } else {
            their_times = time_calls(their_call, months, changes);
            our_times = time_calls(our_call, months, changes);
        }
        for (call = 0; call < CALLS; call++) {
            a[call][round] = our_times.of[call];
            b[call][round] = their_times.of[call];
            ratio[call][round] = a[call][round] / b[call][round];
        }
    }
    if (memcmp(&ours, &theirs, sizeof ours) != 0) {
        stop(argv[1], "the two programs leave different bytes");
    }
    for (call = 0; call < CALLS; call++) {
        printf("%-24s %6zu bytes  answer %8llu  month   %9.0f ns  C %9.0f ns  ratio %.2f\n", names[call], book_len, (unsigned long long)answers[call], median(a[call]),
               median(b[call]), median(ratio[call]));
    }
    return 0;
}
