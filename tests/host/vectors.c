/* Runs the C call on the cases of the vectors program, and compares every byte with the lines that are due.
 *
 *     vectors STREAM LINES
 *
 * Cases of the calls 1, 2 and 6 are taken. Each file lies directly before memory that may not be touched; so does every other
 * statement, and the rest have guard bytes on both sides. All calls are made by two threads at once, on stacks of 64 KiB that
 * were painted before, so that what they used can be read off. Prints one line; exits 1 at the first difference. */
#define _DEFAULT_SOURCE
#include "cases.h"
#include "rse8080.h"

#include <pthread.h>

#define STACK 65536
#define PAINT 0xC3
#define GUARD 64
#define GUARD_BYTE 0x5A
#define THREADS 2

struct test {
    struct given given;
    uint8_t *file;          /* the payload again, before memory that may not be touched */
    uint8_t *guarded;       /* guard bytes, the statement, guard bytes; or null */
    uint8_t *statement;
    size_t statement_len;
    uint64_t answer;
};

static struct test *tests;
static size_t count;

static void fail(const char *what, size_t i)
{
    fprintf(stderr, "tests/host: case %zu: %s\n", i + 1, what);
    exit(1);
}

static void lend(struct test *t, size_t i)
{
    const struct given *g = &t->given;
    size_t k;
    t->file = fenced_copy(g->payload, g->payload_len);
    t->statement_len = g->call == 2 ? 8 * (size_t)g->x + i % 8 : g->call == 6 ? g->x : 0;
    if (i % 2 == 0) {
        t->guarded = malloc(t->statement_len + 2 * GUARD);
        if (t->guarded == NULL) {
            perror("malloc");
            exit(1);
        }
        memset(t->guarded, GUARD_BYTE, t->statement_len + 2 * GUARD);
        t->statement = t->guarded + GUARD;
    } else {
        t->statement = fenced(t->statement_len);
    }
    memset(t->statement, LENT_BYTE, t->statement_len);
    for (k = 0; g->call == 2 && k < g->x; k++) {
        put_number(t->statement + 8 * k, LENT_NUMBER + (int64_t)k);
    }
}

static void *run(void *from)
{
    size_t i;
    for (i = (size_t)(uintptr_t)from; i < count; i += THREADS) {
        struct test *t = &tests[i];
        t->answer = rse8080_settle(t->file, t->given.payload_len, t->statement, t->statement_len);
    }
    return NULL;
}

/* The bytes of its stack that a thread has not touched. */
static size_t untouched(const uint8_t *stack)
{
    size_t n = 0;
    while (n < STACK && stack[n] == PAINT) {
        n++;
    }
    return n;
}

static size_t run_all(void)
{
    static uint8_t stacks[THREADS][STACK] __attribute__((aligned(4096)));
    pthread_t threads[THREADS];
    pthread_attr_t attributes;
    size_t k, most = 0;
    memset(stacks, PAINT, sizeof stacks);
    for (k = 0; k < THREADS; k++) {
        if (pthread_attr_init(&attributes) != 0 || pthread_attr_setstack(&attributes, stacks[k], STACK) != 0
            || pthread_create(&threads[k], &attributes, run, (void *)(uintptr_t)k) != 0) {
            fprintf(stderr, "tests/host: no thread\n");
            exit(1);
        }
    }
    for (k = 0; k < THREADS; k++) {
        size_t left;
        pthread_join(threads[k], NULL);
        left = untouched(stacks[k]);
        if (left == 0) {
            fprintf(stderr, "tests/host: the call used 64 KiB of stack\n");
            exit(1);
        }
        if (STACK - left > most) {
            most = STACK - left;
        }
    }
    return most;
}

/* A file that the check accepts is refused for its room where no byte is lent. */
static void compare_check(const struct test *t, size_t i, char *line)
{
    uint64_t due = next_answer(&line);
    if (due == 0 ? rse8080_number(t->answer) != RSE8080_STATEMENT_TOO_SHORT : t->answer != due) {
        fail("another answer", i);
    }
}

static void compare_settled(const struct test *t, size_t i, char *line)
{
    size_t k;
    if (t->answer != next_answer(&line)) {
        fail("another answer", i);
    }
    for (k = 0; k < t->given.x; k++) {
        if (rse8080_cents(t->statement, k) != strtoll(line, &line, 10)) {
            fail("another number", i);
        }
    }
    for (k = 8 * (size_t)t->given.x; k < t->statement_len; k++) {
        if (t->statement[k] != LENT_BYTE) {
            fail("a byte behind the last whole number was changed", i);
        }
    }
}

static void compare_bytes(const struct test *t, size_t i, char *line)
{
    if (t->answer != strtoull(line, &line, 10)) {
        fail("another answer", i);
    }
    if (digest(t->statement, t->statement_len) != strtoull(line, &line, 10)) {
        fail("other bytes", i);
    }
}

static void compare(const struct test *t, size_t i)
{
    const struct given *g = &t->given;
    size_t k;
    if (memcmp(t->file, g->payload, g->payload_len) != 0) {
        fail("the file was changed", i);
    }
    for (k = 0; t->guarded != NULL && k < GUARD; k++) {
        if (t->guarded[k] != GUARD_BYTE || t->statement[t->statement_len + k] != GUARD_BYTE) {
            fail("a guard byte was changed", i);
        }
    }
    if (g->call == 1) {
        compare_check(t, i, g->line);
    } else if (g->call == 2) {
        compare_settled(t, i, g->line);
    } else {
        compare_bytes(t, i, g->line);
    }
}

/* Lengths of 0 with null pointers, and a statement that needs no alignment. */
static void empty(void)
{
    uint8_t bytes[16] = {0};
    if (rse8080_settle(NULL, 0, NULL, 0) != 1000000 || rse8080_settle(bytes, 16, NULL, 0) != 2000000
        || rse8080_settle(NULL, 0, bytes + 1, 9) != 1000000) {
        fprintf(stderr, "tests/host: a length of 0 was answered otherwise\n");
        exit(1);
    }
}

int main(int argc, char **argv)
{
    struct stream stream = open_stream(argc, argv);
    struct given given;
    size_t i, used, settled = 0;
    tests = calloc(stream.length / 16 + 1, sizeof *tests);
    if (tests == NULL) {
        perror("calloc");
        return 1;
    }
    while (next_case(&stream, &given)) {
        if (given.call == 1 || given.call == 2 || given.call == 6) {
            tests[count].given = given;
            lend(&tests[count], count);
            count++;
        }
    }
    empty();
    used = run_all();
    for (i = 0; i < count; i++) {
        compare(&tests[i], i);
        settled += tests[i].answer == 0;
    }
    printf("C call: %zu cases agree, %zu of them settled; %zu bytes of stack, the thread's own included\n", count, settled, used);
    return 0;
}
