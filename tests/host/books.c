/* Runs the C program of bench/ for month books on the cases of the vectors program, and compares every byte with the lines that are due.
 *
 *     books STREAM LINES
 *
 * Cases of the calls 9, 10 and 11 are taken. Each book, day file, table and statement lies directly before memory that may not be
 * touched. Prints one line; exits 1 at the first difference. */
#define _DEFAULT_SOURCE
#include "book.h"
#include "cases.h"
#include "rse8080.h"

static size_t line_number;

static void fail(const char *what)
{
    fprintf(stderr, "tests/host: line %zu: %s\n", line_number, what);
    exit(1);
}

static void compare_answer(uint64_t answer, char **line)
{
    if (answer != next_answer(line)) {
        fail("another answer");
    }
}

static void compare_room(const uint8_t *room, size_t room_len, char *line)
{
    if (digest(room, room_len) != strtoull(line, &line, 10)) {
        fail("other bytes");
    }
}

/* The statement has bytes behind its last whole number in every case but one of eight. */
static void run_month(const struct given *g)
{
    size_t places = word(g->payload), book_len = g->payload_len - 4, statement_len = 8 * (size_t)g->x + line_number % 8, k;
    uint8_t *book = fenced_copy(g->payload + 4, book_len), *statement = fenced(statement_len);
    uint64_t *table = (uint64_t *)(void *)fenced(sizeof *table * places);
    char *line = g->line;
    memset(statement, LENT_BYTE, statement_len);
    for (k = 0; k < g->x; k++) {
        put_number(statement + 8 * k, LENT_NUMBER + (int64_t)k);
    }
    for (k = 0; k < places; k++) {
        table[k] = LENT_PLACE + k;
    }
    compare_answer(careful_settle_month(book, book_len, statement, statement_len, table, places), &line);
    for (k = 0; k < places; k++) {
        if (table[k] != strtoull(line, &line, 10)) {
            fail("another place of the table");
        }
    }
    for (k = 0; k < g->x; k++) {
        if (rse8080_cents(statement, k) != strtoll(line, &line, 10)) {
            fail("another number");
        }
    }
    for (k = 8 * (size_t)g->x; k < statement_len; k++) {
        if (statement[k] != LENT_BYTE) {
            fail("a byte behind the last whole number was changed");
        }
    }
    if (memcmp(book, g->payload + 4, book_len) != 0) {
        fail("the book was changed");
    }
}

static void run_add_day(const struct given *g)
{
    size_t room_len = word(g->payload), file_len = g->payload_len - 4 - room_len;
    const uint8_t *given_file = g->payload + 4 + room_len;
    uint8_t *room = fenced_copy(g->payload + 4, room_len), *file = fenced_copy(given_file, file_len);
    char *line = g->line;
    compare_answer(careful_add_day(room, room_len, file, file_len), &line);
    compare_room(room, room_len, line);
    if (memcmp(file, given_file, file_len) != 0) {
        fail("the file was changed");
    }
}

static void run_withdraw_day(const struct given *g)
{
    uint8_t *room = fenced_copy(g->payload, g->payload_len);
    char *line = g->line;
    compare_answer(careful_withdraw_day(room, g->payload_len, g->x), &line);
    compare_room(room, g->payload_len, line);
}

int main(int argc, char **argv)
{
    struct stream stream = open_stream(argc, argv);
    struct given given;
    size_t months = 0, added = 0, withdrawn = 0;
    for (line_number = 1; next_case(&stream, &given); line_number++) {
        if (given.call == 9) {
            run_month(&given);
            months++;
        } else if (given.call == 10) {
            run_add_day(&given);
            added++;
        } else if (given.call == 11) {
            run_withdraw_day(&given);
            withdrawn++;
        }
    }
    printf("%zu months, %zu additions and %zu withdrawals agree\n", months, added, withdrawn);
    return 0;
}
