/* Runs the C program of bench/ for payments under 8088 on the cases of the vectors program, and compares every number with the lines that
 * are due.
 *
 *     payments STREAM LINES
 *
 * Cases of the call 12 are taken. Each basis, day file and room for payments lies directly before memory that may not be touched. Prints
 * one line; exits 1 at the first difference. */
#define _DEFAULT_SOURCE
#include "cases.h"
#include "payout.h"

static size_t line_number;

static void fail(const char *what)
{
    fprintf(stderr, "tests/host: line %zu: %s\n", line_number, what);
    exit(1);
}

/* Answers whether the day was paid out. */
static int run_pay_out(const struct given *g)
{
    size_t basis_len = word(g->payload), basis_bytes = 4 * basis_len, file_len = g->payload_len - 4 - basis_bytes, k;
    const uint8_t *given_basis = g->payload + 4, *given_file = given_basis + basis_bytes;
    uint32_t *basis = (uint32_t *)(void *)fenced_copy(given_basis, basis_bytes);
    uint8_t *file = fenced_copy(given_file, file_len);
    int64_t *payments = (int64_t *)(void *)fenced(sizeof *payments * g->x);
    char *line = g->line;
    uint64_t answer;
    for (k = 0; k < g->x; k++) {
        payments[k] = LENT_NUMBER + (int64_t)k;
    }
    answer = careful_pay_out(file, file_len, basis, basis_len, payments, g->x);
    if (answer != next_answer(&line)) {
        fail("another answer");
    }
    for (k = 0; k < g->x; k++) {
        if (payments[k] != strtoll(line, &line, 10)) {
            fail("another number");
        }
    }
    if (memcmp(basis, given_basis, basis_bytes) != 0) {
        fail("the basis was changed");
    }
    if (memcmp(file, given_file, file_len) != 0) {
        fail("the file was changed");
    }
    return answer == 0;
}

int main(int argc, char **argv)
{
    struct stream stream = open_stream(argc, argv);
    struct given given;
    size_t cases = 0, paid_out = 0;
    for (line_number = 1; next_case(&stream, &given); line_number++) {
        if (given.call == 12) {
            paid_out += (size_t)run_pay_out(&given);
            cases++;
        }
    }
    printf("%zu cases agree, %zu of them paid out\n", cases, paid_out);
    return 0;
}
