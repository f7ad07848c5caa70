/* A host of the settlement: reads a day file, settles it, and prints the charges, with the surcharge and the credit of each hour that
 * has them, or says in words why it is refused.
 *
 *     host FILE
 *
 * Exit status: 0 settled, 1 refused, 2 the file cannot be read. */
#include "rse8080.h"

#include <errno.h>
#include <stdio.h>
#include <string.h>

/* One byte more than a file may have, so that a longer one is seen to be longer. */
static uint8_t file[RSE8080_MOST_FILE_BYTES + 1];
static uint8_t statement[RSE8080_MOST_STATEMENT_BYTES];

static uint32_t word(size_t i)
{
    const uint8_t *p = file + 4 * i;
    return (uint32_t)p[0] | (uint32_t)p[1] << 8 | (uint32_t)p[2] << 16 | (uint32_t)p[3] << 24;
}

static const char *reason(uint32_t number)
{
    switch (number) {
    case RSE8080_BAD_LENGTH: return "its length is under 16 bytes, over 65,536, or no multiple of 4";
    case RSE8080_BAD_EDITION: return "its edition is not 1";
    case RSE8080_BAD_AREA_COUNT: return "it does not have 1 to 8 areas, or its contents are cut off";
    case RSE8080_BAD_DATE: return "its trading day is no date";
    case RSE8080_BAD_PEAK_HOURS: return "its peak hours are neither none nor hours ending 7 to 22";
    case RSE8080_BAD_CONTENTS: return "a word of its contents is wrong, or an area's size differs from its load points and coordinators";
    case RSE8080_BAD_BODY_HEAD: return "a number of an area's head is wrong";
    case RSE8080_BAD_COORDINATOR: return "a coordinator number is out of range or does not rise";
    case RSE8080_OUT_OF_RANGE: return "a number of an hour is out of range";
    case RSE8080_RUNNING_DEMAND: return "the demands of an hour are more than 100,000,000 together";
    case RSE8080_PRICE_WITHOUT_QUANTITY: return "an hour's price is needed, and no interval with a price has a quantity";
    case RSE8080_AMOUNT_WITHOUT_DEMAND: return "the CISO area has an amount in an hour without demand";
    case RSE8080_STATEMENT_TOO_SHORT: return "there is no room for its statement";
    case RSE8080_TOO_FEW_INTERVALS: return "an hour's price is needed, and more than a quarter of its intervals have no price";
    default: return "of a rule that this program does not know";
    }
}

static int refused(uint64_t answer)
{
    uint32_t number = rse8080_number(answer);
    uint32_t place = rse8080_place(answer);
    printf("Refused: %s.\n", reason(number));
    if (number == RSE8080_STATEMENT_TOO_SHORT) {
        printf("Number %u; %u numbers are needed.\n", (unsigned)number, (unsigned)place);
    } else if (number == RSE8080_BAD_LENGTH) {
        printf("Number %u.\n", (unsigned)number);
    } else {
        printf("Number %u, at word %u of the file (byte %u).\n", (unsigned)number, (unsigned)place, (unsigned)(4 * place));
    }
    return 1;
}

static void print_dollars(const char *before, int64_t cents, const char *behind)
{
    uint64_t size = cents < 0 ? 0 - (uint64_t)cents : (uint64_t)cents;
    printf("%s%s$%llu.%02u%s", before, cents < 0 ? "-" : "", (unsigned long long)(size / 100), (unsigned)(size % 100), behind);
}

/* An hour whose first number is number `at` of the statement: what its on-peak amount comes from, and its charges. */
static void print_hour(uint32_t area, size_t body, unsigned hour, size_t at)
{
    int64_t surcharge = rse8080_cents(statement, at + RSE8080_SURCHARGE);
    int64_t credit = rse8080_cents(statement, at + RSE8080_CREDIT);
    uint32_t i;
    if (surcharge != 0 || credit != 0) {
        printf("area %u, hour ending %u: ", (unsigned)area, hour);
        print_dollars("surcharge ", surcharge, ", ");
        print_dollars("credit ", credit, ", ");
        print_dollars("on-peak amount ", rse8080_cents(statement, at + RSE8080_ON_PEAK), "\n");
    }
    for (i = 0; i < word(body + 6); i++) {
        int64_t cents = rse8080_cents(statement, at + RSE8080_AMOUNTS_SHOWN + i);
        if (cents != 0) {
            printf("area %u, coordinator %u, hour ending %u: ", (unsigned)area, (unsigned)word(body + 7 + i), hour);
            print_dollars("", cents, "\n");
        }
    }
}

/* One area, whose first number is number `at` of the statement. Returns the first number behind it. */
static size_t print_area(uint32_t area, size_t body, size_t at)
{
    unsigned hour;
    for (hour = 1; hour <= 24; hour++) {
        print_hour(area, body, hour, at);
        at += RSE8080_HOUR_NUMBERS(word(body + 6));
    }
    return at;
}

static void print_day(void)
{
    uint32_t areas = word(2);
    size_t at = 0;
    uint32_t k;
    printf("Charge code 8080, trading day %u, areas: %u\n", (unsigned)word(1), (unsigned)areas);
    for (k = 0; k < areas; k++) {
        at = print_area(word(4 + 3 * k), word(4 + 3 * k + 1), at);
    }
}

static int unreadable(const char *name)
{
    fprintf(stderr, "host: cannot read %s: %s\n", name, strerror(errno));
    return 2;
}

int main(int argc, char **argv)
{
    FILE *in;
    size_t length;
    uint64_t answer;
    int bad;
    if (argc != 2) {
        fprintf(stderr, "usage: host FILE\n");
        return 2;
    }
    in = fopen(argv[1], "rb");
    if (in == NULL) {
        return unreadable(argv[1]);
    }
    length = fread(file, 1, sizeof file, in);
    bad = ferror(in) != 0;
    if (bad) {
        return unreadable(argv[1]);
    }
    fclose(in);
    answer = rse8080_settle(file, length, statement, sizeof statement);
    if (answer != 0) {
        return refused(answer);
    }
    print_day();
    return 0;
}
