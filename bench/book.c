/* The three calls of a month book (document 02, section 5), as a careful C programmer would write them: every check in its order, the
 * month by careful_settle on each day, and a day added or withdrawn by memmove. It is what the benchmark compares with, and is not proved. */
#include "book.h"

#include "careful.h"

#include <string.h>

#define MOST_DAYS 31u
#define LEAST_DAY_WORDS 4u
#define MOST_BOOK_WORDS ((uint64_t)1 << 32) /* the first word of each file is a word itself */
#define REFUSED(number, place) ((uint64_t)(number) * 1000000u + (uint64_t)(place))

static inline uint32_t word(const uint8_t *bytes, size_t i)
{
    uint32_t w;
    memcpy(&w, bytes + 4 * i, 4);
    return w;
}

static inline void put_word(uint8_t *bytes, size_t i, size_t number)
{
    uint32_t w = (uint32_t)number;
    memcpy(bytes + 4 * i, &w, 4);
}

static void move_words(uint8_t *book, size_t to, size_t from, size_t count)
{
    memmove(book + 4 * to, book + 4 * from, 4 * count);
}

/* Where the three words of a day stand in the contents, and how many words the contents of n days has. */
static inline size_t entry(size_t day)
{
    return 2 + 3 * day;
}

static inline uint32_t date_of(const uint8_t *book, size_t day)
{
    return word(book, entry(day));
}

static inline size_t first_of(const uint8_t *book, size_t day)
{
    return word(book, entry(day) + 1);
}

static inline size_t length_of(const uint8_t *book, size_t day)
{
    return word(book, entry(day) + 2);
}

/* Where the files of the first so many of the n days end. */
static size_t end_of(const uint8_t *book, size_t n, size_t days)
{
    return days == 0 ? entry(n) : first_of(book, days - 1) + length_of(book, days - 1);
}

/* 20 with the first word that breaks the rule of a book, or 0. */
static uint64_t check_book(const uint8_t *book, size_t book_len)
{
    size_t size = book_len / 4, n, k, due;
    uint32_t before = 0;
    if (size < 2 || word(book, 0) != 1) {
        return REFUSED(20, 0);
    }
    n = word(book, 1);
    if (n > MOST_DAYS || entry(n) > size) {
        return REFUSED(20, 1);
    }
    due = entry(n);
    for (k = 0; k < n; k++) {
        if (date_of(book, k) <= before || !careful_real_date(date_of(book, k))) {
            return REFUSED(20, entry(k));
        }
        before = date_of(book, k);
        if (first_of(book, k) != due) {
            return REFUSED(20, entry(k) + 1);
        }
        if (length_of(book, k) < LEAST_DAY_WORDS || length_of(book, k) > size - due) {
            return REFUSED(20, entry(k) + 2);
        }
        due += length_of(book, k);
    }
    for (k = 0; k < n; k++) {
        if (word(book, first_of(book, k) + 1) != date_of(book, k)) {
            return REFUSED(20, first_of(book, k) + 1);
        }
    }
    return 0;
}

/* The check of a day file alone: one that it accepts needs numbers, and is refused with 13 where none are lent. */
static uint64_t check_file(const uint8_t *file, size_t file_len)
{
    uint64_t answer = careful_settle(file, file_len, NULL, 0);
    return answer / 1000000u == 13 ? 0 : answer;
}

/* How many of the n days are before a date. */
static size_t days_before(const uint8_t *book, size_t n, uint32_t date)
{
    size_t k = 0;
    while (k < n && date_of(book, k) < date) {
        k++;
    }
    return k;
}

uint64_t careful_settle_month(const uint8_t *book, size_t book_len, uint8_t *statement, size_t statement_len, uint64_t *table, size_t table_len)
{
    uint64_t answer = check_book(book, book_len);
    size_t n, k, start = 0, end = statement_len / 8; /* the numbers that are left for the days to come */
    if (answer != 0) {
        return answer;
    }
    n = word(book, 1);
    if (table_len < n) {
        return REFUSED(21, 0);
    }
    for (k = 0; k < n; k++) {
        const uint8_t *file = book + 4 * first_of(book, k);
        uint64_t number;
        table[k] = careful_settle(file, 4 * length_of(book, k), statement + 8 * start, 8 * (end - start));
        number = table[k] / 1000000u;
        if (number == 13) {
            end = start; /* no later day gets numbers either */
        } else if (number == 0 || number > 10) {
            start += careful_numbers_needed(file);
        }
    }
    return 0;
}

uint64_t careful_add_day(uint8_t *book, size_t book_len, const uint8_t *file, size_t file_len)
{
    uint64_t answer = check_book(book, book_len);
    size_t n, day, first, end, length = file_len / 4, more = length + 3, k;
    if (answer != 0) {
        return answer;
    }
    answer = check_file(file, file_len);
    if (answer != 0) {
        return answer;
    }
    n = word(book, 1);
    day = days_before(book, n, word(file, 1));
    if (day < n && date_of(book, day) == word(file, 1)) {
        return REFUSED(22, 0);
    }
    end = end_of(book, n, n);
    if (n == MOST_DAYS || book_len / 4 - end < more || (uint64_t)end + more > MOST_BOOK_WORDS) {
        return REFUSED(21, 0);
    }
    first = end_of(book, n, day);
    move_words(book, first + more, first, end - first);
    move_words(book, entry(n + 1), entry(n), first - entry(n));
    move_words(book, entry(day + 1), entry(day), 3 * (n - day));
    put_word(book, 1, n + 1);
    put_word(book, entry(day), word(file, 1));
    put_word(book, entry(day) + 1, first);
    put_word(book, entry(day) + 2, length);
    memcpy(book + 4 * (first + 3), file, file_len);
    /* Every file stands behind three more words of contents, the later ones behind the new file as well. */
    for (k = 0; k <= n; k++) {
        put_word(book, entry(k) + 1, first_of(book, k) + (k <= day ? 3 : more));
    }
    return 0;
}

uint64_t careful_withdraw_day(uint8_t *book, size_t book_len, uint32_t date)
{
    uint64_t answer = check_book(book, book_len);
    size_t n, day, first, end, less, k;
    if (answer != 0) {
        return answer;
    }
    n = word(book, 1);
    day = days_before(book, n, date);
    if (day == n || date_of(book, day) != date) {
        return REFUSED(22, 0);
    }
    first = first_of(book, day);
    less = length_of(book, day) + 3;
    end = end_of(book, n, n);
    move_words(book, entry(day), entry(day + 1), 3 * (n - 1 - day));
    move_words(book, entry(n - 1), entry(n), first - entry(n));
    move_words(book, first - 3, first - 3 + less, end - (first - 3 + less));
    memset(book + 4 * (end - less), 0, 4 * less);
    put_word(book, 1, n - 1);
    for (k = 0; k < n - 1; k++) {
        put_word(book, entry(k) + 1, first_of(book, k) - (k < day ? 3 : less));
    }
    return 0;
}
