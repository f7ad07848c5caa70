/* The three calls of a month book that the benchmark compares with. Each answers 0 or number * 1,000,000 + place; a refusal changes
 * nothing. A book stands in lent room that may go on behind it. */
#ifndef BOOK_H
#define BOOK_H

#include <stddef.h>
#include <stdint.h>

/* Settles the days of a book into one statement, as bytes, with the answer of each day in the table. */
uint64_t careful_settle_month(const uint8_t *book, size_t book_len, uint8_t *statement, size_t statement_len, uint64_t *table, size_t table_len);

/* Adds a day file to a book, at its place by date. */
uint64_t careful_add_day(uint8_t *book, size_t book_len, const uint8_t *file, size_t file_len);

/* Withdraws the day of a date from a book; the words that this frees become 0. */
uint64_t careful_withdraw_day(uint8_t *book, size_t book_len, uint32_t date);

#endif
