/* The cases of the vectors program with the lines that are due, for the programs that run C code on them, and what they lend. */
#ifndef CASES_H
#define CASES_H

#include <stdint.h>
#include <stdio.h>
#include <stdlib.h>
#include <string.h>
#include <sys/mman.h>

#define LENT_BYTE 165
#define LENT_NUMBER INT64_C(-9000000000000000000)
#define LENT_PLACE UINT64_C(9000000000000000000)

struct stream {
    uint8_t *bytes;
    size_t length, at;
    char *line;
};

struct given {
    uint32_t call, x;
    const uint8_t *payload;
    size_t payload_len;
    char *line;
};

static inline uint32_t word(const uint8_t *p)
{
    return (uint32_t)p[0] | (uint32_t)p[1] << 8 | (uint32_t)p[2] << 16 | (uint32_t)p[3] << 24;
}

static inline uint8_t *read_all(const char *name, size_t *length)
{
    FILE *in = fopen(name, "rb");
    uint8_t *all = NULL;
    long size;
    if (in == NULL || fseek(in, 0, SEEK_END) != 0 || (size = ftell(in)) < 0 || fseek(in, 0, SEEK_SET) != 0) {
        perror(name);
        exit(1);
    }
    *length = (size_t)size;
    all = malloc(*length + 1);
    if (all == NULL || fread(all, 1, *length, in) != *length) {
        perror(name);
        exit(1);
    }
    all[*length] = 0;
    fclose(in);
    return all;
}

/* The stream and the lines that a program is called with. */
static inline struct stream open_stream(int argc, char **argv)
{
    struct stream s;
    size_t lines_length;
    if (argc != 3) {
        fprintf(stderr, "usage: %s STREAM LINES\n", argv[0]);
        exit(2);
    }
    s.bytes = read_all(argv[1], &s.length);
    s.at = 0;
    s.line = (char *)read_all(argv[2], &lines_length);
    return s;
}

/* The next case with its line, or 0 where no whole case follows. */
static inline int next_case(struct stream *s, struct given *g)
{
    const uint8_t *head = s->bytes + s->at;
    char *end;
    if (s->length - s->at < 16) {
        return 0;
    }
    end = strchr(s->line, '\n');
    if (end == NULL || word(head + 12) > s->length - s->at - 16) {
        fprintf(stderr, "tests/host: the stream and its lines do not match\n");
        exit(1);
    }
    g->call = word(head);
    g->x = word(head + 4);
    g->payload = head + 16;
    g->payload_len = word(head + 12);
    g->line = s->line;
    s->at += 16 + g->payload_len;
    s->line = end + 1;
    return 1;
}

/* `length` bytes that end where memory begins that may not be touched. */
static inline uint8_t *fenced(size_t length)
{
    size_t page = 4096;
    size_t body = (length + page - 1) / page * page;
    uint8_t *start = mmap(NULL, body + page, PROT_READ | PROT_WRITE, MAP_PRIVATE | MAP_ANONYMOUS, -1, 0);
    if (start == MAP_FAILED || mprotect(start + body, page, PROT_NONE) != 0) {
        perror("mmap");
        exit(1);
    }
    return start + body - length;
}

static inline uint8_t *fenced_copy(const uint8_t *bytes, size_t length)
{
    uint8_t *copy = fenced(length);
    memcpy(copy, bytes, length);
    return copy;
}

static inline void put_number(uint8_t *p, int64_t number)
{
    int k;
    for (k = 0; k < 8; k++) {
        p[k] = (uint8_t)((uint64_t)number >> 8 * k);
    }
}

static inline uint32_t digest(const uint8_t *p, size_t n)
{
    uint32_t h = 0;
    size_t i;
    for (i = 0; i < n; i++) {
        h = 31 * h + p[i];
    }
    return h;
}

/* The number and the place that a line starts with, as a call answers them. */
static inline uint64_t next_answer(char **line)
{
    uint64_t number = strtoull(*line, line, 10);
    uint64_t place = strtoull(*line, line, 10);
    return 1000000 * number + place;
}

#endif
