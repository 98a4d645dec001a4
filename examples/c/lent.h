/* A machine that is lent to each call, and what the checks of the calls need with it. */
#ifndef LENT_H
#define LENT_H

#include <stdio.h>
#include <stdlib.h>
#include <string.h>

#include "image_file.h"
#include "zenkorv.h"

enum { FILLED = 0xEE, SPARE = 8, HIGHEST = 65535 };
enum { RECORD = ZENKORV_RECORD_BYTES, WORDS = ZENKORV_MEMORY_WORDS };

struct image {
    uint8_t bytes[IMAGE_ROOM];
    size_t length;
};

/* A machine in memory of exactly the lengths that are lent, so that valgrind sees a reference beside it. */
struct machine {
    uint8_t *record;
    uint32_t *words;
    size_t record_length;
    size_t word_count;
};

/* A log and its totals, in memory of exactly the length that is lent. */
struct crossings {
    uint8_t *log;
    size_t length;
    uint16_t calls;
    uint16_t returns;
};

static int failures = 0;

static inline void expect(int holds, const char *name, const char *what)
{
    if (holds)
        return;
    printf("%s: %s\n", name, what);
    failures++;
}

static inline void *filled(size_t bytes)
{
    void *place = malloc(bytes == 0 ? 1 : bytes);
    if (place == NULL)
        exit(EXIT_FAILURE);
    return memset(place, FILLED, bytes);
}

static inline struct machine lend(size_t record_length, size_t word_count)
{
    struct machine m = {filled(record_length), filled(word_count * sizeof(uint32_t)), record_length, word_count};
    return m;
}

/* The first bytes and words of a machine, in memory of their own. */
static inline struct machine part_of(struct machine from, size_t record_length, size_t word_count)
{
    struct machine m = lend(record_length, word_count);
    memcpy(m.record, from.record, record_length);
    memcpy(m.words, from.words, word_count * sizeof(uint32_t));
    return m;
}

static inline struct machine copy_of(struct machine m)
{
    return part_of(m, m.record_length, m.word_count);
}

static inline void give_back(struct machine m)
{
    free(m.record);
    free(m.words);
}

static inline int same_words(struct machine m, struct machine n)
{
    return memcmp(m.words, n.words, m.word_count * sizeof(uint32_t)) == 0;
}

static inline int same(struct machine m, struct machine n)
{
    return memcmp(m.record, n.record, m.record_length) == 0 && same_words(m, n);
}

static inline uint8_t read_into(struct machine m, const uint8_t *bytes, size_t length)
{
    return zenkorv_read(bytes, length, m.record, m.record_length, m.words, m.word_count);
}

static inline uint32_t run(struct machine m, uint16_t limit)
{
    return zenkorv_run(m.record, m.record_length, m.words, m.word_count, limit);
}

static inline uint32_t stretch(struct machine m, uint16_t limit)
{
    return zenkorv_stretch(m.record, m.record_length, m.words, m.word_count, limit);
}

/* What a run, a stretch or a log returns. */
static inline uint32_t answer(uint8_t ending, uint8_t number, uint16_t count)
{
    return (uint32_t)ending << 24 | (uint32_t)number << 16 | count;
}

static inline uint16_t step(struct machine m)
{
    return zenkorv_step(m.record, m.record_length, m.words, m.word_count);
}

static inline uint32_t write_to(struct machine m, uint8_t *output, size_t length)
{
    return zenkorv_write(m.record, m.record_length, m.words, m.word_count, output, length);
}

static inline uint8_t segment(struct machine m, uint8_t number, uint16_t *first, uint16_t *count)
{
    return zenkorv_segment(m.record, m.record_length, m.words, m.word_count, number, first, count);
}

static inline uint32_t check(struct machine m, uint8_t write, uint8_t tag, uint8_t number, uint16_t word)
{
    return zenkorv_check(m.record, m.record_length, write, tag, number, word);
}

static inline uint8_t restart(struct machine m)
{
    return zenkorv_restart(m.record, m.record_length);
}

static inline int all_filled(const void *from, size_t bytes)
{
    const uint8_t *place = from;
    for (size_t i = 0; i < bytes; i++) {
        if (place[i] != FILLED)
            return 0;
    }
    return 1;
}

static inline struct crossings lend_log(size_t length)
{
    struct crossings c = {filled(length), length, FILLED, FILLED};
    return c;
}

static inline uint32_t run_logged(struct machine m, struct crossings *c)
{
    return zenkorv_log(m.record, m.record_length, m.words, m.word_count, c->log, c->length, &c->calls, &c->returns);
}

static inline int log_stays(const struct crossings *c)
{
    return all_filled(c->log, c->length) && c->calls == FILLED && c->returns == FILLED;
}

static inline struct machine loaded(const struct image *image)
{
    struct machine m = lend(RECORD, WORDS);
    expect(read_into(m, image->bytes, image->length) == ZENKORV_OK, "read", "refused");
    return m;
}

static inline int told(void)
{
    if (failures != 0) {
        printf("%d differences\n", failures);
        return EXIT_FAILURE;
    }
    puts("all as expected");
    return EXIT_SUCCESS;
}

#endif
