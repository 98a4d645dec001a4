/* What the files of the harness share. */
#ifndef FUZZ_H
#define FUZZ_H

#include <stdbool.h>
#include <stddef.h>
#include <stdint.h>

#include "zenkorv.h"

enum { RECORD = ZENKORV_RECORD_BYTES, WORDS = ZENKORV_MEMORY_WORDS };

/* Places in the record. */
enum {
    LENGTHS = 0, GATES = 32, START = 64, GATE_DOMAINS = 68, STACKS = 84, RIGHTS = 92, SEGMENTS = 220, DOMAINS = 221,
    REGISTERS = 222, LOCATION = 226, EXECUTING = 229, POINTERS = 230, DEPTH = 262, FRAMES = 263, FRAME = 82, CALLER_S = 73,
    CALLER = 81
};

/* The log, and places in one of its crossings. */
enum { LOG_BYTES = ZENKORV_LOG_BYTES, LOG_LIMIT = ZENKORV_LOG_LIMIT, CROSSING = 6, KIND = 0, LEFT = 1, ENTERED = 2, PLACE = 3 };

enum { CUT_SHORT = 1, WRONG_KIND = 2, WRONG_LENGTH = 3, BYTES_LEFT = 6, MEMORY_TOO_SHORT = 7, TOO_SHORT = 8, NOT_SOUND = 9, DEAD_GATE = 10 };
enum { NO_WORD = 21, FLAG_MISSING = 22, NO_MATCH = 24, SOURCE_FAILS = 25, BAD_INSTRUCTION = 27, LAST_FAULT = 32 };
enum { R = 1, E = 4, G = 8, ALL_BUT_E = 11 };
enum { LOAD = 1, STORE = 2, ADD = 3, SUB = 4, SPP = 6, CALL = 8, LIT = 12, INDIRECT = 0x8000 };
enum ending { HALTED, FAULTED, SPENT, CROSSED, REFUSED };
enum mode { IMAGE, RECORD_BYTES, EDITED_IMAGE, EDITED_RECORD, MODES };
enum call { READ, RUN, STRETCH, LOG, STEP, WRITE, SEGMENT, CHECK, RESTART, ENTRY, CALLS };
enum use { MATCHED, PASSED_OVER, ENTERED_FOUND, NOT_ENTERED, OLDER_REPLACED, LIST_ENTERED, LIST_NOT_ENTERED, CLEARED, FAULT_BETWEEN, USES };

/* lent.c: what a call is lent lies against a page that it can't touch; the whole room is held against a copy. */
struct lent {
    uint8_t *room;
    uint8_t *kept;
    size_t size;
    uint8_t *at;
    size_t length;
};
extern struct lent image, record, words, output;
void make_rooms(void);
void lend(struct lent *l, size_t length);
void keep(struct lent *l);
bool same(const struct lent *l);
bool same_but(const struct lent *l, size_t bytes);
void put_back(struct lent *l, const uint8_t *room);

/* random.c: numbers from the input's seed */
void seed_draws(uint32_t seed);
uint32_t draw(void);
uint32_t below(uint32_t n);
bool one_in(uint32_t n);
void fill(struct lent *l);

/* input.c */
enum { PARAMETERS = 12, SLICES = 4, SLICE = 6, HEADER = PARAMETERS + SLICES * SLICE, EDIT = 3 };
struct input {
    enum mode mode;
    uint8_t record_choice, words_choice, output_choice;
    uint16_t limit;
    uint8_t segment;
    uint16_t word;
    uint8_t flags;
    uint32_t seed;
    const uint8_t *slices;
    const uint8_t *rest;
    size_t rest_length;
    size_t edits;
};
struct input input_of(const uint8_t *data, size_t size);
size_t chosen_length(uint8_t choice, size_t exact);

/* record.c: what the record's bytes say, for a record that is accepted */
unsigned get16(const uint8_t *at);
void put16(uint8_t *at, unsigned value);
unsigned base_of(const uint8_t *bytes, unsigned segment);
unsigned words_in_use(const uint8_t *bytes);
size_t segment_at(const uint8_t *bytes, unsigned segment);
size_t rights_at(const uint8_t *bytes, unsigned domain, unsigned segment);
size_t image_length(const uint8_t *bytes);
bool has_dead_gate(const uint8_t *bytes);
void restarted(uint8_t *bytes);

/* made.c: a record that is sound, but for a dead gate in some, words and an image, of the numbers drawn */
void made_layout(uint8_t *bytes);
void made_state(uint8_t *bytes);
void made_words(const uint8_t *bytes, uint32_t *memory);
void made_soup(uint32_t *memory, size_t count);
size_t made_image(const uint8_t *bytes, const uint32_t *memory, uint8_t *to);

/* counts.c */
void count_input(enum mode mode);
void count_image(bool accepted);
void count_record(bool accepted);
void count_number(enum call call, unsigned number);
void count_ending(enum call call, enum ending ending, unsigned number);
void count_state(unsigned depth, unsigned completed);
void count_frame(bool tagged, unsigned arguments);
void count_uncovered(unsigned arguments);
void count_use(enum use use, unsigned which);

/* crossings.c: what must hold of a log, which is the output */
void judge_log(unsigned calls, unsigned returns, unsigned completed);

/* frames.c: what must hold of the frame that a step makes by a call through a gate, and of the registers after a step */
void judge_frame(void);
void judge_registers(void);
void count_uncovered_list(void);
void count_fault_between(void);

/* calls.c: each call with what must hold of it alone */
void must(bool holds, const char *call, const char *what);
uint8_t read_image(void);
uint32_t run(uint16_t limit);
uint32_t stretch(uint16_t limit);
uint32_t run_logged(void);
uint16_t step(void);
uint32_t write_image(void);
uint8_t segment_part(uint8_t segment);
uint32_t live_code(uint8_t write, uint8_t segment, uint16_t word);
uint32_t check(uint8_t write, uint8_t tag, uint8_t segment, uint16_t word);
uint8_t restart(void);
uint8_t entry(uint16_t limit);

/* laws.c: what holds between calls */
void run_is_steps(uint16_t limit);
void stretch_is_run(uint16_t limit);
void log_is_stretches(void);
void write_reads_back(void);
void read_writes_back(void);
void entry_is_run(uint16_t limit);
void entry_is_refused(uint16_t limit, uint8_t number);
void neighbours_refused(uint8_t with_more);
void gates_need_e(unsigned segment);
void dead_gates_mended(void);
void dead_record_refused(unsigned segment);
void registers_do_not_matter(uint16_t limit);
void registers_are_judged(void);

#endif
