/* What holds between calls. */
#include <string.h>

#include "capabilities.h"
#include "chunks.h"
#include "fuzz.h"

enum { RECORD_ROOM = 4096, WORDS_ROOM = 36864 };

struct saved {
    uint8_t record[RECORD_ROOM];
    uint8_t words[WORDS_ROOM];
};
static struct saved before, after;

static void save(struct saved *s)
{
    memcpy(s->record, record.room, record.size);
    memcpy(s->words, words.room, words.size);
}

static void restore(const struct saved *s)
{
    put_back(&record, s->record);
    put_back(&words, s->words);
}

static bool same_as(const struct saved *s)
{
    return memcmp(s->record, record.room, record.size) == 0 && memcmp(s->words, words.room, words.size) == 0;
}

/* The code of the run whose last step gave this. */
static uint32_t run_code(uint16_t last, uint32_t count)
{
    uint32_t number = last & 0xFF;
    if (number >= NO_WORD)
        return 0x1000000 + number * 0x10000 + count;
    if (number != 0)
        return 0x4000000 + number * 0x10000;
    return last == 0 ? 0x2000000 + count : count;
}

/* A run of at least one instruction is as many steps. */
void run_is_steps(uint16_t limit)
{
    uint16_t last = 0;
    uint32_t count = 0;
    save(&before);
    uint32_t code = run(limit);
    save(&after);
    restore(&before);
    while (count < limit && last == 0) {
        last = step();
        count += (last & 0xFF) == 0;
    }
    must(code == run_code(last, count), "run", "its code must be that of single steps");
    must(same_as(&after), "run", "its record and words must be those of single steps");
}

/* After a stretch that crossed: its last instruction is a step. */
static void crossing_is_step(uint16_t count)
{
    restore(&before);
    run((uint16_t)(count - 1));
    must(step() == 0 && same_as(&after), "stretch", "its crossing must be that of a step");
}

/* A stretch is the run of as many instructions, and stays where that one's next would fault. */
void stretch_is_run(uint16_t limit)
{
    save(&before);
    uint32_t code = stretch(limit);
    if (code >> 24 == REFUSED)
        return;
    save(&after);
    restore(&before);
    uint32_t other = run((uint16_t)code);
    must(other == (code >> 24 == HALTED ? code : 0x2000000 + (code & 0xFFFF)), "stretch", "its code must be that of a run");
    must(same_as(&after), "stretch", "its record and words must be those of a run");
    if (code >> 24 == FAULTED)
        must(step() == (code >> 16 & 0xFF), "stretch", "a step after it must give its fault");
    if (code >> 24 == CROSSED)
        crossing_is_step((uint16_t)code);
}

/* The crossing that a stretch has just made. */
static void put_crossing(uint8_t *to, const uint8_t *from)
{
    to[KIND] = record.at[DEPTH] > from[DEPTH] ? ZENKORV_CROSSING_CALL : ZENKORV_CROSSING_RETURN;
    to[LEFT] = from[EXECUTING];
    to[ENTERED] = record.at[EXECUTING];
    to[PLACE] = record.at[LOCATION + 2];
    memcpy(to + PLACE + 1, record.at + LOCATION, 2);
}

/* Stretches of at most 1,000 instructions in all: their crossings and the length of these, and the code of the run that they are. */
static uint32_t log_of_stretches(uint8_t *log, size_t *length)
{
    uint8_t from[RECORD];
    uint32_t code = CROSSED << 24;
    uint32_t count = 0;
    *length = 0;
    while (code >> 24 == CROSSED) {
        memcpy(from, record.at, RECORD);
        code = stretch((uint16_t)(LOG_LIMIT - count));
        count += code & 0xFFFF;
        if (code >> 24 == CROSSED) {
            put_crossing(log + *length, from);
            *length += CROSSING;
        }
    }
    return (code & 0xFFFF0000) + count;
}

/* A log is a run of 1,000 instructions, and has the crossings of its stretches. All but the output is put back. */
void log_is_stretches(void)
{
    static uint8_t log[LOG_BYTES];
    size_t length;
    save(&before);
    uint32_t code = run_logged();
    if (code >> 24 == REFUSED)
        return;
    save(&after);
    restore(&before);
    must(run(LOG_LIMIT) == code, "log", "its code must be that of a run");
    must(same_as(&after), "log", "its record and words must be those of a run");
    restore(&before);
    must(log_of_stretches(log, &length) == code && same_as(&after), "log", "it must end as its stretches");
    must(memcmp(output.at, log, length) == 0, "log", "its crossings must be those of its stretches");
    restore(&before);
}

/* The image of a record reads back as the record's restart, and its words. */
void write_reads_back(void)
{
    uint32_t length = write_image();
    if (length >= 0x10000)
        return;
    lend(&image, length);
    memcpy(image.at, output.at, length);
    keep(&image);
    save(&before);
    restart();
    save(&after);
    memset(record.at, 0xA5, RECORD);
    memset(words.at, 0x5A, 4 * words_in_use(after.record + (record.at - record.room)));
    keep(&record);
    keep(&words);
    must(read_image() == 0, "write", "its image must be accepted");
    must(same_as(&after), "write", "its image must give the restarted record and the words");
    restore(&before);
}

/* After an accepted read. */
void read_writes_back(void)
{
    save(&before);
    lend(&output, image.length);
    must(write_image() == image.length, "read", "the record must give an image of the same length");
    must(memcmp(output.at, image.at, image.length) == 0, "read", "the record must give the same image");
    must(restart() == 0 && same_as(&before), "read", "the record must be a fresh one");
}

/* After an accepted read: the entry tells what a run of the record tells. */
void entry_is_run(uint16_t limit)
{
    must(entry(limit) == (output.length < 4 ? TOO_SHORT : 0), "entry", "an image that is read must be accepted");
    if (output.length < 4)
        return;
    uint8_t result[4];
    memcpy(result, output.at, 4);
    save(&before);
    uint32_t code = run(limit);
    must(result[0] == code >> 24 && result[1] == (code >> 16 & 0xFF) && get16(result + 2) == (code & 0xFFFF), "entry", "its result must be that of a run");
    restore(&before);
}

/* After a refused read: the entry gives the image's number, too. */
void entry_is_refused(uint16_t limit, uint8_t number)
{
    uint8_t other = entry(limit);
    if (number != MEMORY_TOO_SHORT && number != TOO_SHORT)
        must(other == (output.length < 4 ? TOO_SHORT : number), "entry", "its refusal must be that of a read");
}

/* An image that is accepted, or has a dead gate, is refused without its last byte, and with one more. All is put back. */
void neighbours_refused(uint8_t with_more)
{
    save(&before);
    uint8_t *at = image.at;
    image.length--;
    must(read_image() == CUT_SHORT, "read", "an image without its last byte must be refused with 1");
    lend(&image, image.length + 2);
    memmove(image.at, at, image.length - 1);
    keep(&image);
    must(read_image() == with_more, "read", "an image with a byte more must be refused with 6, or 10 for a dead gate");
    must(same_as(&before), "read", "refused reads must leave record and words");
    lend(&image, image.length - 1);
    memmove(image.at, image.at - 1, image.length);
    keep(&image);
}

/* The number of the image with another byte in it. All is put back. */
static uint8_t number_with(size_t at, uint8_t byte)
{
    uint8_t kept = image.at[at];
    save(&before);
    image.at[at] = byte;
    keep(&image);
    uint8_t number = read_image();
    image.at[at] = kept;
    keep(&image);
    restore(&before);
    return number;
}

/* An image with a dead gate: kind 4 is judged before it, bytes after kind 4 are not. */
static void dead_image_refused(void)
{
    must(read_image() == DEAD_GATE, "read", "a gate without E must be refused with 10");
    must(number_with(image.length - 2, 3) == WRONG_KIND, "read", "a kind that is not 4 must come before a dead gate");
    must(number_with(image.length - 4, 1) == WRONG_LENGTH, "read", "a wrong length of kind 4 must come before a dead gate");
    neighbours_refused(DEAD_GATE);
}

/* After an accepted read: a segment's gates need E and no other flag, and where it has none nothing is needed. */
void gates_need_e(unsigned segment)
{
    size_t count = segment_at(record.at, segment) + 4;
    size_t rights = rights_at(record.at, record.at[GATE_DOMAINS + segment], segment);
    bool gates = get16(image.at + count) != 0;
    uint8_t kept = image.at[rights];
    must(number_with(rights, E) == 0, "read", "gates must be accepted with E alone");
    must(gates || number_with(rights, ALL_BUT_E) == 0, "read", "without gates no E must be needed");
    image.at[rights] = ALL_BUT_E;
    if (!gates)
        put16(image.at + count, 1);
    keep(&image);
    dead_image_refused();
    image.at[rights] = kept;
    if (!gates)
        put16(image.at + count, 0);
    keep(&image);
}

/* Gives the domain of a segment's gates E, in the image. Tells whether it had none. */
static bool mended(unsigned segment)
{
    size_t gates = chunk_at(image.at, image.length, 1 + segment) + 4;
    size_t rights = chunk_at(image.at, image.length, 1u + image.at[4] + image.at[gates + 2]) + 5 + segment;
    if (get16(image.at + gates) == 0 || (image.at[rights] & E) != 0)
        return false;
    image.at[rights] |= E;
    return true;
}

/* After a read that was refused with 10: with E for all gates the image is accepted, or has bytes left. */
void dead_gates_mended(void)
{
    unsigned dead = 0;
    for (unsigned s = 0; s < image.at[4]; s++)
        dead += mended(s);
    keep(&image);
    must(dead != 0, "read", "10 must mean a dead gate");
    uint8_t number = read_image();
    must(number == 0 || number == BYTES_LEFT, "read", "10 must be given where nothing else but 6 is due");
}

static void each_call_refuses(void)
{
    must(run(1) == 0x4090000, "run", "a record with a dead gate must be refused with 9");
    stretch(1);
    run_logged();
    step();
    write_image();
    segment_part(0);
    check(0, 0, 0, 0);
    restart();
}

/* Of an accepted record, as of an image: gates need E, and where there are none nothing is needed. All is put back. */
void dead_record_refused(unsigned segment)
{
    uint8_t *gates = record.at + GATES + 2 * segment;
    uint8_t *rights = record.at + RIGHTS + 16 * record.at[GATE_DOMAINS + segment] + segment;
    save(&before);
    *rights = E;
    keep(&record);
    must(run(0) == 0x2000000, "run", "gates must be accepted with E alone");
    *rights = ALL_BUT_E;
    keep(&record);
    if (get16(gates) == 0) {
        must(run(0) == 0x2000000, "run", "without gates no E must be needed");
        put16(gates, 1);
        keep(&record);
    }
    each_call_refuses();
    restore(&before);
}

/* A run with fresh registers gives the same code, and leaves the same words and bytes, save the registers. All is put back. */
void registers_do_not_matter(uint16_t limit)
{
    save(&before);
    uint32_t code = run(limit);
    if (code >> 24 == REFUSED)
        return;
    save(&after);
    restore(&before);
    fresh_registers(record.at);
    keep(&record);
    must(run(limit) == code, "run", "its code must be that of a run with fresh registers");
    memcpy(record.at + RECENT, after.record + (record.at - record.room) + RECENT, RECENT_BYTES);
    must(same_as(&after), "run", "its words, and its record save the registers, must be those of a run with fresh registers");
    restore(&before);
}

/* A capability of a frame in use, which may not be one that may be entered. */
static void hold_any(uint8_t *r)
{
    if (record.at[DEPTH] == 0)
        return;
    r[OF_FRAME] = (uint8_t)(1 + below(record.at[DEPTH]));
    const uint8_t *frame = frame_of(record.at, r[OF_FRAME]);
    memcpy(r, capability(frame, below(frame[0])), CAPABILITY);
}

static void swap_numbers(uint8_t *r, uint8_t *other)
{
    uint8_t kept = r[RECENCY];
    r[RECENCY] = other[RECENCY];
    other[RECENCY] = kept;
}

static void change_a_register(void)
{
    uint8_t *r = recent(record.at, below(RECENT_ROWS));
    switch (below(5)) {
    case 0: hold_any(r); break;
    case 1: swap_numbers(r, recent(record.at, below(RECENT_ROWS))); break;
    case 2: memset(r, 0, RECENCY); break;
    case 3: r[RECENCY] = (uint8_t)below(18); break;
    default: r[below(RECENT_ROW)] = (uint8_t)(one_in(2) ? below(3) : draw()); break;
    }
    keep(&record);
}

/* Of an accepted record: with other registers it is accepted if these are sound, and only then. All is put back. */
void registers_are_judged(void)
{
    save(&before);
    for (unsigned k = 0; k < 4; k++) {
        change_a_register();
        must(run(0) == (registers_are_sound(record.at) ? 0x2000000 : 0x4090000), "run", "registers must be accepted if they are sound, and only then");
    }
    restore(&before);
}
