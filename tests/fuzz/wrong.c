/* The calls made wrong on purpose, one at a time: WRONG in the environment says which. The linker puts them before the library's. */
#include <stdlib.h>
#include <string.h>

#include "chunks.h"
#include "wrong_frames.h"
#include "wrong_gates.h"
#include "zenkorv.h"

#define WRAPPED(type, name, ...) \
    type __real_zenkorv_##name(__VA_ARGS__); \
    type __wrap_zenkorv_##name(__VA_ARGS__); \
    type __wrap_zenkorv_##name(__VA_ARGS__)

static int wrong(int number)
{
    static int chosen = -1;
    if (chosen < 0)
        chosen = getenv("WRONG") == NULL ? 0 : atoi(getenv("WRONG"));
    return chosen == number;
}

/* 19: every call takes a tag of register a above 1 for 0. Gives the tag that it took away, or 0. */
static uint8_t take_tag(const uint8_t *record, size_t record_length)
{
    uint8_t tag = record_length < RECORD_LENGTH || !wrong(19) ? 0 : record[233];
    if (tag <= 1)
        return 0;
    ((uint8_t *)record)[233] = 0;
    return tag;
}

static void put_back(const uint8_t *record, uint8_t tag)
{
    if (tag != 0)
        ((uint8_t *)record)[233] = tag;
}

/* 27: no gate is dead; 28: R is taken for E; 29: a count of 0 is judged too; 30: the rights of domain 0 are judged; 31: the last segment is not. */
static enum way way(void)
{
    return wrong(27) ? NEVER : wrong(28) ? BY_R : wrong(29) ? WITHOUT_GATES : wrong(30) ? BY_DOMAIN_0 : wrong(31) ? NOT_THE_LAST : AS_IT_IS;
}

/* An image as it is read in the wrong way: mended, with its number if no gate were dead, and whether one is. */
static struct {
    uint8_t bytes[40960];
    uint8_t original[40960];
    struct gates gates[16];
    unsigned count;
    uint8_t number;
    bool dead;
} seen;

/* The number of a read into a machine of its own. */
static uint8_t tried(const uint8_t *image, size_t image_length)
{
    static uint8_t record[RECORD_LENGTH];
    static uint32_t words[8192];
    return __real_zenkorv_read(image, image_length, record, RECORD_LENGTH, words, 8192);
}

static void see(const uint8_t *image, size_t image_length)
{
    memcpy(seen.bytes, image, image_length);
    memcpy(seen.original, image, image_length);
    seen.count = gates_of_image(seen.bytes, image_length, seen.gates);
    seen.dead = one_is_dead(way(), seen.gates, seen.count);
    mend(seen.gates, seen.count);
    seen.number = tried(seen.bytes, image_length);
}

/* Whether nothing but kind 4, and what follows it, is wrong with the image that was seen. */
static bool good_up_to_kind_4(size_t image_length)
{
    static const uint8_t kind_4[] = { 0, 0, 4, 0 };
    static uint8_t cut[40964];
    size_t at = chunk_at(seen.bytes, image_length, 1u + seen.bytes[4] + seen.bytes[5]);
    if (seen.count == 0 || at > image_length)
        return false;
    memcpy(cut, seen.bytes, at);
    memcpy(cut + at, kind_4, 4);
    return tried(cut, at + 4) == 0;
}

/* 32: 10 comes after 6; 33: it comes before kind 4 is read. */
static uint8_t number_seen(size_t image_length)
{
    if (!seen.dead)
        return seen.number;
    if (wrong(33) && good_up_to_kind_4(image_length))
        return 10;
    return seen.number == 0 || (seen.number == 6 && !wrong(32)) ? 10 : seen.number;
}

static bool sees_images_wrong(void)
{
    return way() != AS_IT_IS || wrong(32) || wrong(33);
}

/* A read in the wrong way. */
static uint8_t read_as_seen(const uint8_t *image, size_t image_length, uint8_t *record, uint32_t *words)
{
    see(image, image_length);
    uint8_t number = number_seen(image_length);
    if (number != 0)
        return number;
    __real_zenkorv_read(seen.bytes, image_length, record, RECORD_LENGTH, words, 8192);
    for (unsigned s = 0; s < seen.count; s++)
        record[92 + 16 * seen.gates[s].domain + s] = seen.original[seen.gates[s].rights - seen.bytes];
    return 0;
}

static bool has_dead(const uint8_t *record)
{
    struct gates gates[16];
    return one_is_dead(AS_IT_IS, gates, gates_of_record((uint8_t *)record, gates));
}

/* 35: no gate is dead to calls on a record, though it is to the reader. */
static enum way way_of_records(void)
{
    return wrong(35) ? NEVER : way();
}

static uint8_t layout[222];
static uint8_t registers[RECENT_BYTES];
static bool registers_bent;

/* 58: registers with the same number are accepted; 59: and so is one that may not be entered. */
static void bend_registers(uint8_t *record)
{
    memcpy(registers, record + RECENT, RECENT_BYTES);
    registers_bent = wrong(58) ? mend_numbers(record) : wrong(59) && mend_entries(record);
}

/* Before a call on a record: it is made one that is not sound where a gate is dead in the wrong way, else it is mended. */
static void bend(const uint8_t *lent, size_t record_length)
{
    struct gates gates[16];
    uint8_t *record = (uint8_t *)lent;
    if (record_length < RECORD_LENGTH)
        return;
    bend_registers(record);
    if (way_of_records() == AS_IT_IS)
        return;
    memcpy(layout, record, sizeof layout);
    unsigned count = gates_of_record(record, gates);
    if (one_is_dead(way_of_records(), gates, count))
        record[220] = 0;
    else
        mend(gates, count);
}

static void unbend(const uint8_t *lent, size_t record_length)
{
    if (record_length < RECORD_LENGTH)
        return;
    if (registers_bent)
        memcpy((uint8_t *)lent + RECENT, registers, RECENT_BYTES);
    if (way_of_records() != AS_IT_IS)
        memcpy((uint8_t *)lent, layout, sizeof layout);
}

/* 45: in place of an entry a register of another frame rises; 46: one matches where the live frame has no match; 47: a return does not clear;
   48: it clears, but keeps all numbers; 49: it turns the cleared ones round; 50: a fault renews the registers; 51: a list that may not be entered is;
   52: no list is; 53: a match does not rise; 54: an entry goes to the lowest empty register; 55: arguments that are passed on renew. */
static enum slip slip_of_registers(void)
{
    if (wrong(45) || wrong(46))
        return wrong(45) ? OTHER_RISES : OTHER_MATCHES;
    if (wrong(47) || wrong(48) || wrong(49))
        return wrong(47) ? NOT_CLEARED : wrong(48) ? NUMBERS_KEPT : TURNED_ROUND;
    if (wrong(50) || wrong(51) || wrong(52))
        return wrong(50) ? RENEWED_AT_FAULT : wrong(51) ? ENTERED_ANYWAY : LIST_LEFT_OUT;
    return wrong(53) ? MATCH_STAYS : wrong(54) ? LOWEST_EMPTY : wrong(55) ? RENEWED_BY_ARGUMENTS : NO_SLIP;
}

/* 38: the source of a list at a tagged a is the caller; 39: or that of the last capability that covers it; 40: a list is lent to be written too;
   41: it is a word short; 42: it need not be covered; 43: arguments are lent to be written too; 44: the s of a frame has no tag. */
static enum slip slip(void)
{
    if (wrong(38) || wrong(39))
        return wrong(38) ? CALLER_AS_SOURCE : LAST_AS_SOURCE;
    if (wrong(40) || wrong(41) || wrong(42))
        return wrong(40) ? LIST_WITH_W : wrong(41) ? WORD_SHORT : NOT_COVERED;
    return wrong(43) ? ARGUMENTS_WITH_W : wrong(44) ? S_UNTAGGED : slip_of_registers();
}

/* 1: a refused read leaves a byte of the record behind; 2: an accepted one writes past the record; 3: or past the segments; 34: one refused with 10 writes a word. */
WRAPPED(uint8_t, read, const uint8_t *image, size_t image_length, uint8_t *record, size_t record_length, uint32_t *words, size_t word_count)
{
    if (sees_images_wrong() && record_length >= RECORD_LENGTH && word_count >= 8192)
        return read_as_seen(image, image_length, record, words);
    uint8_t number = __real_zenkorv_read(image, image_length, record, record_length, words, word_count);
    if (wrong(34) && number == 10)
        words[0] ^= 1;
    if (wrong(1) && number == 4)
        record[300] ^= 1;
    if (wrong(2) && number == 0 && record_length > RECORD_LENGTH)
        record[RECORD_LENGTH] ^= 1;
    if (wrong(3) && number == 0 && words[8191] != 0)
        words[8191] ^= 1;
    return number;
}

/* 4: a refused run changes the record; 5: a completed one leaves a flag of 2; 6: a fault is counted. */
WRAPPED(uint32_t, run, uint8_t *record, size_t record_length, uint32_t *words, size_t word_count, uint16_t limit)
{
    const struct machine m = { slip(), record, record_length, words, word_count };
    if (m.slip != NO_SLIP)
        return run_of_steps(&m, limit, false);
    uint8_t tag_taken = take_tag(record, record_length);
    bend(record, record_length);
    uint32_t code = __real_zenkorv_run(record, record_length, words, word_count, limit);
    unbend(record, record_length);
    if (code >> 24 == 4)
        put_back(record, tag_taken);
    if (wrong(4) && code == 0x4090000)
        record[RECORD_LENGTH - 1] ^= 1;
    if (wrong(5) && code >> 24 == 0)
        record[233] = 2;
    return wrong(6) && code >> 24 == 1 ? code + 1 : code;
}

/* 7: a stretch goes on past a crossing. */
WRAPPED(uint32_t, stretch, uint8_t *record, size_t record_length, uint32_t *words, size_t word_count, uint16_t limit)
{
    const struct machine m = { slip(), record, record_length, words, word_count };
    if (m.slip != NO_SLIP)
        return run_of_steps(&m, limit, true);
    uint8_t tag_taken = take_tag(record, record_length);
    bend(record, record_length);
    uint32_t code = __real_zenkorv_stretch(record, record_length, words, word_count, limit);
    unbend(record, record_length);
    if (code >> 24 == 4)
        put_back(record, tag_taken);
    if (wrong(7) && code >> 24 == 3)
        __real_zenkorv_run(record, record_length, words, word_count, 1);
    return code;
}

static void swap(uint8_t *a, uint8_t *b)
{
    uint8_t kept = *a;
    *a = *b;
    *b = kept;
}

/* 20: the bytes of a word are swapped; 21: domain left and domain entered are. */
static void swap_in_crossings(uint8_t *log, size_t length)
{
    for (size_t at = 0; at < length; at += 6) {
        if (wrong(20))
            swap(log + at + 4, log + at + 5);
        if (wrong(21))
            swap(log + at + 1, log + at + 2);
    }
}

/* 22: the totals are swapped; 23: a byte past the last crossing is written. */
static void spoil_log(uint8_t *log, size_t log_length, uint16_t *calls, uint16_t *returns)
{
    size_t length = 6 * ((size_t)*calls + *returns);
    uint16_t kept = *calls;
    swap_in_crossings(log, length);
    if (wrong(22)) {
        *calls = *returns;
        *returns = kept;
    }
    if (wrong(23) && length < log_length)
        log[length] ^= 1;
}

/* 24: refused, it gives a total; 25: a log that is too short is refused before all else; 26: or the machine is run on all the same. */
WRAPPED(uint32_t, log, uint8_t *record, size_t record_length, uint32_t *words, size_t word_count, uint8_t *log, size_t log_length, uint16_t *calls,
        uint16_t *returns)
{
    const struct machine m = { slip(), record, record_length, words, word_count };
    if (m.slip != NO_SLIP && log_length >= 6000 && run_of_steps(&m, 0, false) >> 24 != 4)
        return log_of_steps(&m, log, calls, returns);
    if (wrong(25) && log_length < 6000)
        return 0x4080000;
    uint8_t tag_taken = take_tag(record, record_length);
    bend(record, record_length);
    uint32_t code = __real_zenkorv_log(record, record_length, words, word_count, log, log_length, calls, returns);
    unbend(record, record_length);
    if (code >> 24 != 4) {
        spoil_log(log, log_length, calls, returns);
        return code;
    }
    put_back(record, tag_taken);
    if (wrong(24))
        *returns = 0;
    if (wrong(26) && code == 0x4080000)
        __real_zenkorv_run(record, record_length, words, word_count, 1);
    return code;
}

/* 8: a step that faults changes A; 9: one that halts moves on. */
WRAPPED(uint16_t, step, uint8_t *record, size_t record_length, uint32_t *words, size_t word_count)
{
    const struct machine m = { slip(), record, record_length, words, word_count };
    if (m.slip != NO_SLIP)
        return wrong_step(&m);
    uint8_t tag_taken = take_tag(record, record_length);
    bend(record, record_length);
    uint16_t code = __real_zenkorv_step(record, record_length, words, word_count);
    unbend(record, record_length);
    if (code != 0)
        put_back(record, tag_taken);
    if (wrong(8) && code == 24)
        record[222] ^= 1;
    if (wrong(9) && code == 256)
        record[226] += 1;
    return code;
}

/* 10: a byte past the image is written; 11: a byte of the image is another; 37: a record with a dead gate gives 10. */
WRAPPED(uint32_t, write, const uint8_t *record, size_t record_length, const uint32_t *words, size_t word_count, uint8_t *output, size_t output_length)
{
    uint8_t tag_taken = take_tag(record, record_length);
    bend(record, record_length);
    uint32_t code = __real_zenkorv_write(record, record_length, words, word_count, output, output_length);
    unbend(record, record_length);
    put_back(record, tag_taken);
    if (wrong(10) && code < output_length)
        output[code] ^= 1;
    if (wrong(11) && code < 0x10000)
        output[20] ^= 1;
    return wrong(37) && code == 0x10009 && has_dead(record) ? 0x1000A : code;
}

/* 12: refused, it gives a count; 13: its part begins a word late. */
WRAPPED(uint8_t, segment, const uint8_t *record, size_t record_length, const uint32_t *words, size_t word_count, uint8_t segment, uint16_t *first,
        uint16_t *count)
{
    uint8_t tag_taken = take_tag(record, record_length);
    bend(record, record_length);
    uint8_t number = __real_zenkorv_segment(record, record_length, words, word_count, segment, first, count);
    unbend(record, record_length);
    put_back(record, tag_taken);
    if (wrong(12) && number == 21)
        *count = 0;
    if (wrong(13) && number == 0 && segment == 3)
        *first += 1;
    return number;
}

/* A register of another frame than the live one covers a word. */
static bool other_has(const uint8_t *record, uint8_t write, uint8_t segment, uint16_t word)
{
    const uint8_t made[CAPABILITY] = { (uint8_t)word, (uint8_t)(word >> 8), 1, 0, segment, 0, write == 0, write != 0 };
    return other_covering(record, made) != RECENT_ROWS;
}

/* 14: a right to read is taken for one to write; 15: a tagged check gives another number; 56: it takes a register of another frame for a match. */
WRAPPED(uint32_t, check, const uint8_t *record, size_t record_length, uint8_t write, uint8_t tag, uint8_t segment, uint16_t word)
{
    uint8_t tag_taken = take_tag(record, record_length);
    bend(record, record_length);
    uint32_t code = __real_zenkorv_check(record, record_length, wrong(14) ? 0 : write, tag, segment, word);
    unbend(record, record_length);
    put_back(record, tag_taken);
    if (wrong(56) && code == 0x10000 + 24 && other_has(record, write, segment, word))
        return 0x10000 + 25;
    return wrong(15) && code == 0x10000 + 25 ? 0x10000 + 22 : code;
}

/* 16: A stays; 57: the numbers of the registers stay. */
WRAPPED(uint8_t, restart, uint8_t *record, size_t record_length)
{
    uint8_t tag_taken = take_tag(record, record_length);
    uint8_t before[RECORD_LENGTH];
    memcpy(before, record, record_length < RECORD_LENGTH ? record_length : RECORD_LENGTH);
    bend(record, record_length);
    uint8_t number = __real_zenkorv_restart(record, record_length);
    unbend(record, record_length);
    if (number != 0)
        put_back(record, tag_taken);
    if (wrong(16) && number == 0)
        record[222] = before[222];
    if (wrong(57) && number == 0)
        keep_numbers(before, record);
    return number;
}

/* 17: its count is of one more; 18: a byte past the result is written; 36: it runs an image with a dead gate. */
WRAPPED(uint8_t, entry, const uint8_t *image, size_t image_length, uint16_t limit, uint8_t *result, size_t result_length)
{
    if (slip() != NO_SLIP && result_length >= 4)
        return entry_of_steps(slip(), image, image_length, limit, result);
    if (sees_images_wrong() || wrong(36)) {
        see(image, image_length);
        uint8_t refusal = wrong(36) ? seen.number : number_seen(image_length);
        return refusal != 0 && result_length >= 4 ? refusal : __real_zenkorv_entry(seen.bytes, image_length, limit, result, result_length);
    }
    uint8_t number = __real_zenkorv_entry(image, image_length, limit, result, result_length);
    if (wrong(17) && number == 0 && result[0] == 1)
        result[2] += 1;
    if (wrong(18) && number == 0 && result_length > 4)
        result[4] ^= 1;
    return number;
}
