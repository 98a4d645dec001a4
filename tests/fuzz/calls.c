/* Each call, and what must hold of its number and of all that it was lent. */
#include <stdio.h>
#include <stdlib.h>
#include <string.h>

#include "capabilities.h"
#include "fuzz.h"

void must(bool holds, const char *call, const char *what)
{
    if (holds)
        return;
    fprintf(stderr, "zenkorv_%s: %s\n", call, what);
    abort();
}

static uint32_t *memory(void)
{
    return (uint32_t *)(void *)words.at;
}

static size_t word_count(void)
{
    return words.length / 4;
}

static void all_stay(const char *call)
{
    must(same(&record), call, "the record's bytes must stay");
    must(same(&words), call, "the words must stay");
    must(same(&output), call, "the output must stay");
    must(same(&image), call, "the image must stay");
}

/* 0, 8 or 9: how the record stands, as a check of its first word tells. */
static unsigned standing(void)
{
    uint32_t code = zenkorv_check(record.at, record.length, 0, 0, 0, 0);
    unsigned number = code & 0xFF;
    return code < 0x10000 || number > NOT_SOUND ? 0 : number;
}

/* The number with which a call on record and words is refused, or 0. */
static unsigned refusal(void)
{
    unsigned number = standing();
    return number == 0 && word_count() < WORDS ? MEMORY_TOO_SHORT : number;
}

/* A number is refused as it is due, and then all stays. Gives whether the call was refused. */
static bool refused(const char *call, unsigned number, unsigned due)
{
    must((due == TOO_SHORT) == (record.length < RECORD), call, "8 must mean a record that is too short");
    must(due == 0 || number == due, call, "it must be refused with the number due");
    must(due != 0 || !has_dead_gate(record.at), call, "a record with a dead gate must be refused");
    must(due != 0 || registers_are_sound(record.at), call, "the registers of a record that is accepted must be sound");
    if (due != 0)
        all_stay(call);
    return due != 0;
}

/* A run of no instruction accepts the record, and leaves all. */
static void accepted_again(const char *call)
{
    uint32_t code = zenkorv_run(record.at, record.length, memory(), word_count(), 0);
    must(code == 0x2000000 || (code == 0x4070000 && word_count() < WORDS), call, "its record must be accepted again");
    all_stay(call);
}

/* What a completed call may have changed: the record's bytes save the layout, and words of segments. */
static void completed(const char *call)
{
    must(same(&image) && same(&output), call, "what it was not lent must stay");
    must(same_but(&record, RECORD), call, "bytes outside the record must stay");
    must(memcmp(record.at, record.kept + (record.at - record.room), REGISTERS) == 0, call, "the layout must stay");
    must(same_but(&words, 4 * words_in_use(record.at)), call, "words outside the segments must stay");
    keep(&record);
    keep(&words);
    accepted_again(call);
}

uint8_t read_image(void)
{
    uint8_t number = zenkorv_read(image.at, image.length, record.at, record.length, memory(), word_count());
    unsigned due = record.length < RECORD ? TOO_SHORT : word_count() < WORDS ? MEMORY_TOO_SHORT : 0;
    count_number(READ, number);
    must(number <= TOO_SHORT || number == DEAD_GATE, "read", "its number must be one of 0 to 8, or 10");
    must(due == 0 ? number != MEMORY_TOO_SHORT && number != TOO_SHORT : number == due, "read", "7 and 8 must be given where they are due");
    if (number != 0) {
        all_stay("read");
        return number;
    }
    must(same(&image) && same(&output), "read", "what it only reads must stay");
    must(same_but(&record, RECORD), "read", "bytes outside the record must stay");
    must(same_but(&words, 4 * words_in_use(record.at)), "read", "words outside the segments must stay");
    must(image_length(record.at) == image.length, "read", "the record must be as long as the image");
    must(!has_dead_gate(record.at), "read", "an image with a dead gate must be refused");
    keep(&record);
    keep(&words);
    accepted_again("read");
    return number;
}

static void judge_ending(const char *call, uint32_t code, uint16_t limit)
{
    unsigned ending = code >> 24;
    unsigned number = code >> 16 & 0xFF;
    unsigned count = code & 0xFFFF;
    must(ending <= CROSSED, call, "its ending must be known, and refused only where it is due");
    must(ending == FAULTED ? NO_WORD <= number && number <= LAST_FAULT : number == 0, call, "a fault must have its number");
    must(ending == SPENT ? count == limit : count <= limit, call, "the count must fit the limit");
    must(ending != FAULTED || count < limit, call, "a fault must not be counted");
    must((ending != HALTED && ending != CROSSED) || count != 0, call, "the last instruction must be counted");
}

static uint32_t judge_run(enum call kind, const char *call, uint32_t code, unsigned due, uint16_t limit)
{
    unsigned number = code >> 16 & 0xFF;
    count_ending(kind, code >> 24, number);
    if (due != 0)
        must(code == 0x4000000 + due * 0x10000, call, "a refusal must have its number and no count");
    if (refused(call, number, due))
        return code;
    judge_ending(call, code, limit);
    if ((code & 0xFFFF) == 0)
        all_stay(call);
    must(kind == STRETCH || code >> 24 != CROSSED, call, "only a stretch may end at a crossing");
    completed(call);
    count_state(record.at[DEPTH], code & 0xFFFF);
    return code;
}

uint32_t run(uint16_t limit)
{
    unsigned due = refusal();
    return judge_run(RUN, "run", zenkorv_run(record.at, record.length, memory(), word_count(), limit), due, limit);
}

uint32_t stretch(uint16_t limit)
{
    unsigned due = refusal();
    return judge_run(STRETCH, "stretch", zenkorv_stretch(record.at, record.length, memory(), word_count(), limit), due, limit);
}

/* The log is the output. */
uint32_t run_logged(void)
{
    uint16_t totals[4] = { 0xAAAA, 0xBBBB, 0xCCCC, 0xDDDD };
    unsigned due = refusal();
    bool too_short = due == 0 && output.length < LOG_BYTES;
    uint32_t code = zenkorv_log(record.at, record.length, memory(), word_count(), output.at, output.length, &totals[1], &totals[2]);
    must(totals[0] == 0xAAAA && totals[3] == 0xDDDD, "log", "what lies beside its totals must stay");
    if (due != 0 || too_short)
        must(totals[1] == 0xBBBB && totals[2] == 0xCCCC, "log", "refused, its totals must stay");
    if (too_short) {
        count_number(LOG, TOO_SHORT);
        must(code == 0x4000000 + TOO_SHORT * 0x10000, "log", "a log that is too short must be refused");
        all_stay("log");
        return code;
    }
    if (due == 0)
        judge_log(totals[1], totals[2], code & 0xFFFF);
    return judge_run(LOG, "log", code, due, LOG_LIMIT);
}

static unsigned words_changed(void)
{
    unsigned changed = 0;
    for (size_t i = 0; i < words.size; i += 4)
        changed += memcmp(words.room + i, words.kept + i, 4) != 0;
    return changed;
}

uint16_t step(void)
{
    unsigned due = refusal();
    uint16_t code = zenkorv_step(record.at, record.length, memory(), word_count());
    unsigned number = code & 0xFF;
    count_ending(STEP, code == 256 ? HALTED : number == 0 ? SPENT : number < NO_WORD ? REFUSED : FAULTED, number);
    if (refused("step", code, due))
        return code;
    must(number == 0 ? code <= 256 : code == number && NO_WORD <= number && number <= LAST_FAULT, "step", "its number must be known");
    if (code != 0)
        all_stay("step");
    must(same(&words) || words_changed() == 1, "step", "at most one word may change");
    judge_frame();
    if (code == 0)
        judge_registers();
    if (code == NO_MATCH)
        count_uncovered_list();
    if (number != 0 && number != BAD_INSTRUCTION)
        count_fault_between();
    completed("step");
    return code;
}

uint32_t write_image(void)
{
    unsigned due = refusal();
    size_t needed = due == 0 ? image_length(record.at) : 0;
    uint32_t code = zenkorv_write(record.at, record.length, memory(), word_count(), output.at, output.length);
    count_number(WRITE, code < 0x10000 ? 0 : code & 0xFF);
    if (refused("write", code - 0x10000, due))
        return code;
    if (output.length < needed) {
        must(code == 0x10000 + TOO_SHORT, "write", "an output that is too short must be refused");
        all_stay("write");
        return code;
    }
    must(code == needed && needed <= ZENKORV_LONGEST_IMAGE, "write", "the image must have its length");
    must(same(&record) && same(&words) && same(&image), "write", "what it only reads must stay");
    must(same_but(&output, needed), "write", "bytes outside the image must stay");
    keep(&output);
    return code;
}

uint8_t segment_part(uint8_t segment)
{
    uint16_t places[4] = { 0xAAAA, 0xBBBB, 0xCCCC, 0xDDDD };
    unsigned due = refusal();
    if (due == 0 && segment >= record.at[SEGMENTS])
        due = NO_WORD;
    uint8_t number = zenkorv_segment(record.at, record.length, memory(), word_count(), segment, &places[1], &places[2]);
    count_number(SEGMENT, number);
    all_stay("segment");
    must(number == due, "segment", "its number must be the one due");
    must(places[0] == 0xAAAA && places[3] == 0xDDDD, "segment", "what lies beside its answers must stay");
    if (number != 0) {
        must(places[1] == 0xBBBB && places[2] == 0xCCCC, "segment", "refused, its answers must stay");
        return number;
    }
    must(places[1] == base_of(record.at, segment), "segment", "the first word must follow the segments before");
    must(places[2] == get16(record.at + LENGTHS + 2 * segment), "segment", "the part must be as long as the segment");
    must(places[2] != 0 && (size_t)places[1] + places[2] <= word_count(), "segment", "the part must lie within the words");
    return number;
}

/* The code of a check by a domain's rights: 21, then 22, else the index. */
static uint32_t static_code(unsigned domain, uint8_t write, uint8_t segment, uint16_t word)
{
    const uint8_t *bytes = record.at;
    if (segment >= bytes[SEGMENTS] || word >= get16(bytes + LENGTHS + 2 * segment))
        return 0x10000 + NO_WORD;
    if ((bytes[RIGHTS + 16 * domain + segment] & (write == 0 ? 1 : 2)) == 0)
        return 0x10000 + FLAG_MISSING;
    return base_of(bytes, segment) + word;
}

/* The code of a check through a tagged pointer: 24 where no capability of the live frame matches, 25 where the first one's source fails, else the index. */
uint32_t live_code(uint8_t write, uint8_t segment, uint16_t word)
{
    const uint8_t made[CAPABILITY] = { (uint8_t)word, (uint8_t)(word >> 8), 1, 0, segment, 0, write == 0, write != 0 };
    const uint8_t *found = first_covering(record.at, made);
    if (found == NULL)
        return 0x10000 + NO_MATCH;
    uint32_t code = static_code(found[SOURCE], write, segment, word);
    return code < 0x10000 ? code : 0x10000 + SOURCE_FAILS;
}

uint32_t check(uint8_t write, uint8_t tag, uint8_t segment, uint16_t word)
{
    unsigned due = standing();
    uint32_t code = zenkorv_check(record.at, record.length, write, tag, segment, word);
    count_number(CHECK, code < 0x10000 ? 0 : code & 0xFF);
    all_stay("check");
    if (refused("check", code - 0x10000, due))
        return code;
    if (tag == 0)
        must(code == static_code(record.at[EXECUTING], write, segment, word), "check", "untagged, its code must be that of the rights");
    else
        must(code == live_code(write, segment, word), "check", "tagged, its code must be that of the first capability that matches");
    return code;
}

uint8_t restart(void)
{
    unsigned due = standing();
    uint8_t wanted[RECORD];
    uint8_t number = zenkorv_restart(record.at, record.length);
    count_number(RESTART, number);
    if (refused("restart", number, due))
        return number;
    must(number == 0, "restart", "a sound record must be accepted");
    must(same(&words), "restart", "the words must stay");
    memcpy(wanted, record.kept + (record.at - record.room), RECORD);
    restarted(wanted);
    must(memcmp(record.at, wanted, RECORD) == 0, "restart", "the record must be the fresh machine of its layout");
    completed("restart");
    must(zenkorv_restart(record.at, record.length) == 0, "restart", "a second one must be accepted");
    all_stay("restart");
    return number;
}

/* The result is the output. */
uint8_t entry(uint16_t limit)
{
    uint8_t number = zenkorv_entry(image.at, image.length, limit, output.at, output.length);
    count_number(ENTRY, number);
    must(number < MEMORY_TOO_SHORT || number == TOO_SHORT || number == DEAD_GATE, "entry", "its number must be known");
    must((number == TOO_SHORT) == (output.length < 4), "entry", "8 must mean a result that is too short");
    if (number != 0) {
        all_stay("entry");
        return number;
    }
    must(same(&record) && same(&words) && same(&image), "entry", "what it was not lent must stay");
    must(same_but(&output, 4), "entry", "bytes outside the result must stay");
    keep(&output);
    return number;
}
