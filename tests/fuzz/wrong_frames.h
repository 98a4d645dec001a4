/* A machine whose calls through gates make wrong frames, or whose registers are renewed in the wrong way: all its calls are made of single steps. */
#ifndef WRONG_FRAMES_H
#define WRONG_FRAMES_H

#include <stdbool.h>
#include <stddef.h>
#include <stdint.h>
#include <string.h>

#include "wrong_recent.h"
#include "zenkorv.h"

enum { RECORD_LENGTH = ZENKORV_RECORD_BYTES };

/* Wrong frames: the list's source is the caller, or that of the last capability that covers it; the list is lent to be written
   too, is a word short, or need not be covered; arguments are lent to be written too; s loses its tag.
   Wrong registers: in place of an entry another frame's register rises, or one matches where the live frame has no match; a return
   does not clear, clears but keeps all numbers, or turns the cleared ones round; a fault renews; a list is entered that may not be,
   or never; a match does not rise; an entry goes to the lowest empty register; arguments that are passed on renew. */
enum slip {
    NO_SLIP, CALLER_AS_SOURCE, LAST_AS_SOURCE, LIST_WITH_W, WORD_SHORT, NOT_COVERED, ARGUMENTS_WITH_W, S_UNTAGGED,
    OTHER_RISES, OTHER_MATCHES, NOT_CLEARED, NUMBERS_KEPT, TURNED_ROUND, RENEWED_AT_FAULT, ENTERED_ANYWAY, LIST_LEFT_OUT, MATCH_STAYS, LOWEST_EMPTY,
    RENEWED_BY_ARGUMENTS
};

struct machine {
    enum slip slip;
    uint8_t *record;
    size_t record_length;
    uint32_t *words;
    size_t word_count;
};

uint8_t __real_zenkorv_read(const uint8_t *image, size_t image_length, uint8_t *record, size_t record_length, uint32_t *words, size_t word_count);
uint32_t __real_zenkorv_run(uint8_t *record, size_t record_length, uint32_t *words, size_t word_count, uint16_t limit);
uint16_t __real_zenkorv_step(uint8_t *record, size_t record_length, uint32_t *words, size_t word_count);

/* The newest of so many frames. */
static inline size_t frame_at(unsigned depth)
{
    return 263 + 82 * (depth - 1);
}

/* Gives a list at a tagged a the source of the last capability that covers it. */
static inline void take_last_source(const uint8_t *before, uint8_t *list)
{
    const uint8_t *frame = newest_frame(before);
    for (unsigned k = 0; k < frame[0]; k++)
        if (covers(capability(frame, k), list))
            list[5] = capability(frame, k)[5];
}

static inline void spoil_frame(enum slip slip, const uint8_t *before, uint8_t *frame)
{
    uint8_t *list = frame + 1 + 8 * (frame[0] - 1);
    if (slip == CALLER_AS_SOURCE)
        list[5] = before[229];
    if (slip == LAST_AS_SOURCE && before[233] == 1)
        take_last_source(before, list);
    if (slip == LIST_WITH_W)
        list[7] = 1;
    if (slip == WORD_SHORT)
        list[2] -= 1;
    for (uint8_t *c = frame + 1; slip == ARGUMENTS_WITH_W && c < list; c += 8)
        c[7] = 1;
    if (slip == S_UNTAGGED)
        frame[76] = 0;
}

/* After a call: its list is entered as the spoiled frame has it, or left out, or entered anyway. */
static inline void spoil_call(enum slip slip, const uint8_t *before, uint8_t *record)
{
    spoil_frame(slip, before, record + frame_at(record[262]));
    if (slip < OTHER_RISES || slip == ENTERED_ANYWAY || slip == LIST_LEFT_OUT)
        leave_out_list(before, record);
    if (slip < OTHER_RISES || slip == ENTERED_ANYWAY)
        enter_list(record, slip == ENTERED_ANYWAY);
    if (slip == RENEWED_BY_ARGUMENTS)
        rise_by_arguments(record);
}

/* After a return. */
static inline void spoil_return(enum slip slip, const uint8_t *before, uint8_t *record)
{
    if (slip == NOT_CLEARED)
        take_registers(record, before);
    if (slip == NUMBERS_KEPT)
        keep_numbers(before, record);
    if (slip == TURNED_ROUND)
        turn_round(before, record);
}

/* After another completed step. */
static inline void spoil_renewal(enum slip slip, const uint8_t *before, uint8_t *record)
{
    if (slip == OTHER_RISES)
        rise_in_place(before, record);
    if (slip == LOWEST_EMPTY)
        enter_lowest(before, record);
    if (slip == MATCH_STAYS && newly_entered(before, record) == RECENT_ROWS)
        take_registers(record, before);
}

/* After a step that gave 24: the same with a capability for all words from a on, which is taken back. Only a call, which writes no word, is completed so. */
static inline uint16_t step_with_list(const struct machine *m)
{
    static uint32_t copy[8192];
    uint8_t before[RECORD_LENGTH];
    memcpy(copy, m->words, sizeof copy);
    memcpy(before, m->record, RECORD_LENGTH);
    size_t at = frame_at(before[262]);
    if (before[262] == 0 || before[233] == 0 || before[at] == 9)
        return 24;
    uint8_t *frame = m->record + at;
    unsigned length = 4096 - first_word(before + 230);
    const uint8_t all[] = { before[230], before[231], (uint8_t)length, (uint8_t)(length >> 8), before[232], before[229], 1, 0 };
    memcpy(frame + 1 + 8 * frame[0], all, 8);
    frame[0]++;
    __real_zenkorv_step(m->record, m->record_length, copy, 8192);
    if (m->record[262] > before[262]) {
        memcpy(frame, before + at, 82);
        take_registers(m->record, before);
        enter_list(m->record, false);
        return 0;
    }
    memcpy(m->record, before, RECORD_LENGTH);
    return 24;
}

/* After a step that gave 24: the same with what the registers have of other frames in the live one, which is taken back. A crossing is not completed so. */
static inline uint16_t step_with_others(const struct machine *m)
{
    uint8_t before[RECORD_LENGTH];
    memcpy(before, m->record, RECORD_LENGTH);
    if (before[262] == 0)
        return 24;
    uint8_t *frame = m->record + frame_at(before[262]);
    for (unsigned k = 0; k < RECENT_ROWS && frame[0] < 9; k++)
        if (row_of(before, k)[OF_FRAME] != 0 && row_of(before, k)[OF_FRAME] != before[262])
            memcpy(frame + 1 + 8 * frame[0]++, row_of(before, k), 8);
    uint16_t code = __real_zenkorv_step(m->record, m->record_length, m->words, m->word_count);
    if (code != 0 || m->record[262] != before[262]) {
        memcpy(m->record, before, RECORD_LENGTH);
        return 24;
    }
    memcpy(frame, before + frame_at(before[262]), 82);
    take_registers(m->record, before);
    return 0;
}

static inline uint16_t wrong_step(const struct machine *m)
{
    uint8_t before[RECORD_LENGTH];
    memcpy(before, m->record, m->record_length < RECORD_LENGTH ? m->record_length : RECORD_LENGTH);
    uint16_t code = __real_zenkorv_step(m->record, m->record_length, m->words, m->word_count);
    if (m->slip == NOT_COVERED && code == 24)
        return step_with_list(m);
    if (m->slip == OTHER_MATCHES && code == 24)
        return step_with_others(m);
    if (m->slip == RENEWED_AT_FAULT && 21 <= code && code <= 32)
        rise_at_fault(m->record);
    if (code == 0 && m->record[262] > before[262])
        spoil_call(m->slip, before, m->record);
    else if (code == 0 && m->record[262] < before[262])
        spoil_return(m->slip, before, m->record);
    else if (code == 0)
        spoil_renewal(m->slip, before, m->record);
    return code;
}

/* A run, or a stretch, which ends at a crossing. */
static inline uint32_t run_of_steps(const struct machine *m, uint16_t limit, bool stretch)
{
    uint32_t code = __real_zenkorv_run(m->record, m->record_length, m->words, m->word_count, 0);
    if (code >> 24 == 4)
        return code;
    for (uint32_t count = 1; count <= limit; count++) {
        uint8_t depth = m->record[262];
        uint16_t step = wrong_step(m);
        if ((step & 0xFF) != 0)
            return 0x1000000 + step * 0x10000u + count - 1;
        if (step == 256)
            return count;
        if (stretch && m->record[262] != depth)
            return 0x3000000 + count;
    }
    return 0x2000000 + limit;
}

/* The log is long enough. */
static inline uint32_t log_of_steps(const struct machine *m, uint8_t *log, uint16_t *calls, uint16_t *returns)
{
    const uint8_t *record = m->record;
    uint32_t code = 0x3000000;
    uint32_t count = 0;
    *calls = *returns = 0;
    while (code >> 24 == 3) {
        uint8_t depth = record[262];
        uint8_t left = record[229];
        code = run_of_steps(m, (uint16_t)(1000 - count), true);
        count += code & 0xFFFF;
        if (code >> 24 != 3)
            break;
        const uint8_t crossing[] = { record[262] < depth, left, record[229], record[228], record[226], record[227] };
        memcpy(log, crossing, 6);
        log += 6;
        *(record[262] > depth ? calls : returns) += 1;
    }
    return (code & 0xFFFF0000) + count;
}

/* The result is long enough. */
static inline uint8_t entry_of_steps(enum slip slip, const uint8_t *image, size_t image_length, uint16_t limit, uint8_t *result)
{
    static uint8_t record[RECORD_LENGTH];
    static uint32_t words[8192];
    const struct machine m = { slip, record, RECORD_LENGTH, words, 8192 };
    uint8_t number = __real_zenkorv_read(image, image_length, record, RECORD_LENGTH, words, 8192);
    if (number != 0)
        return number;
    uint32_t code = run_of_steps(&m, limit, false);
    const uint8_t told[] = { (uint8_t)(code >> 24), (uint8_t)(code >> 16), (uint8_t)code, (uint8_t)(code >> 8) };
    memcpy(result, told, 4);
    return 0;
}

#endif
