/* Registers that a wrong step renews in the wrong way, from the record before it and the one that the library left. */
#ifndef WRONG_RECENT_H
#define WRONG_RECENT_H

#include <stdbool.h>
#include <stdint.h>
#include <string.h>

#include "capabilities.h"

static inline void take_registers(uint8_t *record, const uint8_t *from)
{
    memcpy(record + RECENT, from + RECENT, RECENT_BYTES);
}

/* A register that has a capability which it had not before, or as many as there are. */
static inline unsigned newly_entered(const uint8_t *before, const uint8_t *record)
{
    unsigned k = 0;
    while (k < RECENT_ROWS && (row_of(record, k)[OF_FRAME] == 0 || memcmp(row_of(record, k), row_of(before, k), RECENCY) == 0))
        k++;
    return k;
}

/* A register of a frame in use, but not of the live one, that covers a capability, or as many as there are. */
static inline unsigned other_covering(const uint8_t *record, const uint8_t *c)
{
    unsigned k = 0;
    while (k < RECENT_ROWS && (row_of(record, k)[OF_FRAME] == 0 || row_of(record, k)[OF_FRAME] == frames_in_use(record) || !covers(row_of(record, k), c)))
        k++;
    return k;
}

/* In place of an entry, a register of another frame that covers it rises. */
static inline void rise_in_place(const uint8_t *before, uint8_t *record)
{
    unsigned entry = newly_entered(before, record);
    unsigned other = entry == RECENT_ROWS ? entry : other_covering(before, row_of(record, entry));
    if (other == RECENT_ROWS)
        return;
    take_registers(record, before);
    rise(record, other);
}

/* An entry goes to the lowest empty register. */
static inline void enter_lowest(const uint8_t *before, uint8_t *record)
{
    uint8_t entered[RECENT_ROW];
    unsigned entry = newly_entered(before, record);
    unsigned empty = 0;
    while (empty < entry && row_of(before, empty)[OF_FRAME] != 0)
        empty++;
    if (entry == RECENT_ROWS || empty == entry)
        return;
    memcpy(entered, row_of(record, entry), RECENT_ROW);
    take_registers(record, before);
    enter_into(record, empty, entered, entered[OF_FRAME]);
}

static inline void keep_numbers(const uint8_t *before, uint8_t *record)
{
    for (unsigned k = 0; k < RECENT_ROWS; k++)
        recent(record, k)[RECENCY] = row_of(before, k)[RECENCY];
}

/* The registers of the frame that was left have the lowest numbers, in their old order: turns them round. */
static inline void turn_round(const uint8_t *before, uint8_t *record)
{
    unsigned count = 0;
    for (unsigned k = 0; k < RECENT_ROWS; k++)
        count += row_of(before, k)[OF_FRAME] == frames_in_use(before);
    for (unsigned k = 0; k < RECENT_ROWS; k++)
        if (recent(record, k)[RECENCY] < count)
            recent(record, k)[RECENCY] = (uint8_t)(count - 1 - recent(record, k)[RECENCY]);
}

/* The lowest register of the live frame rises. */
static inline void rise_at_fault(uint8_t *record)
{
    for (unsigned k = 0; k < RECENT_ROWS; k++)
        if (row_of(record, k)[OF_FRAME] != 0 && row_of(record, k)[OF_FRAME] == frames_in_use(record)) {
            rise(record, k);
            return;
        }
}

/* After a call: each of the caller's registers that covers an argument rises. */
static inline void rise_by_arguments(uint8_t *record)
{
    const uint8_t *frame = newest_frame(record);
    for (unsigned k = 0; k < RECENT_ROWS; k++)
        for (unsigned argument = 0; argument + 1 < frame[0]; argument++)
            if (row_of(record, k)[OF_FRAME] + 1u == frames_in_use(record) && covers(row_of(record, k), capability(frame, argument)))
                rise(record, k);
}

/* After a call: the register that its list was entered into, if it was, gets back what it had, and number 0. */
static inline void leave_out_list(const uint8_t *before, uint8_t *record)
{
    unsigned entry = register_at_number(record, NEWEST);
    if (row_of(record, entry)[OF_FRAME] != frames_in_use(record))
        return;
    for (unsigned k = 0; k < RECENT_ROWS; k++)
        recent(record, k)[RECENCY]++;
    memcpy(recent(record, entry), row_of(before, entry), RECENCY);
    recent(record, entry)[RECENCY] = 0;
}

/* After a call: its list is entered, if it may be, or anyway. */
static inline void enter_list(uint8_t *record, bool anyway)
{
    const uint8_t *frame = newest_frame(record);
    unsigned list = frame[0] - 1u;
    if (anyway || may_be_entered(frame, list))
        enter(record, capability(frame, list), frames_in_use(record));
}

/* Gives a record that is not sound for numbers which are the same, or for registers that may not be entered, others that are. Tells whether it had such ones. */
static inline bool mend_numbers(uint8_t *record)
{
    if (numbers_differ(record))
        return false;
    for (unsigned k = 0; k < RECENT_ROWS; k++)
        recent(record, k)[RECENCY] = (uint8_t)k;
    return true;
}

/* A frame has a capability, and none that is the same may be entered. */
static inline bool may_not_be_held(const uint8_t *frame, const uint8_t *c)
{
    bool has = false;
    if (frame[0] > 9)
        return false;
    for (unsigned k = 0; k < frame[0]; k++)
        has |= memcmp(capability(frame, k), c, CAPABILITY) == 0;
    return has && !may_be_held(frame, c);
}

static inline bool mend_entries(uint8_t *record)
{
    bool mended = false;
    for (unsigned k = 0; k < RECENT_ROWS; k++) {
        uint8_t *r = recent(record, k);
        if (r[OF_FRAME] == 0 || r[OF_FRAME] > 8 || !may_not_be_held(frame_of(record, r[OF_FRAME]), r))
            continue;
        memset(r, 0, RECENCY);
        mended = true;
    }
    return mended;
}

#endif
