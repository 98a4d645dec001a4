/* The capabilities of a record's frames and of its registers, for the harness and for the calls that are wrong. */
#ifndef CAPABILITIES_H
#define CAPABILITIES_H

#include <stdbool.h>
#include <stddef.h>
#include <stdint.h>
#include <string.h>

#include "zenkorv.h"

/* Places in a capability, and after it in a register. */
enum { LENGTH = 2, OF_SEGMENT = 4, SOURCE = 5, READS = 6, WRITES = 7, CAPABILITY = 8, OF_FRAME = ZENKORV_RECENT_AT_FRAME, RECENCY = ZENKORV_RECENT_AT_RECENCY };

/* The registers: where they begin, the bytes of one, how many there are, the bytes of all, and the highest number. */
enum { RECENT = ZENKORV_AT_RECENT, RECENT_ROW = ZENKORV_RECENT_BYTES, RECENT_ROWS = ZENKORV_RECENT_REGISTERS, RECENT_BYTES = RECENT_ROWS * RECENT_ROW, NEWEST = RECENT_ROWS - 1 };

static inline unsigned first_word(const uint8_t *c)
{
    return c[0] + 256u * c[1];
}

static inline unsigned past_last_word(const uint8_t *c)
{
    return first_word(c) + c[LENGTH] + 256u * c[LENGTH + 1];
}

static inline unsigned frames_in_use(const uint8_t *bytes)
{
    return bytes[ZENKORV_AT_FRAMES_IN_USE];
}

/* A frame by its number, 1 for the oldest. */
static inline const uint8_t *frame_of(const uint8_t *bytes, unsigned number)
{
    return bytes + ZENKORV_AT_FRAMES + ZENKORV_FRAME_BYTES * (number - 1);
}

static inline const uint8_t *newest_frame(const uint8_t *bytes)
{
    return frame_of(bytes, frames_in_use(bytes));
}

static inline const uint8_t *capability(const uint8_t *frame, unsigned k)
{
    return frame + 1 + CAPABILITY * k;
}

/* One capability covers all of another, and has all its flags. */
static inline bool covers(const uint8_t *c, const uint8_t *other)
{
    return c[OF_SEGMENT] == other[OF_SEGMENT] && first_word(c) <= first_word(other) && past_last_word(other) <= past_last_word(c) &&
           c[READS] >= other[READS] && c[WRITES] >= other[WRITES];
}

/* The first capability of the live frame that covers another one, or none. */
static inline const uint8_t *first_covering(const uint8_t *bytes, const uint8_t *other)
{
    if (frames_in_use(bytes) == 0)
        return NULL;
    const uint8_t *frame = newest_frame(bytes);
    for (unsigned k = 0; k < frame[0]; k++)
        if (covers(capability(frame, k), other))
            return capability(frame, k);
    return NULL;
}

/* Two capabilities have a word in common; flags don't count. */
static inline bool share_a_word(const uint8_t *c, const uint8_t *other)
{
    return c[OF_SEGMENT] == other[OF_SEGMENT] && first_word(c) < past_last_word(other) && first_word(other) < past_last_word(c);
}

/* A frame's capability may be entered: it shares no word with an earlier one of another source. */
static inline bool may_be_entered(const uint8_t *frame, unsigned k)
{
    const uint8_t *c = capability(frame, k);
    for (unsigned before = 0; before < k; before++)
        if (capability(frame, before)[SOURCE] != c[SOURCE] && share_a_word(capability(frame, before), c))
            return false;
    return true;
}

/* A frame has a capability, and it may be entered. */
static inline bool may_be_held(const uint8_t *frame, const uint8_t *c)
{
    for (unsigned k = 0; k < frame[0]; k++)
        if (memcmp(capability(frame, k), c, CAPABILITY) == 0 && may_be_entered(frame, k))
            return true;
    return false;
}

static inline uint8_t *recent(uint8_t *bytes, unsigned k)
{
    return bytes + RECENT + RECENT_ROW * k;
}

/* The same, to be read. */
static inline const uint8_t *row_of(const uint8_t *bytes, unsigned k)
{
    return bytes + RECENT + RECENT_ROW * k;
}

/* Empty, register k with number k. */
static inline void fresh_registers(uint8_t *bytes)
{
    memset(bytes + RECENT, 0, RECENT_BYTES);
    for (unsigned k = 0; k < RECENT_ROWS; k++)
        recent(bytes, k)[RECENCY] = (uint8_t)k;
}

/* A register is zero but for its number, or has a capability that its frame in use has and that may be entered. */
static inline bool register_is_sound(const uint8_t *bytes, const uint8_t *r)
{
    static const uint8_t empty[RECENCY];
    if (r[OF_FRAME] == 0)
        return memcmp(r, empty, RECENCY) == 0;
    return r[OF_FRAME] <= frames_in_use(bytes) && may_be_held(frame_of(bytes, r[OF_FRAME]), r);
}

/* The numbers are 0 to 15, each once. */
static inline bool numbers_differ(const uint8_t *bytes)
{
    unsigned seen = 0;
    for (unsigned k = 0; k < RECENT_ROWS; k++) {
        uint8_t number = row_of(bytes, k)[RECENCY];
        seen |= number < RECENT_ROWS ? 1u << number : 0;
    }
    return seen == 0xFFFF;
}

/* Of a record that is sound but for its registers: these are sound, too. */
static inline bool registers_are_sound(const uint8_t *bytes)
{
    for (unsigned k = 0; k < RECENT_ROWS; k++)
        if (!register_is_sound(bytes, row_of(bytes, k)))
            return false;
    return numbers_differ(bytes);
}

/* A register gets 15, and every number above its old one falls by one. */
static inline void rise(uint8_t *bytes, unsigned k)
{
    uint8_t old = recent(bytes, k)[RECENCY];
    for (unsigned other = 0; other < RECENT_ROWS; other++)
        recent(bytes, other)[RECENCY] -= recent(bytes, other)[RECENCY] > old;
    recent(bytes, k)[RECENCY] = NEWEST;
}

static inline unsigned register_at_number(const uint8_t *bytes, unsigned number)
{
    unsigned k = 0;
    while (k < NEWEST && row_of(bytes, k)[RECENCY] != number)
        k++;
    return k;
}

static inline void enter_into(uint8_t *bytes, unsigned k, const uint8_t *c, unsigned frame)
{
    memcpy(recent(bytes, k), c, CAPABILITY);
    recent(bytes, k)[OF_FRAME] = (uint8_t)frame;
    rise(bytes, k);
}

/* A new entry replaces the register at 0. */
static inline void enter(uint8_t *bytes, const uint8_t *c, unsigned frame)
{
    enter_into(bytes, register_at_number(bytes, 0), c, frame);
}

/* Numbers from the next one on, in their old order, for the registers of a frame, or for all others. Gives the number after these. */
static inline unsigned renumber(uint8_t *bytes, const uint8_t *old, unsigned frame, bool others, unsigned next)
{
    for (unsigned number = 0; number < RECENT_ROWS; number++) {
        unsigned k = register_at_number(old, number);
        if ((row_of(old, k)[OF_FRAME] != frame) == others)
            recent(bytes, k)[RECENCY] = (uint8_t)next++;
    }
    return next;
}

/* A return empties the registers of its frame; they are the next replaced, in their old order, and all others follow in theirs. */
static inline void clear(uint8_t *bytes, unsigned frame)
{
    uint8_t old[ZENKORV_RECORD_BYTES];
    memcpy(old, bytes, sizeof old);
    renumber(bytes, old, frame, true, renumber(bytes, old, frame, false, 0));
    for (unsigned k = 0; k < RECENT_ROWS; k++)
        if (recent(bytes, k)[OF_FRAME] == frame)
            memset(recent(bytes, k), 0, RECENCY);
}

#endif
