/* What the bytes of a record say that is sound, but for a dead gate. */
#include <string.h>

#include "capabilities.h"
#include "fuzz.h"

unsigned get16(const uint8_t *at)
{
    return at[0] + 256u * at[1];
}

void put16(uint8_t *at, unsigned value)
{
    at[0] = (uint8_t)value;
    at[1] = (uint8_t)(value >> 8);
}

unsigned base_of(const uint8_t *bytes, unsigned segment)
{
    unsigned sum = 0;
    for (unsigned s = 0; s < segment; s++)
        sum += get16(bytes + LENGTHS + 2 * s);
    return sum;
}

unsigned words_in_use(const uint8_t *bytes)
{
    return base_of(bytes, 16);
}

/* Where the image of a record has a segment's chunk; for the number of segments, the first domain's. */
size_t segment_at(const uint8_t *bytes, unsigned segment)
{
    return 12 + 8 * segment + 4 * base_of(bytes, segment);
}

/* Where it has a domain's rights on a segment. */
size_t rights_at(const uint8_t *bytes, unsigned domain, unsigned segment)
{
    return segment_at(bytes, bytes[SEGMENTS]) + domain * (5 + bytes[SEGMENTS]) + 5 + segment;
}

/* Kind 1, a kind 2 for each segment, a kind 3 for each domain, kind 4. */
size_t image_length(const uint8_t *bytes)
{
    unsigned segments = bytes[SEGMENTS];
    return 12 + 8 * segments + 4 * words_in_use(bytes) + bytes[DOMAINS] * (5 + segments) + 4;
}

/* A segment has gates, and their domain has no E on it. */
bool has_dead_gate(const uint8_t *bytes)
{
    for (unsigned s = 0; s < bytes[SEGMENTS]; s++)
        if (get16(bytes + GATES + 2 * s) != 0 && (bytes[RIGHTS + 16 * bytes[GATE_DOMAINS + s] + s] & E) == 0)
            return true;
    return false;
}

/* The fresh machine of the layout. */
void restarted(uint8_t *bytes)
{
    uint8_t domain = bytes[START + 3];
    memset(bytes + REGISTERS, 0, RECORD - REGISTERS);
    fresh_registers(bytes);
    memcpy(bytes + LOCATION, bytes + START, 3);
    bytes[EXECUTING] = domain;
    bytes[POINTERS + 4 * 2 + 2] = bytes[STACKS + domain];
}
