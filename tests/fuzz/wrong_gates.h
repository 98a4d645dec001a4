/* The gates of an image or a record, for calls that are wrong about dead ones. */
#ifndef WRONG_GATES_H
#define WRONG_GATES_H

#include <stdbool.h>
#include <stddef.h>
#include <stdint.h>

#include "chunks.h"

/* Ways to see a dead gate: as it is; never; by R; also where the count is 0; by the rights of domain 0; not in the last segment. */
enum way { AS_IT_IS, NEVER, BY_R, WITHOUT_GATES, BY_DOMAIN_0, NOT_THE_LAST };

/* A segment: whether it has gates, their domain, its rights on the segment, and those of domain 0. */
struct gates {
    bool any;
    uint8_t domain;
    uint8_t *rights;
    uint8_t *rights_0;
};

static inline bool is_dead(enum way way, const struct gates *g, bool last)
{
    switch (way) {
    case NEVER: return false;
    case BY_R: return g->any && (*g->rights & 1) == 0;
    case WITHOUT_GATES: return (*g->rights & 4) == 0;
    case BY_DOMAIN_0: return g->any && (*g->rights_0 & 4) == 0;
    case NOT_THE_LAST: return g->any && !last && (*g->rights & 4) == 0;
    default: return g->any && (*g->rights & 4) == 0;
    }
}

static inline bool one_is_dead(enum way way, const struct gates *g, unsigned count)
{
    for (unsigned s = 0; s < count; s++)
        if (is_dead(way, g + s, s + 1 == count))
            return true;
    return false;
}

/* E for all gates: then none is dead. */
static inline void mend(const struct gates *g, unsigned count)
{
    for (unsigned s = 0; s < count; s++)
        if (g[s].any)
            *g[s].rights |= 4;
}

/* Those of a record, and their number; 0 where its numbers of segments or domains are out of range. */
static inline unsigned gates_of_record(uint8_t *record, struct gates *g)
{
    unsigned count = record[220] > 16 ? 0 : record[220];
    for (unsigned s = 0; s < count; s++) {
        uint8_t domain = record[68 + s];
        if (domain >= 8)
            return 0;
        g[s] = (struct gates){ (record[32 + 2 * s] | record[33 + 2 * s]) != 0, domain, record + 92 + 16 * domain + s, record + 92 + s };
    }
    return count;
}

/* Those of an image whose chunks up to the last domain's are all there, and their number; else 0. */
static inline unsigned gates_of_image(uint8_t *image, size_t length, struct gates *g)
{
    unsigned count = length < 6 || image[4] > 16 ? 0 : image[4];
    if (count == 0 || chunk_at(image, length, 1u + count + image[5]) > length)
        return 0;
    for (unsigned s = 0; s < count; s++) {
        uint8_t *segment = image + chunk_at(image, length, 1 + s);
        size_t row = chunk_at(image, length, 1u + count + segment[6]) + 5 + s;
        size_t row_0 = chunk_at(image, length, 1 + count) + 5 + s;
        if (segment[6] >= image[5] || row >= length || row_0 >= length)
            return 0;
        g[s] = (struct gates){ (segment[4] | segment[5]) != 0, segment[6], image + row, image + row_0 };
    }
    return count;
}

#endif
