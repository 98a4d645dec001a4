/* The chunks of an image, for the harness and for the calls that are wrong. */
#ifndef CHUNKS_H
#define CHUNKS_H

#include <stddef.h>
#include <stdint.h>

/* Where a chunk begins, or past the end where those before it are not all there. */
static inline size_t chunk_at(const uint8_t *image, size_t length, unsigned number)
{
    size_t at = 0;
    for (unsigned k = 0; k < number && at <= length; k++)
        at += at + 4 <= length ? 4u + image[at] + 256u * image[at + 1] : length + 1;
    return at;
}

#endif
