/* Numbers that depend on the input's seed alone. */
#include <string.h>

#include "fuzz.h"

static uint32_t state = 1;

void seed_draws(uint32_t seed)
{
    state = seed * 2654435761u + 1;
    if (state == 0)
        state = 1;
}

uint32_t draw(void)
{
    state ^= state << 13;
    state ^= state >> 17;
    state ^= state << 5;
    return state;
}

uint32_t below(uint32_t n)
{
    return (draw() >> 8) % n;
}

bool one_in(uint32_t n)
{
    return below(n) == 0;
}

void fill(struct lent *l)
{
    for (size_t i = 0; i < l->size; i += 4) {
        uint32_t drawn = draw();
        memcpy(l->room + i, &drawn, 4);
    }
    keep(l);
}
