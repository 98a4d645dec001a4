/* The input: a header of parameters and slices, then the bytes of an image, of a record and its words, or edits. */
#include "fuzz.h"

/* Any change of the parameters gives other numbers. */
static uint32_t seed_of(const uint8_t *data)
{
    uint32_t seed = 2166136261u;
    for (unsigned k = 0; k < PARAMETERS; k++)
        seed = (seed ^ data[k]) * 16777619u;
    return seed;
}

struct input input_of(const uint8_t *data, size_t size)
{
    struct input in;
    unsigned limit = get16(data + 4);
    in.mode = data[0] % MODES;
    in.record_choice = data[1];
    in.words_choice = data[2];
    in.output_choice = data[3];
    in.limit = (uint16_t)(limit < 0xF000 ? limit % 512 : limit);
    in.segment = data[6];
    in.word = (uint16_t)get16(data + 7);
    in.flags = data[9];
    in.seed = seed_of(data);
    in.slices = data + PARAMETERS;
    in.rest = data + HEADER;
    in.rest_length = size - HEADER;
    in.edits = in.rest_length / EDIT;
    if (in.edits > in.flags >> 5)
        in.edits = in.flags >> 5;
    return in;
}

/* Mostly exact, else a bit longer, a bit shorter, or near 0. */
size_t chosen_length(uint8_t choice, size_t exact)
{
    if (choice < 160)
        return exact;
    if (choice < 208)
        return exact + choice - 159;
    if (choice < 240)
        return exact - (choice - 207u < exact ? choice - 207u : exact);
    return choice - 240u;
}
