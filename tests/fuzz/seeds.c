/* Writes inputs to start from: for an image file it as an image, its record and words, those some instructions on, and some with a dead gate; else numbers for made ones, and edits to some. */
#include <stdio.h>
#include <stdlib.h>
#include <string.h>

#include "fuzz.h"

enum { FILE_BYTES = ZENKORV_LONGEST_IMAGE + 64, MADE = 256 };

static uint8_t bytes[FILE_BYTES];
static uint8_t held[RECORD];
static uint32_t memory[WORDS];

static void put(FILE *file, const void *from, size_t length)
{
    if (fwrite(from, 1, length, file) != length)
        exit(1);
}

/* Lengths of record, words and output: exact, longer, shorter. */
static const uint8_t choices[8][3] = { { 0, 0, 0 }, { 165, 0, 0 }, { 210, 0, 0 }, { 0, 165, 0 }, { 0, 210, 0 }, { 0, 0, 165 }, { 0, 0, 210 }, { 0, 0, 242 } };

/* A header whose slices run on. */
static FILE *begin(const char *folder, const char *name, const char *kind, enum mode mode, unsigned seed)
{
    char path[4096];
    uint8_t header[HEADER] = { 0 };
    snprintf(path, sizeof path, "%s/%s.%s", folder, name, kind);
    FILE *file = fopen(path, "wb");
    if (file == NULL)
        exit(1);
    header[0] = (uint8_t)mode;
    memcpy(header + 1, choices[seed % 8], 3);
    put16(header + 4, 20 + seed % 200);
    header[9] = (uint8_t)(seed % 4 << 5);
    put16(header + 10, seed);
    for (unsigned k = 0; k < SLICES; k++) {
        header[PARAMETERS + SLICE * k] = (uint8_t)(seed + k);
        header[PARAMETERS + SLICE * k + 1] = (uint8_t)(1 + 3 * k);
    }
    put(file, header, HEADER);
    return file;
}

static void write_record(const char *folder, const char *name, const char *kind, unsigned seed)
{
    FILE *file = begin(folder, name, kind, RECORD_BYTES, seed);
    put(file, held, RECORD);
    put(file, memory, 4 * words_in_use(held));
    fclose(file);
}

/* The image with a word more said in its last segment: where all words are in use, too many. */
static void write_longer(const char *folder, const char *name, size_t length)
{
    unsigned last = held[SEGMENTS] - 1u;
    uint8_t *at = bytes + segment_at(held, last);
    FILE *file = begin(folder, name, "longer", IMAGE, 0);
    put16(at, get16(at) + 4);
    put(file, bytes, length);
    fclose(file);
}

/* A segment with gates, or else segment 0. */
static unsigned gate_segment(void)
{
    unsigned s = held[SEGMENTS] - 1u;
    while (s > 0 && get16(held + GATES + 2 * s) == 0)
        s--;
    return s;
}

/* The image with E taken from a gate's domain, the same with a byte more, and its record. All is put back. */
static void write_dead(const char *folder, const char *name, size_t length)
{
    unsigned segment = gate_segment();
    unsigned domain = held[GATE_DOMAINS + segment];
    uint8_t *in_image = bytes + rights_at(held, domain, segment);
    uint8_t *in_record = held + RIGHTS + 16 * domain + segment;
    uint8_t rights = *in_record;
    *in_image = *in_record = rights & ALL_BUT_E;
    for (unsigned more = 0; more < 2; more++) {
        FILE *file = begin(folder, name, more == 0 ? "dead" : "dead_and_one", IMAGE, 0);
        put(file, bytes, length + more);
        fclose(file);
    }
    write_record(folder, name, "dead_record", 0);
    *in_image = *in_record = rights;
}

static void of_image(const char *folder, const char *name, size_t length)
{
    FILE *file = begin(folder, name, "image", IMAGE, 0);
    put(file, bytes, length);
    fclose(file);
    if (zenkorv_read(bytes, length, held, RECORD, memory, WORDS) != 0)
        return;
    write_dead(folder, name, length);
    write_longer(folder, name, length);
    write_record(folder, name, "record", 0);
    for (unsigned k = 1; k <= 4; k++) {
        char kind[16];
        snprintf(kind, sizeof kind, "later%u", k);
        zenkorv_stretch(held, RECORD, memory, WORDS, 30);
        write_record(folder, name, kind, 8 * k);
    }
}

static void of_numbers(const char *folder)
{
    for (unsigned seed = 0; seed < MADE; seed++) {
        char name[16];
        snprintf(name, sizeof name, "made%u", seed);
        fclose(begin(folder, name, "image", EDITED_IMAGE, seed));
        fclose(begin(folder, name, "record", EDITED_RECORD, seed));
    }
}

/* Made records with a 2 in one byte after the layout, which no flag may be: one for each. */
static void of_edits(const char *folder)
{
    for (unsigned at = REGISTERS; at < RECORD; at++) {
        char name[16];
        uint8_t edit[EDIT] = { 0, 0, 2 };
        snprintf(name, sizeof name, "edited%u", at);
        FILE *file = begin(folder, name, "record", EDITED_RECORD, 4 * at + 1);
        put16(edit, at);
        put(file, edit, EDIT);
        fclose(file);
    }
}

int main(int count, char **arguments)
{
    if (count < 2)
        return 2;
    of_numbers(arguments[1]);
    of_edits(arguments[1]);
    for (int k = 2; k < count; k++) {
        const char *slash = strrchr(arguments[k], '/');
        FILE *file = fopen(arguments[k], "rb");
        if (file == NULL)
            return 1;
        size_t length = fread(bytes, 1, sizeof bytes, file);
        fclose(file);
        of_image(arguments[1], slash == NULL ? arguments[k] : slash + 1, length);
    }
    return 0;
}
