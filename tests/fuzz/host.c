/* A libFuzzer harness over the calls of a host in C: any bytes as image and record, any words. */
#include <string.h>

#include "capabilities.h"
#include "fuzz.h"

enum { SOUP = 512 };

static uint8_t made[RECORD];
static uint32_t made_memory[WORDS];

static size_t least(size_t a, size_t b)
{
    return a < b ? a : b;
}

/* Lengths as the input chooses them; all bytes and words drawn. */
static void lend_all(const struct input *in)
{
    seed_draws(in->seed);
    lend(&record, chosen_length(in->record_choice, RECORD));
    lend(&words, 4 * chosen_length(in->words_choice, WORDS));
    lend(&output, chosen_length(in->output_choice, 4));
    lend(&image, 0);
    fill(&record);
    fill(&words);
    fill(&output);
    fill(&image);
}

/* An output about as long as the record's image. */
static void lend_output(const struct input *in)
{
    size_t needed = record.length < RECORD ? ZENKORV_LONGEST_IMAGE : image_length(record.at);
    lend(&output, chosen_length(in->output_choice, least(needed, ZENKORV_LONGEST_IMAGE)));
}

/* An output about as long as the shortest log. */
static void lend_log(const struct input *in)
{
    lend(&output, chosen_length(in->output_choice, LOG_BYTES));
}

/* One byte of the record, or of the words after it. */
static void edit(const uint8_t *place, uint8_t value)
{
    size_t offset = get16(place);
    if (offset < record.length)
        record.at[offset] = value;
    else if (offset - record.length < words.length)
        words.at[offset - record.length] = value;
}

static void slice_log(const struct input *in)
{
    lend_log(in);
    log_is_stretches();
    lend_output(in);
}

static void one_slice(const struct input *in, uint8_t call, uint8_t limit, uint8_t value)
{
    switch (call % 10) {
    case 0: run(limit); break;
    case 1: stretch(limit); break;
    case 2: step(); break;
    case 3: run_is_steps((uint16_t)(1 + limit % 8)); break;
    case 4: stretch_is_run(limit); break;
    case 5: segment_part(value % 20); break;
    case 6: check(value & 1, value & 2, value >> 4, limit); break;
    case 7: slice_log(in); break;
    case 8: registers_do_not_matter(limit); break;
    default: write_image(); break;
    }
}

/* Calls; after some of them a byte is changed. */
static void slices(const struct input *in)
{
    for (unsigned k = 0; k < SLICES; k++) {
        const uint8_t *slice = in->slices + SLICE * k;
        one_slice(in, slice[0], slice[1], slice[2]);
        if (slice[3] % 4 == 1)
            edit(slice + 4, slice[2]);
        keep(&record);
        keep(&words);
    }
}

static void look(const struct input *in)
{
    segment_part(in->segment);
    segment_part(in->segment % 8);
    check(in->flags & 1, in->flags & 2, in->segment, in->word);
    for (unsigned k = 0; k < 4; k++)
        check((uint8_t)below(2), (uint8_t)below(2), (uint8_t)below(6), (uint16_t)below(12));
}

static void every_call(const struct input *in)
{
    bool accepted = run(0) >> 24 != REFUSED;
    count_record(accepted);
    look(in);
    run_is_steps((uint16_t)(1 + in->limit % 8));
    registers_do_not_matter(in->limit);
    stretch_is_run(in->limit);
    lend_log(in);
    log_is_stretches();
    lend_output(in);
    if (accepted) {
        dead_record_refused(below(record.at[SEGMENTS]));
        registers_are_judged();
        slices(in);
        run(in->limit);
        look(in);
    }
    write_reads_back();
    restart();
}

static void try_image(const struct input *in)
{
    uint8_t number = read_image();
    count_image(number == 0);
    if (number == 0) {
        entry_is_run(in->limit);
        read_writes_back();
        gates_need_e(below(record.at[SEGMENTS]));
        neighbours_refused(BYTES_LEFT);
    } else {
        entry_is_refused(in->limit, number);
    }
    if (number == DEAD_GATE)
        dead_gates_mended();
    every_call(in);
}

static void image_mode(const struct input *in)
{
    lend(&image, in->rest_length);
    memcpy(image.at, in->rest, in->rest_length);
    keep(&image);
    try_image(in);
}

/* A record's bytes, zeros and fresh registers where they are fewer; then words, or a soup of instructions. */
static void record_mode(const struct input *in)
{
    size_t given = least(in->rest_length, RECORD);
    size_t more = least(in->rest_length - given, words.length);
    memset(record.at, 0, record.length);
    if (record.length >= RECORD)
        fresh_registers(record.at);
    memcpy(record.at, in->rest, least(given, record.length));
    if (more == 0)
        made_soup((uint32_t *)(void *)words.at, least(words.length / 4, SOUP));
    memcpy(words.at, in->rest + given, more);
    keep(&record);
    keep(&words);
    every_call(in);
}

/* Only a dead gate keeps a made image from being read. */
static void made_is_read(void)
{
    bool dead = has_dead_gate(made);
    must(read_image() == (dead ? DEAD_GATE : 0), "read", "a made image must be accepted, or refused with 10 for a dead gate");
    if (dead)
        return;
    must(memcmp(record.at, made, RECORD) == 0, "read", "a made image must give its record");
    must(memcmp(words.at, made_memory, 4 * words_in_use(made)) == 0, "read", "a made image must give its words");
}

static void edited_image_mode(const struct input *in)
{
    made_layout(made);
    made_words(made, made_memory);
    lend(&image, image_length(made));
    must(made_image(made, made_memory, image.at) == image.length, "read", "a made image must have its length");
    for (size_t k = 0; k < in->edits; k++)
        image.at[get16(in->rest + EDIT * k) % image.length] = in->rest[EDIT * k + 2];
    keep(&image);
    if (in->edits == 0 && record.length >= RECORD && words.length >= 4 * WORDS)
        made_is_read();
    try_image(in);
}

static void edited_record_mode(const struct input *in)
{
    made_layout(made);
    made_state(made);
    made_words(made, made_memory);
    memcpy(record.at, made, least(RECORD, record.length));
    memcpy(words.at, made_memory, least(4 * words_in_use(made), words.length));
    for (size_t k = 0; k < in->edits; k++)
        edit(in->rest + EDIT * k, in->rest[EDIT * k + 2]);
    keep(&record);
    keep(&words);
    if (in->edits == 0 && record.length >= RECORD && words.length >= 4 * WORDS)
        must(run(0) == (has_dead_gate(made) ? 0x4090000 : 0x2000000), "run", "a made record must be accepted, or refused for a dead gate");
    every_call(in);
}

int LLVMFuzzerTestOneInput(const uint8_t *data, size_t size)
{
    if (image.room == NULL)
        make_rooms();
    if (size < HEADER || size - HEADER > image.size)
        return 0;
    struct input in = input_of(data, size);
    count_input(in.mode);
    lend_all(&in);
    switch (in.mode) {
    case IMAGE: image_mode(&in); break;
    case RECORD_BYTES: record_mode(&in); break;
    case EDITED_IMAGE: edited_image_mode(&in); break;
    default: edited_record_mode(&in); break;
    }
    return 0;
}
