/* Checks what each call does on a machine that the host keeps. */
#include "lent.h"

/* The images of first_package.zk (a gate call that returns), loop.zk, trick_address.zk (fault 25 in a called domain) and
   handed_on_list.zk (a relay calls with a list that it was handed). */
static struct image package, loop, trick, relay;

/* Slices that are longer than asked for: what lies behind stays. */
static void check_longer(void)
{
    enum { ALL_WORDS = 27 };
    struct machine m = lend(RECORD + SPARE, WORDS + SPARE);
    expect(read_into(m, package.bytes, package.length) == ZENKORV_OK, "longer", "read is refused");
    expect(run(m, HIGHEST) == answer(ZENKORV_HALTED, 0, 13), "longer", "run has another answer");
    expect(restart(m) == ZENKORV_OK, "longer", "restart is refused");
    expect(all_filled(m.record + RECORD, SPARE), "longer", "bytes behind the record have changed");
    size_t behind = (WORDS + SPARE - ALL_WORDS) * sizeof(uint32_t);
    expect(all_filled(m.words + ALL_WORDS, behind), "longer", "words behind the segments have changed");
    give_back(m);
}

/* Run in slices, by stretches and by steps, a machine ends as one that is run at once. */
static void check_runs(struct machine at_once)
{
    struct machine m = loaded(&package);
    expect(run(m, 0) == answer(ZENKORV_SPENT, 0, 0), "run", "limit 0");
    expect(run(m, 5) == answer(ZENKORV_SPENT, 0, 5), "run", "the first slice");
    expect(run(m, 5) == answer(ZENKORV_SPENT, 0, 5), "run", "the second slice");
    expect(run(m, 5) == answer(ZENKORV_HALTED, 0, 3), "run", "the third slice");
    expect(run(m, 5) == answer(ZENKORV_HALTED, 0, 1), "run", "HALT again");
    expect(same(m, at_once), "run", "another machine");
    give_back(m);
}

static void check_stretches(struct machine at_once)
{
    struct machine m = loaded(&package);
    expect(stretch(m, 1) == answer(ZENKORV_SPENT, 0, 1), "stretch", "spent before the call");
    expect(stretch(m, HIGHEST) == answer(ZENKORV_CROSSED, 0, 1), "stretch", "the call");
    expect(m.record[ZENKORV_AT_DOMAIN] == 1 && m.record[ZENKORV_AT_FRAMES_IN_USE] == 1, "stretch", "not in the package");
    expect(stretch(m, HIGHEST) == answer(ZENKORV_CROSSED, 0, 9), "stretch", "the return");
    expect(stretch(m, HIGHEST) == answer(ZENKORV_HALTED, 0, 2), "stretch", "the end");
    expect(same(m, at_once), "stretch", "another machine");
    give_back(m);
}

static void check_steps(struct machine at_once)
{
    struct machine m = loaded(&package);
    for (int i = 1; i <= 12; i++)
        expect(step(m) == 0, "step", "not completed");
    uint16_t last = step(m);
    expect(ZENKORV_STEP_NUMBER(last) == 0 && ZENKORV_STEP_HALTED(last) == 1, "step", "HALT");
    expect(same(m, at_once), "step", "another machine");
    give_back(m);
}

/* The places in the record, after a run that leaves 42 in A, and word 3 of segment 0 as the location. */
static void check_places(struct machine m)
{
    static const uint8_t registers[] = {42, 0, 0, 0, 3, 0, 0, 0};
    expect(memcmp(m.record + ZENKORV_AT_A, registers, sizeof registers) == 0, "places", "registers");
    expect(ZENKORV_AT_A + 4 == ZENKORV_AT_WORD && m.record[ZENKORV_AT_SEGMENT] == 0, "places", "location");
    expect(m.record[ZENKORV_AT_SEGMENTS] == 4 && m.record[ZENKORV_AT_DOMAINS] == 2, "places", "segments and domains");
    const uint8_t *b = m.record + ZENKORV_AT_POINTERS + 2 * ZENKORV_POINTER_BYTES;
    expect(b[0] == 0 && b[1] == 0 && b[2] == 1 && b[3] == 0, "places", "b is not at word 0 of segment 1");
    expect(m.record[ZENKORV_AT_POINTERS + 3] == 1, "places", "a is not tagged");
    expect(ZENKORV_AT_FRAMES + 8 * ZENKORV_FRAME_BYTES == ZENKORV_AT_RECENT, "places", "frames");
    expect(ZENKORV_AT_RECENT + ZENKORV_RECENT_REGISTERS * ZENKORV_RECENT_BYTES == RECORD, "places", "recent capabilities");
}

static uint8_t *recent(struct machine m, unsigned number)
{
    return m.record + ZENKORV_AT_RECENT + number * ZENKORV_RECENT_BYTES;
}

/* Empties the registers of recent capabilities, as they are in a fresh machine. */
static void forget(struct machine m)
{
    for (uint8_t k = 0; k < ZENKORV_RECENT_REGISTERS; k++) {
        memset(recent(m, k), 0, ZENKORV_RECENT_BYTES);
        recent(m, k)[ZENKORV_RECENT_AT_RECENCY] = k;
    }
}

static int same_recent(struct machine m, struct machine n)
{
    return memcmp(recent(m, 0), recent(n, 0), RECORD - ZENKORV_AT_RECENT) == 0;
}

static int holds(struct machine m, unsigned number, const uint8_t *wanted)
{
    return memcmp(recent(m, number), wanted, ZENKORV_RECENT_BYTES) == 0;
}

/* In the package of first_package: the call enters the list, words 5 to 11 of segment 1; reading the first argument, words
   1 to 3, enters it, and reading it again changes no register. */
static void check_entered(struct machine m)
{
    static const uint8_t list[] = {5, 0, 7, 0, 1, 0, 1, 0, 1, 15};
    static const uint8_t list_before[] = {5, 0, 7, 0, 1, 0, 1, 0, 1, 14};
    static const uint8_t numbers[] = {1, 0, 3, 0, 1, 0, 1, 0, 1, 15};
    expect(stretch(m, HIGHEST) == answer(ZENKORV_CROSSED, 0, 2) && holds(m, 0, list), "recent", "the list");
    expect(run(m, 2) == answer(ZENKORV_SPENT, 0, 2), "recent", "the first argument is not read");
    expect(holds(m, 1, numbers) && holds(m, 0, list_before), "recent", "the first argument");
    struct machine before = copy_of(m);
    expect(run(m, 2) == answer(ZENKORV_SPENT, 0, 2) && same_recent(m, before), "recent", "read again");
    give_back(before);
}

/* The return empties the registers of its frame: the first argument's is replaced next, then that of the second, then the
   list's, for the list was read last. */
static void check_cleared(struct machine m)
{
    static const uint8_t order[] = {2, 0, 1};
    uint8_t wanted[ZENKORV_RECENT_BYTES] = {0};
    expect(stretch(m, HIGHEST) == answer(ZENKORV_CROSSED, 0, 5), "recent", "the return");
    for (uint8_t k = 0; k < ZENKORV_RECENT_REGISTERS; k++) {
        wanted[ZENKORV_RECENT_AT_RECENCY] = k < sizeof order ? order[k] : k;
        expect(holds(m, k, wanted), "recent", "after the return");
    }
}

/* The registers change no answer: a machine without them ends as one with them. */
static void check_recent(void)
{
    struct machine m = loaded(&package);
    check_entered(m);
    struct machine without = copy_of(m);
    forget(without);
    check_cleared(m);
    expect(run(m, HIGHEST) == answer(ZENKORV_HALTED, 0, 2), "recent", "the end");
    expect(run(without, HIGHEST) == answer(ZENKORV_HALTED, 0, 7), "recent", "the end without registers");
    forget(m);
    forget(without);
    expect(same(m, without), "recent", "another machine without registers");
    give_back(without);
    give_back(m);
}

/* A fault leaves record and words as before the instruction; a step and a run from there give it again. */
static void check_faults(void)
{
    struct machine m = loaded(&trick);
    expect(run(m, HIGHEST) == answer(ZENKORV_FAULTED, ZENKORV_SOURCE_FAILS, 3), "fault", "run");
    struct machine before = copy_of(m);
    expect(step(m) == ZENKORV_SOURCE_FAILS, "fault", "step");
    expect(run(m, 1) == answer(ZENKORV_FAULTED, ZENKORV_SOURCE_FAILS, 0), "fault", "run again");
    expect(run(m, 0) == answer(ZENKORV_SPENT, 0, 0), "fault", "limit 0");
    expect(stretch(m, 1) == answer(ZENKORV_FAULTED, ZENKORV_SOURCE_FAILS, 0), "fault", "stretch");
    expect(same(m, before), "fault", "something has changed");
    give_back(before);
    give_back(m);
}

/* The image of a machine that nothing has run is the one that was read; an output that is one byte too short stays. */
static void check_write(void)
{
    struct machine m = loaded(&package);
    struct machine before = copy_of(m);
    uint8_t *output = filled(package.length + SPARE);
    uint8_t *exact = filled(package.length);
    uint32_t r = write_to(m, output, package.length - 1);
    expect(ZENKORV_REFUSED(r) && ZENKORV_REFUSAL(r) == ZENKORV_OUTPUT_TOO_SHORT, "write", "too short");
    expect(all_filled(output, package.length + SPARE), "write", "too short, and written");
    expect(write_to(m, output, package.length + SPARE) == package.length, "write", "another length");
    expect(memcmp(output, package.bytes, package.length) == 0, "write", "another image");
    expect(all_filled(output + package.length, SPARE), "write", "bytes behind the image have changed");
    expect(write_to(m, exact, package.length) == package.length, "write", "just long enough");
    expect(memcmp(output, exact, package.length) == 0, "write", "another image, just long enough");
    expect(same(m, before), "write", "the machine has changed");
    free(output);
    free(exact);
    give_back(before);
    give_back(m);
}

/* The image of a machine in the middle of a run has its words, and reads back as a fresh machine. */
static void check_write_between(void)
{
    struct machine m = loaded(&loop);
    struct machine back = lend(RECORD, WORDS);
    static uint8_t output[ZENKORV_LONGEST_IMAGE];
    expect(run(m, 20) == answer(ZENKORV_SPENT, 0, 20), "write between", "run");
    uint32_t length = write_to(m, output, sizeof output);
    expect(length == loop.length, "write between", "another length");
    expect(read_into(back, output, length) == ZENKORV_OK, "write between", "not accepted");
    expect(same_words(m, back) && !same(m, back), "write between", "other words, or the same record");
    expect(restart(m) == ZENKORV_OK && same(m, back), "write between", "not the fresh machine");
    give_back(back);
    give_back(m);
}

static void check_one_segment(struct machine m, uint8_t number, uint16_t first, uint16_t count)
{
    uint16_t found_first = FILLED;
    uint16_t found_count = FILLED;
    expect(segment(m, number, &found_first, &found_count) == ZENKORV_OK, "segment", "refused");
    expect(found_first == first && found_count == count, "segment", "another place");
}

static void check_segments(void)
{
    struct machine m = loaded(&package);
    struct machine before = copy_of(m);
    check_one_segment(m, 0, 0, 4);
    check_one_segment(m, 1, 4, 12);
    check_one_segment(m, 2, 16, 9);
    check_one_segment(m, 3, 25, 2);
    uint16_t first = FILLED;
    uint16_t count = FILLED;
    expect(segment(m, 4, &first, &count) == ZENKORV_NO_WORD, "segment", "absent");
    expect(segment(m, 255, &first, &count) == ZENKORV_NO_WORD, "segment", "255");
    expect(first == FILLED && count == FILLED, "segment", "refused, and written");
    expect(same(m, before), "segment", "the machine has changed");
    give_back(before);
    give_back(m);
}

static void check_reference(struct machine m, uint8_t write, uint8_t tag, uint8_t number, uint16_t word, uint32_t wanted)
{
    char name[64];
    snprintf(name, sizeof name, "check %d %d %d|%d", write, tag, number, word);
    expect(check(m, write, tag, number, word) == wanted, name, "another answer");
}

/* In the called domain of trick_address: rights on its own segments 2 (R, E) and 3 (R, W), a word to read, one to write. */
static void check_references(void)
{
    enum { NOT = 0x10000, BASE_1 = 3, BASE_2 = 13, BASE_3 = 16 };
    struct machine m = loaded(&trick);
    check_reference(m, 0, 1, 1, 1, NOT + ZENKORV_NO_MATCH);
    run(m, HIGHEST);
    struct machine before = copy_of(m);
    check_reference(m, 0, 0, 3, 1, BASE_3 + 1);
    check_reference(m, 1, 0, 3, 1, BASE_3 + 1);
    check_reference(m, 255, 0, 2, 2, NOT + ZENKORV_FLAG_MISSING);
    check_reference(m, 0, 0, 2, 2, BASE_2 + 2);
    check_reference(m, 1, 0, 2, 2, NOT + ZENKORV_FLAG_MISSING);
    check_reference(m, 0, 0, 1, 1, NOT + ZENKORV_FLAG_MISSING);
    check_reference(m, 0, 0, 3, 2, NOT + ZENKORV_NO_WORD);
    check_reference(m, 0, 0, 255, 65535, NOT + ZENKORV_NO_WORD);
    check_reference(m, 0, 1, 1, 1, BASE_1 + 1);
    check_reference(m, 0, 255, 1, 1, BASE_1 + 1);
    check_reference(m, 1, 1, 1, 1, NOT + ZENKORV_NO_MATCH);
    check_reference(m, 0, 1, 255, 65535, NOT + ZENKORV_NO_MATCH);
    check_reference(m, 1, 1, 3, 1, NOT + ZENKORV_SOURCE_FAILS);
    expect(same(m, before), "check", "the machine has changed");
    give_back(before);
    give_back(m);
}

/* Where the record has the source of the last capability of the newest frame. */
static uint8_t *last_source(struct machine m)
{
    enum { CAPABILITIES = 1, CAPABILITY_BYTES = 8, AT_SOURCE = 5 };
    uint8_t *frame = m.record + ZENKORV_AT_FRAMES + (m.record[ZENKORV_AT_FRAMES_IN_USE] - 1) * ZENKORV_FRAME_BYTES;
    return frame + CAPABILITIES + (frame[0] - 1) * CAPABILITY_BYTES + AT_SOURCE;
}

/* In the domain that the relay of handed_on_list calls: the list, words 12 to 18 of segment 1, is domain 0's, which made
   it. Were it the relay's, each of its words would give 25; a register that still has it as domain 0's is not sound. */
static void check_handed_on(void)
{
    enum { NOT = 0x10000, BASE_1 = 4 };
    struct machine m = loaded(&relay);
    expect(run(m, 5) == answer(ZENKORV_SPENT, 0, 5), "handed on", "the call of the relay");
    expect(m.record[ZENKORV_AT_DOMAIN] == 2 && m.record[ZENKORV_AT_FRAMES_IN_USE] == 2, "handed on", "not called");
    expect(*last_source(m) == 0, "handed on", "another source");
    for (uint16_t word = 12; word <= 18; word++)
        check_reference(m, 0, 1, 1, word, BASE_1 + word);
    check_reference(m, 0, 1, 1, 19, NOT + ZENKORV_NO_MATCH);
    check_reference(m, 1, 1, 1, 12, NOT + ZENKORV_NO_MATCH);
    struct machine own = copy_of(m);
    *last_source(own) = 1;
    check_reference(own, 0, 1, 1, 12, NOT + ZENKORV_NOT_SOUND);
    forget(own);
    check_reference(own, 0, 1, 1, 12, NOT + ZENKORV_SOURCE_FAILS);
    expect(step(own) == ZENKORV_SOURCE_FAILS, "handed on", "a list of the relay's is read");
    expect(run(m, HIGHEST) == answer(ZENKORV_HALTED, 0, 8), "handed on", "the end");
    expect(m.record[ZENKORV_AT_A] == 22, "handed on", "another answer");
    give_back(own);
    give_back(m);
}

/* A restart gives the record that the image was read into, also out of a called domain; words stay. */
static void check_restart(void)
{
    struct machine fresh = loaded(&trick);
    struct machine m = copy_of(fresh);
    run(m, HIGHEST);
    m.words[0] ^= 1;
    struct machine before = copy_of(m);
    expect(restart(m) == ZENKORV_OK, "restart", "refused");
    expect(memcmp(m.record, fresh.record, RECORD) == 0, "restart", "another record");
    expect(same_words(m, before), "restart", "words have changed");
    give_back(before);
    give_back(m);
    give_back(fresh);
}

/* zenkorv_entry ends as a read and a run do. */
static void check_entry(const char *name, const struct image *image)
{
    uint8_t result[4];
    struct machine m = loaded(image);
    uint32_t r = run(m, 1000);
    expect(zenkorv_entry(image->bytes, image->length, 1000, result, sizeof result) == ZENKORV_OK, name, "entry refused");
    expect(result[0] == ZENKORV_RUN_ENDING(r) && result[1] == ZENKORV_RUN_NUMBER(r), name, "another ending than entry");
    expect(result[2] + 256u * result[3] == ZENKORV_RUN_COUNT(r), name, "another count than entry");
    give_back(m);
}

static void check_names(void)
{
    static const uint8_t unnamed[] = {11, 20, 33, 255};
    for (int number = 0; number <= 32; number++)
        expect((strcmp(zenkorv_name((uint8_t)number), "?") != 0) == (number <= 10 || number >= 21), "name", "of a number");
    for (size_t i = 0; i < sizeof unnamed; i++)
        expect(strcmp(zenkorv_name(unnamed[i]), "?") == 0, "name", "of no number");
}

static void check_all(void)
{
    struct machine at_once = loaded(&package);
    expect(run(at_once, HIGHEST) == answer(ZENKORV_HALTED, 0, 13), "run", "at once");
    check_runs(at_once);
    check_stretches(at_once);
    check_steps(at_once);
    check_places(at_once);
    give_back(at_once);
    check_recent();
    check_longer();
    check_faults();
    check_write();
    check_write_between();
    check_segments();
    check_references();
    check_handed_on();
    check_restart();
    check_entry("first_package", &package);
    check_entry("loop", &loop);
    check_entry("trick_address", &trick);
    check_entry("handed_on_list", &relay);
    check_names();
}

int main(int argc, char **argv)
{
    if (argc != 5) {
        fputs("usage: calls first_package.img loop.img trick_address.img handed_on_list.img\n", stderr);
        return EXIT_FAILURE;
    }
    package.length = image_file(argv[1], package.bytes);
    loop.length = image_file(argv[2], loop.bytes);
    trick.length = image_file(argv[3], trick.bytes);
    relay.length = image_file(argv[4], relay.bytes);
    check_all();
    return told();
}
