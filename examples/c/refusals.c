/* Checks that a call which is refused gives the number that comes first, and leaves all that it was lent. */
#include "lent.h"

/* The images of first_package.zk and of trick_address.zk. */
static struct image package;
static struct image trick;

/* The number of a refused call, or 0 where it is not told as refused, or leaves something that it was given. */
static uint8_t refusal_of_run(struct machine m)
{
    uint32_t r = run(m, HIGHEST);
    return ZENKORV_RUN_ENDING(r) == ZENKORV_RUN_REFUSED && ZENKORV_RUN_COUNT(r) == 0 ? ZENKORV_RUN_NUMBER(r) : 0;
}

static uint8_t refusal_of_stretch(struct machine m)
{
    uint32_t r = stretch(m, HIGHEST);
    return ZENKORV_RUN_ENDING(r) == ZENKORV_RUN_REFUSED && ZENKORV_RUN_COUNT(r) == 0 ? ZENKORV_RUN_NUMBER(r) : 0;
}

/* The same number with a log that is too short, for that comes last, as with one that is long enough. */
static uint8_t refusal_of_log(struct machine m)
{
    struct crossings shorter = lend_log(ZENKORV_LOG_BYTES - 1);
    struct crossings exact = lend_log(ZENKORV_LOG_BYTES);
    uint32_t r = run_logged(m, &shorter);
    int refused = run_logged(m, &exact) == r && ZENKORV_RUN_ENDING(r) == ZENKORV_RUN_REFUSED && ZENKORV_RUN_COUNT(r) == 0;
    int stay = log_stays(&shorter) && log_stays(&exact);
    free(shorter.log);
    free(exact.log);
    return refused && stay ? ZENKORV_RUN_NUMBER(r) : 0;
}

static uint8_t refusal_of_step(struct machine m)
{
    uint16_t r = step(m);
    return ZENKORV_STEP_HALTED(r) ? 0 : ZENKORV_STEP_NUMBER(r);
}

static uint8_t refusal_of_write(struct machine m)
{
    uint8_t output[SPARE];
    uint8_t before[SPARE];
    memset(output, FILLED, sizeof output);
    memset(before, FILLED, sizeof before);
    uint32_t r = write_to(m, output, sizeof output);
    return ZENKORV_REFUSED(r) && memcmp(output, before, sizeof output) == 0 ? ZENKORV_REFUSAL(r) : 0;
}

static uint8_t refusal_of_segment(struct machine m)
{
    uint16_t first = FILLED;
    uint16_t count = FILLED;
    uint8_t r = segment(m, 16, &first, &count);
    return first == FILLED && count == FILLED ? r : 0;
}

static uint8_t refusal_of_check(struct machine m)
{
    uint32_t r = check(m, 0, 0, 16, 0);
    return ZENKORV_REFUSED(r) ? ZENKORV_REFUSAL(r) : 0;
}

struct call {
    const char *name;
    uint8_t (*refusal)(struct machine m);
    int has_words;
};

static const struct call calls[] = {
    {"run", refusal_of_run, 1},     {"stretch", refusal_of_stretch, 1}, {"log", refusal_of_log, 1},
    {"step", refusal_of_step, 1},   {"write", refusal_of_write, 1},     {"segment", refusal_of_segment, 1},
    {"check", refusal_of_check, 0}, {"restart", restart, 0},
};

/* Each call is refused with the number, and leaves the machine. Of the calls without words, only if they are asked too. */
static void check_all_refuse(const char *name, struct machine m, uint8_t number, int also_without_words)
{
    struct machine before = copy_of(m);
    for (size_t i = 0; i < sizeof calls / sizeof calls[0]; i++) {
        if (!calls[i].has_words && !also_without_words)
            continue;
        expect(calls[i].refusal(m) == number, name, calls[i].name);
        expect(same(m, before), name, "something has changed");
    }
    give_back(before);
    give_back(m);
}

static struct machine with_byte(struct machine from, size_t at, uint8_t byte)
{
    struct machine m = copy_of(from);
    m.record[at] = byte;
    return m;
}

/* Bytes of a sound record, each of which makes it another that is not sound. */
static void check_unsound(struct machine m)
{
    enum { TAG_OF_A = ZENKORV_AT_POINTERS + 3, LENGTH_9 = ZENKORV_AT_LENGTHS + 18 };
    check_all_refuse("a flag of 2", with_byte(m, TAG_OF_A, 2), ZENKORV_NOT_SOUND, 1);
    check_all_refuse("a flag of 255", with_byte(m, TAG_OF_A, 255), ZENKORV_NOT_SOUND, 1);
    check_all_refuse("a free frame", with_byte(m, ZENKORV_AT_FRAMES, 1), ZENKORV_NOT_SOUND, 1);
    check_all_refuse("the last byte", with_byte(m, RECORD - 1, 1), ZENKORV_NOT_SOUND, 1);
    check_all_refuse("an absent segment", with_byte(m, LENGTH_9, 1), ZENKORV_NOT_SOUND, 1);
    check_all_refuse("an absent domain", with_byte(m, ZENKORV_AT_DOMAIN, 2), ZENKORV_NOT_SOUND, 1);
    check_all_refuse("a frame of zeros in use", with_byte(m, ZENKORV_AT_FRAMES_IN_USE, 1), ZENKORV_NOT_SOUND, 1);
    check_all_refuse("nine frames in use", with_byte(m, ZENKORV_AT_FRAMES_IN_USE, 9), ZENKORV_NOT_SOUND, 1);
    check_all_refuse("no segments", with_byte(m, ZENKORV_AT_SEGMENTS, 0), ZENKORV_NOT_SOUND, 1);
}

/* The same in a register of recent capabilities, all of which are empty. */
static void check_unsound_register(struct machine m)
{
    enum { REGISTER_7 = ZENKORV_AT_RECENT + 7 * ZENKORV_RECENT_BYTES };
    enum { FRAME_7 = REGISTER_7 + ZENKORV_RECENT_AT_FRAME, RECENCY_7 = REGISTER_7 + ZENKORV_RECENT_AT_RECENCY };
    check_all_refuse("an empty register", with_byte(m, REGISTER_7, 1), ZENKORV_NOT_SOUND, 1);
    check_all_refuse("a register of no frame", with_byte(m, FRAME_7, 1), ZENKORV_NOT_SOUND, 1);
    check_all_refuse("a recency number twice", with_byte(m, RECENCY_7, 8), ZENKORV_NOT_SOUND, 1);
    check_all_refuse("a recency number of 16", with_byte(m, RECENCY_7, 16), ZENKORV_NOT_SOUND, 1);
}

/* The same where a frame is in use: trick_address is run into the domain that it calls. Register 0 has the list. */
static void check_unsound_frame(void)
{
    enum { CAPABILITY_0 = ZENKORV_AT_FRAMES + 1, CAPABILITY_8 = CAPABILITY_0 + 64, S = ZENKORV_AT_FRAMES + 73 };
    enum { READ_0 = CAPABILITY_0 + 6, TAG_OF_S = S + 3, FRAME_1 = ZENKORV_AT_FRAMES + ZENKORV_FRAME_BYTES };
    enum { FRAME_OF_0 = ZENKORV_AT_RECENT + ZENKORV_RECENT_AT_FRAME };
    struct machine m = loaded(&trick);
    expect(ZENKORV_RUN_ENDING(stretch(m, HIGHEST)) == ZENKORV_CROSSED, "a frame in use", "no crossing");
    expect(m.record[ZENKORV_AT_FRAMES_IN_USE] == 1, "a frame in use", "another number of frames");
    expect(ZENKORV_RUN_ENDING(run(m, 0)) == ZENKORV_SPENT, "a frame in use", "refused");
    check_all_refuse("a read flag of 2", with_byte(m, READ_0, 2), ZENKORV_NOT_SOUND, 1);
    check_all_refuse("the tag of a frame's s of 2", with_byte(m, TAG_OF_S, 2), ZENKORV_NOT_SOUND, 1);
    check_all_refuse("a free capability", with_byte(m, CAPABILITY_8, 1), ZENKORV_NOT_SOUND, 1);
    check_all_refuse("ten capabilities", with_byte(m, ZENKORV_AT_FRAMES, 10), ZENKORV_NOT_SOUND, 1);
    check_all_refuse("a free frame after one in use", with_byte(m, FRAME_1, 1), ZENKORV_NOT_SOUND, 1);
    check_all_refuse("a register with a list a word short", with_byte(m, ZENKORV_AT_RECENT + 2, 6), ZENKORV_NOT_SOUND, 1);
    check_all_refuse("a register of a free frame", with_byte(m, FRAME_OF_0, 2), ZENKORV_NOT_SOUND, 1);
    check_all_refuse("a filled register of no frame", with_byte(m, FRAME_OF_0, 0), ZENKORV_NOT_SOUND, 1);
    give_back(m);
}

/* The gate of first_package leads into domain 1, in segment 2: where the record says so. */
enum { GATES_1 = 32 + 2 * 1, GATES_2 = 32 + 2 * 2, GATE_DOMAIN_2 = 68 + 2, RIGHTS_ON_GATE = 92 + 16 * 1 + 2 };

enum { ALL_BUT_E = 1 + 2 + 8 };

/* Records that are sound but for a dead gate: each call gives 9, also where the words are too short. */
static void check_dead_records(struct machine m)
{
    struct machine entered = copy_of(m);
    expect(ZENKORV_RUN_ENDING(stretch(entered, HIGHEST)) == ZENKORV_CROSSED, "a dead gate", "no crossing");
    check_all_refuse("a gate without E", with_byte(m, RIGHTS_ON_GATE, 0), ZENKORV_NOT_SOUND, 1);
    check_all_refuse("R, W and G for E", with_byte(m, RIGHTS_ON_GATE, ALL_BUT_E), ZENKORV_NOT_SOUND, 1);
    check_all_refuse("another gate domain", with_byte(m, GATE_DOMAIN_2, 0), ZENKORV_NOT_SOUND, 1);
    check_all_refuse("a gate in data", with_byte(m, GATES_1, 1), ZENKORV_NOT_SOUND, 1);
    check_all_refuse("a gate without E, entered", with_byte(entered, RIGHTS_ON_GATE, ALL_BUT_E), ZENKORV_NOT_SOUND, 1);
    struct machine dead = with_byte(m, RIGHTS_ON_GATE, 0);
    check_all_refuse("a gate without E, words short", part_of(dead, RECORD, WORDS - 1), ZENKORV_NOT_SOUND, 1);
    check_all_refuse("a gate without E, short", part_of(dead, RECORD - 1, WORDS), ZENKORV_OUTPUT_TOO_SHORT, 1);
    give_back(dead);
    give_back(entered);
}

/* With no gates, a gate domain needs no E: the record is accepted, and stays. */
static void check_no_gates(struct machine m)
{
    struct machine without = with_byte(m, RIGHTS_ON_GATE, ALL_BUT_E);
    without.record[GATES_2] = 0;
    struct machine before = copy_of(without);
    expect(run(without, 0) == answer(ZENKORV_SPENT, 0, 0), "no gates and no E", "refused");
    expect(restart(without) == ZENKORV_OK && same(without, before), "no gates and no E", "something has changed");
    give_back(before);
    give_back(without);
}

/* Refusals of all calls but zenkorv_read, and their order: 8, 9, 7. */
static void check_refusals(void)
{
    struct machine m = loaded(&package);
    check_unsound(m);
    check_unsound_register(m);
    check_dead_records(m);
    check_no_gates(m);
    check_all_refuse("bytes of no record", lend(RECORD, WORDS), ZENKORV_NOT_SOUND, 1);
    check_all_refuse("bytes of no record, words short", lend(RECORD, WORDS - 1), ZENKORV_NOT_SOUND, 1);
    check_all_refuse("a short record", part_of(m, RECORD - 1, WORDS), ZENKORV_OUTPUT_TOO_SHORT, 1);
    check_all_refuse("a record without registers", part_of(m, ZENKORV_AT_RECENT, WORDS), ZENKORV_OUTPUT_TOO_SHORT, 1);
    check_all_refuse("no record", part_of(m, 0, 0), ZENKORV_OUTPUT_TOO_SHORT, 1);
    check_all_refuse("short bytes of no record", lend(RECORD - 1, WORDS - 1), ZENKORV_OUTPUT_TOO_SHORT, 1);
    check_all_refuse("a short memory", part_of(m, RECORD, WORDS - 1), ZENKORV_MEMORY_TOO_SHORT, 0);
    check_all_refuse("no memory", part_of(m, RECORD, 0), ZENKORV_MEMORY_TOO_SHORT, 0);
    give_back(m);
}

/* A log that is too short is refused last, and the machine stays. */
static void check_short_log(const char *name, size_t length)
{
    struct machine m = loaded(&package);
    struct machine before = copy_of(m);
    struct crossings c = lend_log(length);
    uint32_t r = run_logged(m, &c);
    expect(ZENKORV_RUN_ENDING(r) == ZENKORV_RUN_REFUSED && ZENKORV_RUN_COUNT(r) == 0, name, "not told as refused");
    expect(ZENKORV_RUN_NUMBER(r) == ZENKORV_OUTPUT_TOO_SHORT, name, "another number");
    expect(log_stays(&c) && same(m, before), name, "something has changed");
    free(c.log);
    give_back(before);
    give_back(m);
}

/* A read that is refused leaves record and words, whatever they hold. */
static void check_unread(const char *name, size_t record_length, size_t word_count, struct image image, uint8_t number)
{
    struct machine m = lend(record_length, word_count);
    struct machine before = copy_of(m);
    uint8_t *exact = filled(image.length);
    memcpy(exact, image.bytes, image.length);
    expect(read_into(m, exact, image.length) == number, name, "another number");
    expect(same(m, before), name, "something has changed");
    free(exact);
    give_back(before);
    give_back(m);
}

static struct image changed(struct image image, size_t at, uint8_t byte)
{
    image.bytes[at] = byte;
    return image;
}

/* The first bytes of an image, or all and some zeros. */
static struct image of_length(struct image image, size_t length)
{
    image.length = length;
    return image;
}

/* Two segments of 4,096 words, and the header of a third. */
static struct image too_many_words(void)
{
    enum { HEAD = 12, SEGMENT = 4 + 4 + 4 * 4096 };
    struct image image = {{0}, HEAD + 2 * SEGMENT + 4};
    memcpy(image.bytes, package.bytes, HEAD);
    for (size_t at = HEAD; at < image.length; at += SEGMENT) {
        image.bytes[at] = 0x04;
        image.bytes[at + 1] = 0x40;
        image.bytes[at + 2] = 0x02;
    }
    return image;
}

static void check_unread_images(void)
{
    check_unread("cut short", RECORD, WORDS, of_length(package, package.length - 1), ZENKORV_CUT_SHORT);
    check_unread("no bytes", RECORD, WORDS, of_length(package, 0), ZENKORV_CUT_SHORT);
    check_unread("another kind", RECORD, WORDS, changed(package, 2, 2), ZENKORV_WRONG_KIND);
    check_unread("another length", RECORD, WORDS, changed(package, 0, 9), ZENKORV_WRONG_LENGTH);
    check_unread("no segments", RECORD, WORDS, changed(package, 4, 0), ZENKORV_BAD_FIELD);
    check_unread("words pass 8,192", RECORD, WORDS, too_many_words(), ZENKORV_TOO_MANY_WORDS);
    check_unread("a byte left", RECORD, WORDS, of_length(package, package.length + 1), ZENKORV_BYTES_LEFT);
    check_unread("a short memory", RECORD, WORDS - 1, package, ZENKORV_MEMORY_TOO_SHORT);
    check_unread("7 before the image's", RECORD, 0, of_length(package, 0), ZENKORV_MEMORY_TOO_SHORT);
    check_unread("a short record", RECORD - 1, WORDS, package, ZENKORV_OUTPUT_TOO_SHORT);
    check_unread("8 before 7", 0, 0, of_length(package, 0), ZENKORV_OUTPUT_TOO_SHORT);
}

/* The same for zenkorv_entry and its result. */
static void check_not_run(const char *name, struct image image, uint8_t number)
{
    uint8_t result[SPARE];
    memset(result, FILLED, sizeof result);
    expect(zenkorv_entry(image.bytes, image.length, HIGHEST, result, sizeof result) == number, name, "entry's number");
    expect(all_filled(result, sizeof result), name, "the result has changed");
}

static void check_dead(const char *name, struct image image, uint8_t number)
{
    check_unread(name, RECORD, WORDS, image, number);
    check_not_run(name, image, number);
}

/* Of first_package's image, from its end: kind 4, and the rights of its last domain on the first and the gate's segment. */
enum { KIND_4 = 4, ON_FIRST = 8, ON_GATE = 6 };

/* The image with other rights on the gate's segment. */
static struct image with_rights(uint8_t rights)
{
    return changed(package, package.length - ON_GATE, rights);
}

/* 10 comes after kind 4 was read, and before bytes after it. */
static void check_dead_images(void)
{
    struct image dead = with_rights(ALL_BUT_E);
    size_t length = dead.length;
    check_dead("no rights on the gate", with_rights(0), ZENKORV_DEAD_GATE);
    check_dead("R, W and G on the gate", dead, ZENKORV_DEAD_GATE);
    check_dead("a dead gate, and a byte left", of_length(dead, length + 1), ZENKORV_DEAD_GATE);
    check_dead("a dead gate, and many bytes left", of_length(dead, IMAGE_ROOM), ZENKORV_DEAD_GATE);
    check_dead("a dead gate, and no kind 4", of_length(dead, length - KIND_4), ZENKORV_CUT_SHORT);
    check_dead("a dead gate, and kind 4 cut short", of_length(dead, length - 1), ZENKORV_CUT_SHORT);
    check_dead("a dead gate, and another kind", changed(dead, length - 2, 3), ZENKORV_WRONG_KIND);
    check_dead("a dead gate, and another length", changed(dead, length - KIND_4, 1), ZENKORV_WRONG_LENGTH);
    check_dead("a dead gate, and a bad field", changed(dead, length - ON_FIRST, 16), ZENKORV_BAD_FIELD);
    check_unread("7 before 10", RECORD, WORDS - 1, dead, ZENKORV_MEMORY_TOO_SHORT);
    check_unread("8 before 10", RECORD - 1, WORDS, dead, ZENKORV_OUTPUT_TOO_SHORT);
}

/* A dead gate in the record is none in the image that is read over it; a refused one leaves it there. */
static void check_read_over(void)
{
    struct image image = with_rights(0);
    struct machine fresh = loaded(&package);
    struct machine m = with_byte(fresh, RIGHTS_ON_GATE, 0);
    m.words[0] ^= 1;
    struct machine before = copy_of(m);
    expect(read_into(m, image.bytes, image.length) == ZENKORV_DEAD_GATE, "read over", "not refused");
    expect(same(m, before), "read over", "refused, and something has changed");
    expect(read_into(m, package.bytes, package.length) == ZENKORV_OK, "read over", "refused");
    expect(same(m, fresh), "read over", "another machine");
    expect(run(m, HIGHEST) == answer(ZENKORV_HALTED, 0, 13), "read over", "another run");
    give_back(before);
    give_back(m);
    give_back(fresh);
}

/* With a gate count of 0 the gate domain may be without E: the image is accepted, and written back. */
static void check_read_without_gates(void)
{
    enum { KIND_1 = 12, SEGMENT_0 = 8 + 4 * 4, SEGMENT_1 = 8 + 4 * 12, GATES = KIND_1 + SEGMENT_0 + SEGMENT_1 + 4 };
    struct image image = changed(with_rights(ALL_BUT_E), GATES, 0);
    uint8_t result[4];
    struct machine m = loaded(&image);
    uint8_t *output = filled(image.length);
    expect(m.record[GATES_2] == 0 && m.record[RIGHTS_ON_GATE] == ALL_BUT_E, "no gates", "another record");
    expect(write_to(m, output, image.length) == image.length, "no gates", "not written");
    expect(memcmp(output, image.bytes, image.length) == 0, "no gates", "another image");
    expect(run(m, HIGHEST) == answer(ZENKORV_FAULTED, ZENKORV_NOT_GATE, 1), "no gates", "another run");
    expect(zenkorv_entry(image.bytes, image.length, 1, result, sizeof result) == ZENKORV_OK, "no gates", "entry refuses");
    free(output);
    give_back(m);
}

int main(int argc, char **argv)
{
    if (argc != 3) {
        fputs("usage: refusals first_package.img trick_address.img\n", stderr);
        return EXIT_FAILURE;
    }
    package.length = image_file(argv[1], package.bytes);
    trick.length = image_file(argv[2], trick.bytes);
    check_refusals();
    check_unsound_frame();
    check_short_log("a log of 5,999 bytes", ZENKORV_LOG_BYTES - 1);
    check_short_log("a log of one crossing", ZENKORV_CROSSING_BYTES);
    check_short_log("no log", 0);
    check_unread_images();
    check_dead_images();
    check_read_over();
    check_read_without_gates();
    return told();
}
