/* Runs an image file by zenkorv_entry and prints the result; with no argument, checks images that are built in. */
#include <stdio.h>
#include <stdlib.h>
#include <string.h>

#include "image_file.h"
#include "zenkorv.h"

enum { FILLED = 0xAA, ROOM = 8, FILE_LIMIT = 1000 };

/* The paper's image: one segment with one word, HALT, and one domain that may execute it. */
static const uint8_t halting[] = {
    0x08, 0x00, 0x01, 0x00, 0x01, 0x01, 0x00, 0x00, 0x00, 0x00, 0x00, 0x00, /* kind 1 */
    0x08, 0x00, 0x02, 0x00, 0x00, 0x00, 0x00, 0x00, 0x00, 0x00, 0x00, 0x00, /* kind 2 */
    0x02, 0x00, 0x03, 0x00, 0x00, 0x04,                                     /* kind 3 */
    0x00, 0x00, 0x04, 0x00,                                                 /* kind 4 */
};

enum { LENGTH = sizeof halting, GATES_AT = 16, WORD_AT = 20, RIGHTS_AT = 29 };

/* What a call must give. Where it is refused, only the number counts. */
struct expected {
    uint8_t returned;
    uint8_t ending;
    uint8_t fault;
    uint16_t count;
};

static int failures = 0;

static void fail(const char *name, const char *what)
{
    printf("%s: %s\n", name, what);
    failures++;
}

/* One call with a result of the given length; the bytes behind it must stay. */
static void check_call(const char *name, const uint8_t *image, size_t length, uint16_t limit, size_t room, struct expected e)
{
    uint8_t result[ROOM];
    uint8_t wanted[ROOM];
    memset(result, FILLED, sizeof result);
    memset(wanted, FILLED, sizeof wanted);
    if (e.returned == ZENKORV_OK) {
        wanted[0] = e.ending;
        wanted[1] = e.fault;
        wanted[2] = (uint8_t)(e.count % 256);
        wanted[3] = (uint8_t)(e.count / 256);
    }
    if (zenkorv_entry(image, length, limit, result, room) != e.returned)
        fail(name, "another number is returned");
    if (memcmp(result, wanted, sizeof result) != 0)
        fail(name, "another result");
}

/* The paper's image with another word and other rights. */
static void check_word(const char *name, uint32_t word, uint8_t rights, uint16_t limit, struct expected e)
{
    uint8_t image[LENGTH];
    memcpy(image, halting, LENGTH);
    for (int i = 0; i < 4; i++)
        image[WORD_AT + i] = (uint8_t)(word >> (8 * i));
    image[RIGHTS_AT] = rights;
    check_call(name, image, LENGTH, limit, ROOM, e);
}

static struct expected refused(enum zenkorv_number number)
{
    struct expected e = {(uint8_t)number, 0, 0, 0};
    return e;
}

static struct expected ended(enum zenkorv_ending ending, uint8_t fault, uint16_t count)
{
    struct expected e = {ZENKORV_OK, (uint8_t)ending, fault, count};
    return e;
}

/* The paper's image with one byte changed. */
static void check_byte(const char *name, size_t at, uint8_t byte, enum zenkorv_number number)
{
    uint8_t image[LENGTH];
    memcpy(image, halting, LENGTH);
    image[at] = byte;
    check_call(name, image, LENGTH, 1, ROOM, refused(number));
}

/* Two segments of 4,096 words, and the header of a third. */
static void check_too_many_words(void)
{
    enum { HEAD = 12, SEGMENT = 4 + 4 + 4 * 4096, ALL = HEAD + 2 * SEGMENT + 4 };
    static uint8_t image[ALL];
    memcpy(image, halting, HEAD);
    image[4] = 3;
    for (size_t at = HEAD; at < ALL; at += SEGMENT) {
        image[at] = 0x04;
        image[at + 1] = 0x40;
        image[at + 2] = 0x02;
    }
    check_call("words pass 8,192", image, ALL, 1, ROOM, refused(ZENKORV_TOO_MANY_WORDS));
}

/* The paper's image with its word as a gate into its domain. */
static void check_gate(const char *name, uint8_t rights, struct expected e)
{
    uint8_t image[LENGTH];
    memcpy(image, halting, LENGTH);
    image[GATES_AT] = 1;
    image[RIGHTS_AT] = rights;
    check_call(name, image, LENGTH, 1000, ROOM, e);
}

static void check_runs(void)
{
    check_call("the paper's image", halting, LENGTH, 1000, ROOM, ended(ZENKORV_HALTED, 0, 1));
    check_call("HALT as the last allowed", halting, LENGTH, 1, ROOM, ended(ZENKORV_HALTED, 0, 1));
    check_call("limit 0", halting, LENGTH, 0, ROOM, ended(ZENKORV_SPENT, 0, 0));
    check_word("JUMP to itself", 0x07003000, 4, 1000, ended(ZENKORV_SPENT, 0, 1000));
    check_word("the highest limit", 0x07003000, 4, 65535, ended(ZENKORV_SPENT, 0, 65535));
    check_word("no E", 0x00000000, 3, 1000, ended(ZENKORV_FAULTED, ZENKORV_FLAG_MISSING, 0));
    check_gate("a gate with E alone", 4, ended(ZENKORV_HALTED, 0, 1));
    check_word("LOAD without R", 0x01003000, 4, 1000, ended(ZENKORV_FAULTED, ZENKORV_FLAG_MISSING, 0));
    check_word("LIT, then no word", 0x0C000FFF, 4, 1000, ended(ZENKORV_FAULTED, ZENKORV_NO_WORD, 1));
    check_word("opcode 13", 0x0D000000, 4, 1000, ended(ZENKORV_FAULTED, ZENKORV_BAD_INSTRUCTION, 0));
    check_word("word number -1", 0x01003FFF, 5, 1000, ended(ZENKORV_FAULTED, ZENKORV_OUT_OF_RANGE, 0));
}

static void check_refusals(void)
{
    static const uint8_t longer[LENGTH + 1] = {
        0x08, 0x00, 0x01, 0x00, 0x01, 0x01, 0x00, 0x00, 0x00, 0x00, 0x00, 0x00, 0x08, 0x00, 0x02, 0x00, 0x00, 0x00,
        0x00, 0x00, 0x00, 0x00, 0x00, 0x00, 0x02, 0x00, 0x03, 0x00, 0x00, 0x04, 0x00, 0x00, 0x04, 0x00, 0x00,
    };
    check_call("no bytes", halting, 0, 1, ROOM, refused(ZENKORV_CUT_SHORT));
    check_call("a body cut short", halting, 11, 1, ROOM, refused(ZENKORV_CUT_SHORT));
    check_byte("another kind", 2, 2, ZENKORV_WRONG_KIND);
    check_byte("another length", 0, 9, ZENKORV_WRONG_LENGTH);
    check_byte("no segments", 4, 0, ZENKORV_BAD_FIELD);
    check_byte("rights above 15", RIGHTS_AT, 16, ZENKORV_BAD_FIELD);
    check_too_many_words();
    check_call("a byte after kind 4", longer, sizeof longer, 1, ROOM, refused(ZENKORV_BYTES_LEFT));
    check_gate("a gate with all but E", 11, refused(ZENKORV_DEAD_GATE));
    check_call("a result of 3 bytes", halting, LENGTH, 1, 3, refused(ZENKORV_OUTPUT_TOO_SHORT));
    check_call("8 before the image's refusals", halting, 0, 1, 0, refused(ZENKORV_OUTPUT_TOO_SHORT));
    check_call("a result of 4 bytes", halting, LENGTH, 1, 4, ended(ZENKORV_HALTED, 0, 1));
}

static int check_all(void)
{
    check_runs();
    check_refusals();
    if (failures != 0) {
        printf("%d differences\n", failures);
        return EXIT_FAILURE;
    }
    puts("all as expected");
    return EXIT_SUCCESS;
}

static int run_file(const char *path)
{
    static const char *const endings[] = {"halted", "faulted", "spent"};
    static uint8_t image[IMAGE_ROOM];
    uint8_t result[4];
    size_t length = image_file(path, image);
    uint8_t returned = zenkorv_entry(image, length, FILE_LIMIT, result, sizeof result);
    if (returned != ZENKORV_OK) {
        printf("refused %d, %s\n", returned, zenkorv_name(returned));
        return EXIT_SUCCESS;
    }
    printf("%s, fault %d, count %d\n", endings[result[0]], result[1], result[2] + 256 * result[3]);
    return EXIT_SUCCESS;
}

int main(int argc, char **argv)
{
    if (argc > 1)
        return run_file(argv[1]);
    return check_all();
}
