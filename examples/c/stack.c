/* Prints the most stack that each call takes on the image files that are named, and whether the header's figure covers it. */
#include <stdio.h>
#include <stdlib.h>
#include <string.h>
#include <ucontext.h>

#include "image_file.h"
#include "zenkorv.h"

enum { ROOM = 256 * 1024, PAINT = 0xA5, LIMIT = 65535, MOST_STEPS = 200 };

static uint8_t stack[ROOM];
static ucontext_t host, guest;

static uint8_t image[IMAGE_ROOM];
static size_t image_length;
static uint8_t record[ZENKORV_RECORD_BYTES];
static uint32_t words[ZENKORV_MEMORY_WORDS];
static uint8_t output[ZENKORV_LONGEST_IMAGE];
static uint8_t result[4];
static uint8_t crossings[ZENKORV_LOG_BYTES];
static uint16_t first, count, called, back;
static volatile uint32_t returned;

static void call_nothing(void)
{
    returned = 0;
}

static void call_read(void)
{
    returned = zenkorv_read(image, image_length, record, sizeof record, words, ZENKORV_MEMORY_WORDS);
}

static void call_run(void)
{
    returned = zenkorv_run(record, sizeof record, words, ZENKORV_MEMORY_WORDS, LIMIT);
}

static void call_stretch(void)
{
    returned = zenkorv_stretch(record, sizeof record, words, ZENKORV_MEMORY_WORDS, LIMIT);
}

static void call_log(void)
{
    returned = zenkorv_log(record, sizeof record, words, ZENKORV_MEMORY_WORDS, crossings, sizeof crossings, &called, &back);
}

static void call_step(void)
{
    returned = zenkorv_step(record, sizeof record, words, ZENKORV_MEMORY_WORDS);
}

static void call_write(void)
{
    returned = zenkorv_write(record, sizeof record, words, ZENKORV_MEMORY_WORDS, output, sizeof output);
}

static void call_segment(void)
{
    uint8_t last = record[ZENKORV_AT_SEGMENTS] - 1;
    returned = zenkorv_segment(record, sizeof record, words, ZENKORV_MEMORY_WORDS, last, &first, &count);
}

/* The word that pointer 0 names, to be read: in a called domain the argument list, through a tagged pointer. */
static void call_check(void)
{
    const uint8_t *a = record + ZENKORV_AT_POINTERS;
    returned = zenkorv_check(record, sizeof record, 0, a[3], a[2], (uint16_t)(a[0] + 256 * a[1]));
}

static void call_restart(void)
{
    returned = zenkorv_restart(record, sizeof record);
}

static void call_entry(void)
{
    returned = zenkorv_entry(image, image_length, LIMIT, result, sizeof result);
}

struct call {
    const char *name;
    void (*function)(void);
    size_t stated;
    size_t used;
};

enum { READ, RUN, STRETCH, LOG, STEP, WRITE, SEGMENT, CHECK, RESTART, ENTRY, CALLS };

static struct call calls[CALLS] = {
    [READ] = {"READ", call_read, ZENKORV_STACK_READ, 0},
    [RUN] = {"RUN", call_run, ZENKORV_STACK_RUN, 0},
    [STRETCH] = {"STRETCH", call_stretch, ZENKORV_STACK_STRETCH, 0},
    [LOG] = {"LOG", call_log, ZENKORV_STACK_LOG, 0},
    [STEP] = {"STEP", call_step, ZENKORV_STACK_STEP, 0},
    [WRITE] = {"WRITE", call_write, ZENKORV_STACK_WRITE, 0},
    [SEGMENT] = {"SEGMENT", call_segment, ZENKORV_STACK_SEGMENT, 0},
    [CHECK] = {"CHECK", call_check, ZENKORV_STACK_CHECK, 0},
    [RESTART] = {"RESTART", call_restart, ZENKORV_STACK_RESTART, 0},
    [ENTRY] = {"ENTRY", call_entry, ZENKORV_STACK_ENTRY, 0},
};

/* The bytes of the painted stack that a function has written. */
static size_t used_by(void (*function)(void))
{
    memset(stack, PAINT, sizeof stack);
    getcontext(&guest);
    guest.uc_stack.ss_sp = stack;
    guest.uc_stack.ss_size = sizeof stack;
    guest.uc_link = &host;
    makecontext(&guest, function, 0);
    swapcontext(&host, &guest);
    size_t clean = 0;
    while (clean < sizeof stack && stack[clean] == PAINT)
        clean++;
    return sizeof stack - clean;
}

static void measure(int call)
{
    static size_t before = 0;
    if (before == 0)
        before = used_by(call_nothing);
    size_t used = used_by(calls[call].function) - before;
    if (used > calls[call].used)
        calls[call].used = used;
}

/* All calls that leave the machine, and the steps, along the first instructions. */
static void measure_steps(void)
{
    for (int i = 0; i < MOST_STEPS; i++) {
        measure(WRITE);
        measure(SEGMENT);
        measure(CHECK);
        measure(STEP);
        if (returned != 0)
            break;
    }
}

static void measure_stretches(void)
{
    for (int i = 0; i < MOST_STEPS; i++) {
        measure(STRETCH);
        if (ZENKORV_RUN_ENDING(returned) != ZENKORV_CROSSED)
            break;
    }
}

static void measure_image(void)
{
    measure(ENTRY);
    measure(READ);
    if (returned != ZENKORV_OK)
        return;
    measure(RUN);
    measure(RESTART);
    measure(READ);
    measure_stretches();
    measure(READ);
    measure(LOG);
    measure(READ);
    measure_steps();
}

/* Whether the header's figures cover what was measured. */
static int report(void)
{
    int covered = 1;
    for (int i = 0; i < CALLS; i++) {
        const struct call *c = &calls[i];
        int covers = c->used <= c->stated;
        const char *verdict = covers ? "covers" : "DOES NOT COVER";
        printf("ZENKORV_STACK_%-8s %6zu, used %6zu: %s\n", c->name, c->stated, c->used, verdict);
        covered = covered && covers;
    }
    return covered;
}

int main(int argc, char **argv)
{
    if (argc < 2) {
        fputs("usage: stack IMAGE..\n", stderr);
        return EXIT_FAILURE;
    }
    for (int i = 1; i < argc; i++) {
        image_length = image_file(argv[i], image);
        measure_image();
    }
    return report() ? EXIT_SUCCESS : EXIT_FAILURE;
}
