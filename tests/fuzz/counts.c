/* Counts what was reached, prints it at exit, and tells the fuzzer, which cannot see into the library. */
#include <stdio.h>
#include <stdlib.h>

#include "fuzz.h"

enum { ENDINGS = 40, ANSWERS = ENDINGS + REFUSED };

static const char *const mode_names[MODES] = { "image", "record", "edited image", "edited record" };
static const char *const call_names[CALLS] = { "read", "run", "stretch", "log", "step", "write", "segment", "check", "restart", "entry" };
static const char *const ending_names[] = { "halted", "faulted", "spent", "crossed" };
static const char *const use_names[USES] = {
    "references matched by a register", "references with a match in another frame's register alone", "found capabilities entered", "found capabilities that may not be entered", "registers of an older frame replaced",
    "lists entered", "lists that may not be entered", "returns that empty registers", "faults after an indirect word through a tagged pointer"
};

static enum mode current;
static unsigned long inputs[MODES], images[MODES], records[MODES];
static unsigned long counts[MODES][CALLS][ANSWERS];
static unsigned long frames[2], uncovered, uses[USES];

/* Answers, states after a run, lists, and uses of the registers. */
enum { STATES = MODES * CALLS * ANSWERS, LISTS = STATES + 9 * 32, USED = LISTS + 3 * 9, REACHED = USED + USES * 16 };

__attribute__((section("__libfuzzer_extra_counters"))) static uint8_t reached[REACHED];

static unsigned long over_modes(unsigned call, unsigned answer)
{
    unsigned long sum = 0;
    for (unsigned m = 0; m < MODES; m++)
        sum += counts[m][call][answer];
    return sum;
}

static void print_row(unsigned answer)
{
    unsigned long row = 0;
    for (unsigned c = 0; c < CALLS; c++)
        row += over_modes(c, answer);
    if (row == 0)
        return;
    if (answer >= ENDINGS)
        printf("%-8s", ending_names[answer - ENDINGS]);
    else
        printf("%-8u", answer);
    for (unsigned c = 0; c < CALLS; c++)
        printf(" %8lu", over_modes(c, answer));
    printf("\n");
}

static void print_counts(void)
{
    unsigned long all = 0;
    printf("\n");
    for (unsigned m = 0; m < MODES; m++) {
        printf("%-14s %8lu inputs, %8lu images and %8lu records accepted\n", mode_names[m], inputs[m], images[m], records[m]);
        all += inputs[m];
    }
    printf("%-14s %8lu inputs\n\nanswer  ", "all", all);
    for (unsigned c = 0; c < CALLS; c++)
        printf(" %8s", call_names[c]);
    printf("\n");
    for (unsigned a = 0; a < ANSWERS; a++)
        print_row(a);
    printf("\n%-14s %8lu calls judged\n", "a untagged", frames[0]);
    printf("%-14s %8lu calls judged, %8lu lists refused as not covered\n\n", "a tagged", frames[1], uncovered);
    for (unsigned u = 0; u < USES; u++)
        printf("%8lu %s\n", uses[u], use_names[u]);
}

void count_input(enum mode mode)
{
    static bool known = false;
    if (!known)
        atexit(print_counts);
    known = true;
    current = mode;
    inputs[mode]++;
}

void count_image(bool accepted)
{
    images[current] += accepted;
}

void count_record(bool accepted)
{
    records[current] += accepted;
}

static void count(enum call call, unsigned answer)
{
    counts[current][call][answer]++;
    reached[(current * CALLS + call) * ANSWERS + answer] = 1;
}

void count_number(enum call call, unsigned number)
{
    count(call, number);
}

void count_ending(enum call call, enum ending ending, unsigned number)
{
    if (ending != REFUSED)
        count(call, ENDINGS + ending);
    if (number != 0)
        count(call, number);
}

/* Frames in use after a run, and the size of its count. */
void count_state(unsigned depth, unsigned completed)
{
    unsigned size = 0;
    while (completed >> size != 0)
        size++;
    reached[STATES + 32 * depth + size] = 1;
}

/* A frame that was judged: a's tag before the call, and the number of arguments. */
void count_frame(bool tagged, unsigned arguments)
{
    frames[tagged]++;
    reached[LISTS + 9u * tagged + arguments] = 1;
}

/* A list at a tagged a that was refused. */
void count_uncovered(unsigned arguments)
{
    uncovered++;
    reached[LISTS + 2 * 9 + arguments] = 1;
}

/* A use of the registers by a step that was judged, and which register, frame or number it was. */
void count_use(enum use use, unsigned which)
{
    uses[use]++;
    reached[USED + 16u * use + which % 16] = 1;
}
