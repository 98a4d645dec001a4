/* The firmware of a chest strap: three packages in one image, loaded once, run in slices between which beats come in. */
#include <stdio.h>
#include <stdlib.h>
#include <string.h>

#include "image_file.h"
#include "zenkorv.h"

enum { SLICE = 100, MOST_SLICES = 20, BEATS = 8, WISHES = 2 };

/* The strap's data in examples/c/strap.zk: its segment, and its words. */
enum { STRAP_DATA = 1, FRESH = 0, FIRST_BEAT = 1, COUNTS = 9, ADVICE = 12, FIRST_WISH = 13, CLOCK = 15 };

struct machine {
    uint8_t record[ZENKORV_RECORD_BYTES];
    uint32_t words[ZENKORV_MEMORY_WORDS];
};

/* The strap, a copy of it with the beats just handed over, and one for the image that was saved. */
static struct machine strap, handed_over, second;

/* For what cannot happen with a machine that nobody else writes. */
static void expect(const char *what, uint8_t number)
{
    if (number == ZENKORV_OK)
        return;
    printf("%s: %d %s\n", what, number, zenkorv_name(number));
    exit(EXIT_FAILURE);
}

static void load(struct machine *m, const uint8_t *image, size_t length)
{
    expect("read", zenkorv_read(image, length, m->record, sizeof m->record, m->words, ZENKORV_MEMORY_WORDS));
}

static void restart(struct machine *m)
{
    expect("restart", zenkorv_restart(m->record, sizeof m->record));
}

/* The words of the strap's data. */
static uint32_t *data_of(struct machine *m)
{
    uint16_t first = 0;
    uint16_t count = 0;
    expect("segment", zenkorv_segment(m->record, sizeof m->record, m->words, ZENKORV_MEMORY_WORDS, STRAP_DATA, &first,
                                      &count));
    if (count <= CLOCK)
        expect("another image", ZENKORV_NO_WORD);
    return &m->words[first];
}

static void refuse_wish(uint8_t segment, uint16_t word, uint8_t number)
{
    printf("time at %d|%d: refused, %d %s\n", segment, word, number, zenkorv_name(number));
}

/*
 * The strap names words where it wants the time. The host may write everywhere, the strap may not: so the host asks what
 * the strap, which executes, may write itself. The number of a wish's word is bits 0-11, of its segment bits 12-15; bits
 * 16-30 are 0, as in every pointer word.
 */
static void grant_wish(struct machine *m, uint32_t wish, uint32_t time)
{
    uint16_t word = wish & 0xFFF;
    uint8_t segment = (wish >> 12) & 0xF;
    if ((wish & 0x7FFF0000) != 0) {
        refuse_wish(segment, word, ZENKORV_BAD_POINTER);
        return;
    }
    uint32_t index = zenkorv_check(m->record, sizeof m->record, 1, wish >> 31, segment, word);
    if (ZENKORV_REFUSED(index)) {
        refuse_wish(segment, word, ZENKORV_REFUSAL(index));
        return;
    }
    m->words[index] = time;
    printf("time at %d|%d: written\n", segment, word);
}

static void grant_wishes(struct machine *m, uint32_t time)
{
    for (int i = 0; i < WISHES; i++)
        grant_wish(m, data_of(m)[FIRST_WISH + i], time);
}

static void hand_over(struct machine *m, const uint32_t *beats)
{
    uint32_t *data = data_of(m);
    memcpy(&data[FIRST_BEAT], beats, BEATS * sizeof *beats);
    data[FRESH] = 1;
    handed_over = *m;
}

/* Puts the machine back to its start. The words stay, but for the one that says that beats are waiting. */
static void give_up(struct machine *m)
{
    restart(m);
    data_of(m)[FRESH] = 0;
    puts("  restarted");
}

/* A package that faults is told by its number; one may also execute HALT, which stops them all. */
static void report_stop(const struct machine *m, uint32_t answer)
{
    uint8_t number = ZENKORV_RUN_NUMBER(answer);
    if (ZENKORV_RUN_ENDING(answer) == ZENKORV_RUN_REFUSED)
        expect("run", number);
    int segment = m->record[ZENKORV_AT_SEGMENT];
    int word = m->record[ZENKORV_AT_WORD] + 256 * m->record[ZENKORV_AT_WORD + 1];
    printf("  domain %d stopped at %d|%d: ", m->record[ZENKORV_AT_DOMAIN], segment, word);
    if (ZENKORV_RUN_ENDING(answer) == ZENKORV_HALTED)
        puts("halted");
    else
        printf("fault %d, %s\n", number, zenkorv_name(number));
}

static void report_crossing(const uint8_t *crossing)
{
    const char *did = crossing[ZENKORV_CROSSING_AT_KIND] == ZENKORV_CROSSING_CALL ? "called" : "returned to";
    int word = crossing[ZENKORV_CROSSING_AT_WORD] + 256 * crossing[ZENKORV_CROSSING_AT_WORD + 1];
    printf("    domain %d %s domain %d at %d|%d\n", crossing[ZENKORV_CROSSING_AT_LEFT], did,
           crossing[ZENKORV_CROSSING_AT_ENTERED], crossing[ZENKORV_CROSSING_AT_SEGMENT], word);
}

/* Runs a copy for up to 1,000 instructions and reports their crossings. */
static uint32_t log_some(struct machine *copy)
{
    static uint8_t log[ZENKORV_LOG_BYTES];
    uint16_t calls = 0;
    uint16_t returns = 0;
    uint32_t answer = zenkorv_log(copy->record, sizeof copy->record, copy->words, ZENKORV_MEMORY_WORDS, log, sizeof log,
                                  &calls, &returns);
    if (ZENKORV_RUN_ENDING(answer) == ZENKORV_RUN_REFUSED)
        expect("log", ZENKORV_RUN_NUMBER(answer));
    for (int i = 0; i < calls + returns; i++)
        report_crossing(&log[i * ZENKORV_CROSSING_BYTES]);
    return answer;
}

/* Runs a copy of a machine that stopped again, with a log: who called whom on the way to where it stopped. */
static void report_crossings(struct machine *copy)
{
    while (ZENKORV_RUN_ENDING(log_some(copy)) == ZENKORV_SPENT)
        continue;
}

static void report_results(struct machine *m, int slices)
{
    const uint32_t *data = data_of(m);
    const uint32_t *counts = &data[COUNTS];
    printf("  after %d slices: zones %u %u %u, advice %u\n", slices, (unsigned)counts[0], (unsigned)counts[1],
           (unsigned)counts[2], (unsigned)data[ADVICE]);
}

/* Slices until the results are there, the machine stops, or it takes too long. */
static void run_slices(struct machine *m)
{
    for (int slices = 1; slices <= MOST_SLICES; slices++) {
        uint32_t answer = zenkorv_run(m->record, sizeof m->record, m->words, ZENKORV_MEMORY_WORDS, SLICE);
        if (ZENKORV_RUN_ENDING(answer) != ZENKORV_SPENT) {
            report_stop(m, answer);
            report_crossings(&handed_over);
            give_up(m);
            return;
        }
        if (data_of(m)[FRESH] == 0) {
            report_results(m, slices);
            return;
        }
    }
    puts("  no results in time");
    give_up(m);
}

static int equal(const struct machine *m, const struct machine *n)
{
    return memcmp(m->record, n->record, sizeof m->record) == 0 && memcmp(m->words, n->words, sizeof m->words) == 0;
}

/* Saves the machine and reads it into a second one. Registers and frames are in no image: hence the restart. */
static int save(struct machine *m)
{
    static uint8_t image[ZENKORV_LONGEST_IMAGE];
    restart(m);
    uint32_t length = zenkorv_write(m->record, sizeof m->record, m->words, ZENKORV_MEMORY_WORDS, image, sizeof image);
    if (ZENKORV_REFUSED(length))
        expect("write", ZENKORV_REFUSAL(length));
    load(&second, image, length);
    printf("saved in %u bytes, read back %s\n", (unsigned)length, equal(m, &second) ? "equal" : "NOT EQUAL");
    return equal(m, &second);
}

int main(int argc, char **argv)
{
    static const uint32_t beats[][BEATS] = {
        {1000, 950, 900, 850, 790, 700, 600, 450},
        {790, 780, 770, 760, 490, 480, 470, 460},
        {420, 415, 410, 405, 400, 395, 390, 385},
        {600, 700, 800, 900, 1000, 1100, 1200, 1300},
    };
    static uint8_t image[IMAGE_ROOM];
    if (argc != 2) {
        fputs("usage: strap IMAGE\n", stderr);
        return EXIT_FAILURE;
    }
    load(&strap, image, image_file(argv[1], image));
    grant_wishes(&strap, 1200);
    for (size_t i = 0; i < sizeof beats / sizeof beats[0]; i++) {
        printf("beats from %u ms\n", (unsigned)beats[i][0]);
        hand_over(&strap, beats[i]);
        run_slices(&strap);
    }
    return save(&strap) ? EXIT_SUCCESS : EXIT_FAILURE;
}
