/* Checks what zenkorv_log logs, on image files with the log of each beside it: NAME.img and NAME.log. */
#include "lent.h"

/* A log that a file tells line by line. */
struct told_log {
    uint8_t bytes[ZENKORV_LOG_BYTES];
    size_t length;
    unsigned calls;
    unsigned returns;
};

static struct image nested, longest, trick, far;

/* The file NAME.img or NAME.log. */
static const char *file_of(const char *name, const char *ending)
{
    static char path[4096];
    snprintf(path, sizeof path, "%s.%s", name, ending);
    return path;
}

static void load(struct image *image, const char *name)
{
    image->length = image_file(file_of(name, "img"), image->bytes);
}

static void put_crossing(uint8_t *crossing, uint8_t kind, const unsigned *numbers)
{
    crossing[ZENKORV_CROSSING_AT_KIND] = kind;
    crossing[ZENKORV_CROSSING_AT_LEFT] = (uint8_t)numbers[0];
    crossing[ZENKORV_CROSSING_AT_ENTERED] = (uint8_t)numbers[1];
    crossing[ZENKORV_CROSSING_AT_SEGMENT] = (uint8_t)numbers[2];
    crossing[ZENKORV_CROSSING_AT_WORD] = (uint8_t)(numbers[3] % 256);
    crossing[ZENKORV_CROSSING_AT_WORD + 1] = (uint8_t)(numbers[3] / 256);
}

/* The lines of a log: `call 0 1 2 0` or `return 1 0 0 2`, at last `calls 1 returns 1`. */
static void read_log(struct told_log *told_log, const char *name)
{
    FILE *file = fopen(file_of(name, "log"), "r");
    char line[64] = "";
    char word[8];
    unsigned n[4];
    if (file == NULL) {
        perror(name);
        exit(EXIT_FAILURE);
    }
    told_log->length = 0;
    while (fgets(line, sizeof line, file) != NULL && told_log->length < ZENKORV_LOG_BYTES &&
           sscanf(line, "%7s %u %u %u %u", word, &n[0], &n[1], &n[2], &n[3]) == 5) {
        uint8_t kind = strcmp(word, "call") == 0 ? ZENKORV_CROSSING_CALL : ZENKORV_CROSSING_RETURN;
        put_crossing(told_log->bytes + told_log->length, kind, n);
        told_log->length += ZENKORV_CROSSING_BYTES;
    }
    expect(sscanf(line, "calls %u returns %u", &told_log->calls, &told_log->returns) == 2, name, "no totals in its file");
    fclose(file);
}

/* The crossings and totals are those told, bytes past them stay, and the machine is run as by zenkorv_run. */
static void check_log(const char *name, const struct image *image, const struct told_log *told_log, size_t length)
{
    struct machine m = loaded(image);
    struct machine at_once = copy_of(m);
    struct crossings c = lend_log(length);
    expect(run_logged(m, &c) == run(at_once, ZENKORV_LOG_LIMIT), name, "another answer than a run");
    expect(same(m, at_once), name, "another machine than after a run");
    expect(c.calls == told_log->calls && c.returns == told_log->returns, name, "other totals");
    expect(memcmp(c.log, told_log->bytes, told_log->length) == 0, name, "other crossings");
    expect(all_filled(c.log + told_log->length, length - told_log->length), name, "bytes past the last have changed");
    expect(m.record[ZENKORV_AT_FRAMES_IN_USE] == c.calls - c.returns, name, "another number of frames");
    free(c.log);
    give_back(at_once);
    give_back(m);
}

static void check_file(const char *name, const struct image *image)
{
    static struct told_log told_log;
    read_log(&told_log, name);
    check_log(name, image, &told_log, ZENKORV_LOG_BYTES);
    check_log(name, image, &told_log, ZENKORV_LOG_BYTES + SPARE);
}

/* The log of nested_calls, byte by byte. */
static void check_bytes(void)
{
    static const uint8_t wanted[] = {
        0, 0, 1, 2, 0, 0, /* main calls bill */
        0, 1, 2, 4, 0, 0, /* bill calls fee */
        1, 2, 1, 2, 3, 0, /* fee returns to bill */
        1, 1, 0, 0, 2, 0, /* bill returns to main */
        0, 0, 2, 4, 0, 0, /* main calls fee */
        1, 2, 0, 0, 4, 0, /* fee returns to main */
    };
    struct machine m = loaded(&nested);
    struct crossings c = lend_log(ZENKORV_LOG_BYTES);
    expect(run_logged(m, &c) == answer(ZENKORV_HALTED, 0, 21), "bytes", "another answer");
    expect(c.calls == 3 && c.returns == 3, "bytes", "other totals");
    expect(memcmp(c.log, wanted, sizeof wanted) == 0, "bytes", "others");
    free(c.log);
    give_back(m);
}

/* After 1,000 instructions, each a crossing, in the innermost domain: a second log begins with its return. */
static void check_goes_on(void)
{
    static const uint8_t pair[] = {1, 2, 1, 2, 0, 0, 0, 1, 2, 4, 0, 0};
    struct machine m = loaded(&longest);
    struct crossings c = lend_log(ZENKORV_LOG_BYTES);
    expect(run_logged(m, &c) == answer(ZENKORV_SPENT, 0, 1000), "goes on", "the first answer");
    expect(c.calls == 501 && c.returns == 499, "goes on", "the first totals");
    expect(run_logged(m, &c) == answer(ZENKORV_SPENT, 0, 1000), "goes on", "the second answer");
    expect(c.calls == 500 && c.returns == 500, "goes on", "the second totals");
    expect(m.record[ZENKORV_AT_FRAMES_IN_USE] == 2, "goes on", "another number of frames");
    for (size_t at = 0; at < ZENKORV_LOG_BYTES; at += sizeof pair)
        expect(memcmp(c.log + at, pair, sizeof pair) == 0, "goes on", "other crossings");
    free(c.log);
    give_back(m);
}

/* From an instruction that faults there is nothing to log: totals of 0, and all bytes stay. */
static void check_nothing_more(void)
{
    struct machine m = loaded(&trick);
    struct crossings c = lend_log(ZENKORV_LOG_BYTES);
    run(m, HIGHEST);
    struct machine before = copy_of(m);
    expect(run_logged(m, &c) == answer(ZENKORV_FAULTED, ZENKORV_SOURCE_FAILS, 0), "nothing more", "another answer");
    expect(c.calls == 0 && c.returns == 0, "nothing more", "other totals");
    expect(all_filled(c.log, c.length), "nothing more", "the log has changed");
    expect(same(m, before), "nothing more", "the machine has changed");
    free(c.log);
    give_back(before);
    give_back(m);
}

int main(int argc, char **argv)
{
    if (argc != 5) {
        fputs("usage: log nested_calls longest_log trick_address far_gate\n", stderr);
        return EXIT_FAILURE;
    }
    load(&nested, argv[1]);
    load(&longest, argv[2]);
    load(&trick, argv[3]);
    load(&far, argv[4]);
    check_file(argv[1], &nested);
    check_file(argv[2], &longest);
    check_file(argv[3], &trick);
    check_file(argv[4], &far);
    check_bytes();
    check_goes_on();
    check_nothing_more();
    return told();
}
