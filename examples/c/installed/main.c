/* A program outside of the repository, which uses the installed library: one word, HALT, is read and run. */
#include <stdio.h>
#include <zenkorv.h>

#if ZENKORV_VERSION_MAJOR != 1
#error "written for version 1"
#endif

static const uint8_t image[] = {
    0x08, 0x00, 0x01, 0x00, 0x01, 0x01, 0x00, 0x00, 0x00, 0x00, 0x00, 0x00, 0x08, 0x00, 0x02, 0x00, 0x00,
    0x00, 0x00, 0x00, 0x00, 0x00, 0x00, 0x00, 0x02, 0x00, 0x03, 0x00, 0x00, 0x04, 0x00, 0x00, 0x04, 0x00,
};

static uint8_t record[ZENKORV_RECORD_BYTES];
static uint32_t words[ZENKORV_MEMORY_WORDS];

int main(void)
{
    uint8_t number = zenkorv_read(image, sizeof image, record, sizeof record, words, ZENKORV_MEMORY_WORDS);
    uint32_t answer = zenkorv_run(record, sizeof record, words, ZENKORV_MEMORY_WORDS, 100);
    printf("zenkorv %s: read %s, ending %u, count %u\n", ZENKORV_VERSION, zenkorv_name(number),
           (unsigned)ZENKORV_RUN_ENDING(answer), (unsigned)ZENKORV_RUN_COUNT(answer));
    return number == ZENKORV_OK && ZENKORV_RUN_ENDING(answer) == ZENKORV_HALTED ? 0 : 1;
}
