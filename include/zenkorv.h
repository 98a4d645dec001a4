/* The calls of the multidomain processor for firmware in C. Needs C99 or later, or C++11. */
#ifndef ZENKORV_H
#define ZENKORV_H

#include <stddef.h>
#include <stdint.h>

#ifdef __cplusplus
extern "C" {
#endif

#define ZENKORV_VERSION_MAJOR 1
#define ZENKORV_VERSION_MINOR 4
#define ZENKORV_VERSION_PATCH 0
#define ZENKORV_VERSION "1.4.0"

/* A machine is a record of so many bytes and a memory of so many words. The firmware keeps them and lends them to calls. */
#define ZENKORV_RECORD_BYTES 1079
#define ZENKORV_MEMORY_WORDS 8192

/* The longest image that can be accepted, and the longest that is written, in bytes. */
#define ZENKORV_LONGEST_IMAGE 33080

/* The numbers of refusals, 1 to 10, and of faults, 21 to 32. */
enum zenkorv_number {
    ZENKORV_OK = 0,
    ZENKORV_CUT_SHORT = 1,        /* chunk header or body cut short */
    ZENKORV_WRONG_KIND = 2,       /* kind not the one due */
    ZENKORV_WRONG_LENGTH = 3,     /* length wrong for the kind */
    ZENKORV_BAD_FIELD = 4,        /* a field outside its range */
    ZENKORV_TOO_MANY_WORDS = 5,   /* words pass 8,192 */
    ZENKORV_BYTES_LEFT = 6,       /* bytes after kind 4 */
    ZENKORV_MEMORY_TOO_SHORT = 7, /* fewer than 8,192 words lent */
    ZENKORV_OUTPUT_TOO_SHORT = 8, /* output, log or record too short */
    ZENKORV_NOT_SOUND = 9,        /* the bytes are those of no sound record */
    ZENKORV_DEAD_GATE = 10,       /* a segment has gates, and its gate domain no E on it */
    ZENKORV_NO_WORD = 21,         /* no such segment or word */
    ZENKORV_FLAG_MISSING = 22,    /* flag missing */
    ZENKORV_OUT_OF_RANGE = 23,    /* a word number leaves 0-4,095 */
    ZENKORV_NO_MATCH = 24,        /* no live capability matches, or no frame */
    ZENKORV_SOURCE_FAILS = 25,    /* matched, source fails its static check */
    ZENKORV_BAD_POINTER = 26,     /* bits 16-30 of a pointer word not 0 */
    ZENKORV_BAD_INSTRUCTION = 27, /* bad instruction word */
    ZENKORV_TAGGED_TRANSFER = 28, /* JUMP or CALL through a tagged pointer */
    ZENKORV_NOT_GATE = 29,        /* word not a gate */
    ZENKORV_BAD_ARGUMENT = 30,    /* n above 8, tagged return location, bad mode word */
    ZENKORV_NO_FREE_FRAME = 31,   /* eight frames in use */
    ZENKORV_BAD_RETURN = 32       /* tagged RET with no frame or another place or s */
};

/* How a run or a stretch ended. */
enum zenkorv_ending {
    ZENKORV_HALTED = 0,     /* at a HALT, which is counted */
    ZENKORV_FAULTED = 1,    /* at an instruction that faults, which is not counted */
    ZENKORV_SPENT = 2,      /* at the limit: the count equals it */
    ZENKORV_CROSSED = 3,    /* a stretch: right after a crossing, which is counted */
    ZENKORV_RUN_REFUSED = 4 /* nothing was run: the count is 0 */
};

/*
 * What C must keep, for no proof can see it:
 *
 * - A slice is a pointer and a length, in elements. Each pointer is valid for its length and aligned for its type. It is
 *   not null, even where the length is 0: nothing tests for null.
 * - The slices of one call do not overlap. *first and *count of zenkorv_segment are distinct and outside of its slices, so
 *   are *calls and *returns of zenkorv_log.
 * - Nobody else writes what is lent while a call lasts, nor reads what the call may write.
 *
 * Any bytes may be lent as a record, and any words as a memory: each call judges them. Slices may be longer than asked
 * for; bytes past the 1,079th and words past the last segment stay. A refused call leaves every byte and word as it was.
 *
 * Threads and interrupts: no call keeps a pointer, uses a static or the heap. Calls on different machines may run at the
 * same time; a machine is in one call at a time. An interrupt may come during a call if its handler leaves the slices of
 * that call alone; the handler may make calls on another machine, if the stack has room for both. Nothing stops a run from
 * outside: choose the limit by the time that the firmware can wait; zenkorv_log has a limit of its own, 1,000. Between two
 * calls the firmware may write the words as it likes.
 */

/* The bytes of stack that each call needs on x86-64, its return address included: the bound of tools/stack, rounded up
   with 128 to 255 bytes to spare. Another processor, or another compiler, needs its own figures. */
#define ZENKORV_STACK_READ 3328
#define ZENKORV_STACK_RUN 6528
#define ZENKORV_STACK_STRETCH 6528
#define ZENKORV_STACK_LOG 8320
#define ZENKORV_STACK_STEP 6016
#define ZENKORV_STACK_WRITE 3584
#define ZENKORV_STACK_SEGMENT 3328
#define ZENKORV_STACK_CHECK 4480
#define ZENKORV_STACK_RESTART 4608
#define ZENKORV_STACK_ENTRY 39936

/*
 * The record's bytes. Numbers are little-endian, flags are 0 or 1, rows that are not in use are zeros. The firmware may
 * keep and copy the bytes, and read them; a record that was changed is refused with 9 unless it is sound. A record with a
 * dead gate (see 10) is not sound, even if a version before 1.2 accepted it. A record of a version before 1.4 is the first
 * 919 bytes of one; put after it, for k from 0 to 15, nine zeros and k: registers that are empty.
 *
 * The sixteen registers keep recent capabilities of the frames in use. In a sound record they change no answer: their
 * recency numbers are 0 to 15, each once, and a filled one holds a capability that its frame has, and that shares no word
 * with an earlier one of another source in that frame.
 *
 *     at  bytes  what
 *      0  16 x 2  length of each segment, in words
 *     32  16 x 2  gates of each segment
 *     64  4       start: word (2), segment, domain
 *     68  16 x 1  gate domain of each segment
 *     84  8 x 1   stack segment of each domain
 *     92  8 x 16  rights of each domain on each segment: R 1, W 2, E 4, G 8
 *    220  1       number of segments
 *    221  1       number of domains
 *    222  4       A
 *    226  2       word of the location, 0-4,096
 *    228  1       segment of the location
 *    229  1       executing domain
 *    230  8 x 4   pointers, 0 is a, 1 is s, 2 is b: word (2), segment, tag
 *    262  1       number of frames in use
 *    263  8 x 82  frames, the oldest first: number of capabilities; nine of 8 bytes: word (2), length (2), segment, source,
 *                 read, write; s (4) and return location (4) as pointers; calling domain
 *    919  16 x 10 registers: a capability, as in a frame (8); its frame, 1 for the oldest; recency number. One that is
 *                 empty is 0 but for its recency number
 */
#define ZENKORV_AT_LENGTHS 0
#define ZENKORV_AT_SEGMENTS 220
#define ZENKORV_AT_DOMAINS 221
#define ZENKORV_AT_A 222
#define ZENKORV_AT_WORD 226
#define ZENKORV_AT_SEGMENT 228
#define ZENKORV_AT_DOMAIN 229
#define ZENKORV_AT_POINTERS 230
#define ZENKORV_AT_FRAMES_IN_USE 262
#define ZENKORV_AT_FRAMES 263
#define ZENKORV_POINTER_BYTES 4
#define ZENKORV_FRAME_BYTES 82
#define ZENKORV_AT_RECENT 919
#define ZENKORV_RECENT_REGISTERS 16
#define ZENKORV_RECENT_BYTES 10
#define ZENKORV_RECENT_AT_CAPABILITY 0
#define ZENKORV_RECENT_AT_FRAME 8
#define ZENKORV_RECENT_AT_RECENCY 9

/*
 * Reads an image into a record and a memory. What they held before does not matter.
 *
 * Returns 0: the record is the fresh machine of the image, the image's words stand from word 0 on. Or a refusal: 8 where
 * the record has fewer than 1,079 bytes, then 7, then 1 to 5, 10 and last 6 for the image, which ends where its slice ends.
 */
uint8_t zenkorv_read(const uint8_t *image, size_t image_length, uint8_t *record, size_t record_length, uint32_t *words,
                     size_t word_count);

/*
 * Runs at most limit instructions from where the record stands. Called again, it goes on from there; a halted machine
 * executes its HALT again, one that faulted the instruction that faults.
 *
 * The answer is taken apart by the macros: the ending; the number of a fault or a refusal, else 0; the count of the
 * instructions completed. A run that faults leaves record and words as before the instruction. Refusals: 8, then 9,
 * then 7.
 */
uint32_t zenkorv_run(uint8_t *record, size_t record_length, uint32_t *words, size_t word_count, uint16_t limit);

/* The same, and also stops right after the first completed crossing: a CALL through a gate, or a RET to the caller. */
uint32_t zenkorv_stretch(uint8_t *record, size_t record_length, uint32_t *words, size_t word_count, uint16_t limit);

/*
 * Runs at most 1,000 instructions from where the record stands, and logs each completed crossing. The answer is that of
 * zenkorv_run with limit 1,000. Called again, it goes on from there, with a log of its own.
 *
 * The log has a record of six bytes for each crossing, in order, from its byte 0 on; bytes past the last record stay.
 * *calls and *returns are how many of each there are; frames in use before and *calls are as many as frames in use after
 * and *returns. Refusals: 8 for the record, then 9, then 7, then 8 for a log shorter than 6,000 bytes; the log, *calls and
 * *returns then stay.
 */
uint32_t zenkorv_log(uint8_t *record, size_t record_length, uint32_t *words, size_t word_count, uint8_t *log,
                     size_t log_length, uint16_t *calls, uint16_t *returns);

/* The most instructions that one call logs, and the shortest log that is accepted. */
#define ZENKORV_LOG_LIMIT 1000
#define ZENKORV_LOG_BYTES 6000

/*
 * The bytes of a crossing in the log.
 *
 *     at  bytes  what
 *      0  1      0 for a call, 1 for a return
 *      1  1      domain left
 *      2  1      domain entered
 *      3  1      segment entered
 *      4  2      word entered, little-endian
 */
#define ZENKORV_CROSSING_BYTES 6
#define ZENKORV_CROSSING_AT_KIND 0
#define ZENKORV_CROSSING_AT_LEFT 1
#define ZENKORV_CROSSING_AT_ENTERED 2
#define ZENKORV_CROSSING_AT_SEGMENT 3
#define ZENKORV_CROSSING_AT_WORD 4
#define ZENKORV_CROSSING_CALL 0
#define ZENKORV_CROSSING_RETURN 1

/* What zenkorv_run, zenkorv_stretch and zenkorv_log return. */
#define ZENKORV_RUN_ENDING(r) ((r) >> 24)
#define ZENKORV_RUN_NUMBER(r) (((r) >> 16) & 0xFF)
#define ZENKORV_RUN_COUNT(r) ((r) & 0xFFFF)

/*
 * Executes one instruction. The answer has the number of its fault or of the refusal (8, then 9, then 7), or 0 where it
 * was completed, and whether it was a HALT. A step that faults leaves record and words.
 */
uint16_t zenkorv_step(uint8_t *record, size_t record_length, uint32_t *words, size_t word_count);

#define ZENKORV_STEP_NUMBER(r) ((r) & 0xFF)
#define ZENKORV_STEP_HALTED(r) (((r) >> 8) & 1)

/*
 * Writes the image of a machine: its layout with its start, and its words as they are. Registers and frames are in no
 * image; to keep a machine in the middle of a run, keep the record and the words.
 *
 * Returns the image's length, at most 33,080; bytes of the output past it stay. Or a refusal, see ZENKORV_REFUSED: 8 for
 * the record, then 9, then 7, then 8 for an output shorter than the image.
 */
uint32_t zenkorv_write(const uint8_t *record, size_t record_length, const uint32_t *words, size_t word_count,
                       uint8_t *output, size_t output_length);

/*
 * Tells where a segment lies: word k of it is words[*first + k], for k below *count.
 *
 * Returns 0, or 8, then 9, then 7, then 21 where there is no such segment; *first and *count then stay.
 */
uint8_t zenkorv_segment(const uint8_t *record, size_t record_length, const uint32_t *words, size_t word_count,
                        uint8_t segment, uint16_t *first, uint16_t *count);

/*
 * Tells whether the executing domain may refer to a word: where tag is 0, by its rights; where it is another number, by
 * the capabilities of the newest frame. It asks to read where write is 0, else to write.
 *
 * Returns the word's index in words. Or a refusal, see ZENKORV_REFUSED: 8, then 9, then 21 or 22 without the tag, 24 or
 * 25 with it.
 */
uint32_t zenkorv_check(const uint8_t *record, size_t record_length, uint8_t write, uint8_t tag, uint8_t segment,
                       uint16_t word);

/* What zenkorv_write and zenkorv_check return: whether it is a refusal, and then its number. */
#define ZENKORV_REFUSED(r) ((r) > 0xFFFF)
#define ZENKORV_REFUSAL(r) ((r) & 0xFF)

/*
 * Makes the record the fresh machine of its layout: start, registers, no frames, no recent capabilities. Words are no
 * part of it, and stay.
 *
 * Returns 0, or 8, then 9.
 */
uint8_t zenkorv_restart(uint8_t *record, size_t record_length);

/*
 * Runs at most limit instructions of an image, in a memory of its own, which lies on the stack.
 *
 * Returns 0 and puts ending (halted, faulted or spent), fault or 0, and count (2 bytes, little-endian) into the first
 * four bytes of the result; bytes past the fourth stay. Or returns a refusal: 8 where the result has fewer than 4 bytes,
 * then those of zenkorv_read for the image: 1 to 5, 10 and last 6.
 */
uint8_t zenkorv_entry(const uint8_t *image, size_t image_length, uint16_t limit, uint8_t *result, size_t result_length);

/* A number in words, to be printed. */
static inline const char *zenkorv_name(uint8_t number)
{
    switch (number) {
    case ZENKORV_OK: return "ok";
    case ZENKORV_CUT_SHORT: return "cut short";
    case ZENKORV_WRONG_KIND: return "wrong kind";
    case ZENKORV_WRONG_LENGTH: return "wrong length";
    case ZENKORV_BAD_FIELD: return "bad field";
    case ZENKORV_TOO_MANY_WORDS: return "too many words";
    case ZENKORV_BYTES_LEFT: return "bytes left";
    case ZENKORV_MEMORY_TOO_SHORT: return "memory too short";
    case ZENKORV_OUTPUT_TOO_SHORT: return "output, log or record too short";
    case ZENKORV_NOT_SOUND: return "record not sound";
    case ZENKORV_DEAD_GATE: return "dead gate";
    case ZENKORV_NO_WORD: return "no such segment or word";
    case ZENKORV_FLAG_MISSING: return "flag missing";
    case ZENKORV_OUT_OF_RANGE: return "word number out of range";
    case ZENKORV_NO_MATCH: return "no live capability matches";
    case ZENKORV_SOURCE_FAILS: return "source fails its check";
    case ZENKORV_BAD_POINTER: return "bad pointer word";
    case ZENKORV_BAD_INSTRUCTION: return "bad instruction word";
    case ZENKORV_TAGGED_TRANSFER: return "transfer through a tagged pointer";
    case ZENKORV_NOT_GATE: return "not a gate";
    case ZENKORV_BAD_ARGUMENT: return "bad argument list";
    case ZENKORV_NO_FREE_FRAME: return "no free frame";
    case ZENKORV_BAD_RETURN: return "bad return";
    default: return "?";
    }
}

#ifdef __cplusplus
}
#endif

#endif
