/* What must hold of the frame that a CALL through a gate makes, and of the registers after a step, worked out from the records before and after it. */
#include <string.h>

#include "capabilities.h"
#include "fuzz.h"

static const uint8_t *record_before(void)
{
    return record.kept + (record.at - record.room);
}

/* The source of a capability is that of the first one of the live frame before that covers it. */
static bool passed_on(const uint8_t *before, const uint8_t *c)
{
    const uint8_t *from = first_covering(before, c);
    return from != NULL && from[SOURCE] == c[SOURCE];
}

/* The list lies at a; its source is the caller, or, where a is tagged, is passed on. */
static void judge_list(const uint8_t *before, const uint8_t *list, unsigned arguments)
{
    const uint8_t *a = before + POINTERS;
    must(list[OF_SEGMENT] == a[2] && get16(list) == get16(a), "step", "the last capability must be that of the list at a");
    must(get16(list + LENGTH) == 3 + 2 * arguments, "step", "the list must have 3 words and 2 for each argument");
    must(list[READS] == 1 && list[WRITES] == 0, "step", "the list must be lent to be read alone");
    if (a[3] == 0)
        must(list[SOURCE] == before[EXECUTING], "step", "the caller must be the source of a list at an untagged a");
    else
        must(passed_on(before, list), "step", "a list at a tagged a must have the source of the first capability that covers it");
    count_frame(a[3], arguments);
}

/* After a step: if it called through a gate, there is a new frame. */
void judge_frame(void)
{
    const uint8_t *before = record_before();
    const uint8_t *a = record.at + POINTERS;
    if (record.at[DEPTH] != before[DEPTH] + 1)
        return;
    const uint8_t *frame = newest_frame(record.at);
    unsigned arguments = frame[0] - 1u;
    must(arguments <= 8, "step", "a frame must have a list, and at most 8 arguments");
    judge_list(before, capability(frame, arguments), arguments);
    for (unsigned k = 0; k < arguments; k++) {
        const uint8_t *c = capability(frame, k);
        must(c[SOURCE] == before[EXECUTING] || passed_on(before, c), "step", "an argument must be the caller's, or be passed on");
    }
    must(memcmp(record.at + FRAMES, before + FRAMES, FRAME * before[DEPTH]) == 0, "step", "the frames before must stay");
    must(frame[CALLER] == before[EXECUTING], "step", "the frame must have the calling domain");
    must(memcmp(frame + CALLER_S, before + POINTERS + 4, 4) == 0, "step", "the frame must have the caller's s");
    must(memcmp(a, before + POINTERS, 3) == 0 && a[3] == 1, "step", "a must stay, and be tagged");
}

/* The word before the step at a pointer or the location, or, where there is none, one that is neither instruction nor number. */
static uint32_t word_at(const uint8_t *place)
{
    const uint8_t *memory = words.kept + (words.at - words.room);
    uint32_t word = UINT32_MAX;
    if (place[2] < record.at[SEGMENTS] && get16(place) < get16(record.at + LENGTHS + 2 * place[2]))
        memcpy(&word, memory + 4 * (base_of(record.at, place[2]) + get16(place)), 4);
    return word;
}

/* At a CALL whose effective pointer is formed by rights alone. */
static bool at_call(void)
{
    uint32_t instruction = word_at(record.at + LOCATION);
    return instruction >> 24 == CALL && record.at[POINTERS + 4 * (instruction >> 12 & 7) + 3] == 0;
}

/* After a step that gave 24: counts it where a is tagged, and a capability covers the list's first word, but none the whole list. */
void count_uncovered_list(void)
{
    const uint8_t *a = record.at + POINTERS;
    uint8_t list[CAPABILITY] = { a[0], a[1], 1, 0, a[2], 0, 1, 0 };
    uint32_t arguments = word_at(a);
    if (!at_call() || a[3] == 0 || arguments > 8 || first_covering(record.at, list) == NULL)
        return;
    put16(list + LENGTH, 3 + 2 * arguments);
    if (first_covering(record.at, list) == NULL)
        count_uncovered(arguments);
}

/* A new entry, which may replace a register of an older frame. */
static void enter_counted(uint8_t *due, const uint8_t *c, unsigned frame)
{
    unsigned k = register_at_number(due, 0);
    if (row_of(due, k)[OF_FRAME] != 0 && row_of(due, k)[OF_FRAME] < frame)
        count_use(OLDER_REPLACED, k);
    enter(due, c, frame);
}

/* The lowest register that covers a reference, of the live frame or of another one, or as many as there are. */
static unsigned lowest_match(const uint8_t *due, const uint8_t *made, bool live)
{
    unsigned k = 0;
    while (k < RECENT_ROWS && ((row_of(due, k)[OF_FRAME] == due[DEPTH]) != live || !covers(row_of(due, k), made)))
        k++;
    return k;
}

/* A reference that passed: through a tagged pointer, the lowest register of the live frame that matches rises, or what the search finds is entered. */
static void refer(uint8_t *due, const uint8_t *pointer, bool write)
{
    const uint8_t made[CAPABILITY] = { pointer[0], pointer[1], 1, 0, pointer[2], 0, !write, write };
    const uint8_t *found = first_covering(due, made);
    if (pointer[3] == 0 || found == NULL)
        return;
    unsigned k = lowest_match(due, made, true);
    if (k < RECENT_ROWS) {
        count_use(MATCHED, row_of(due, k)[RECENCY]);
        rise(due, k);
        return;
    }
    if (lowest_match(due, made, false) < RECENT_ROWS)
        count_use(PASSED_OVER, due[DEPTH]);
    bool enters = may_be_held(newest_frame(due), found);
    count_use(enters ? ENTERED_FOUND : NOT_ENTERED, due[DEPTH]);
    if (enters)
        enter_counted(due, found, due[DEPTH]);
}

/* Base register and offset; the word number is in range, since the step was completed. */
static void form(uint8_t *pointer, const uint8_t *bytes, uint32_t instruction)
{
    memcpy(pointer, bytes + POINTERS + 4 * (instruction >> 12 & 7), 4);
    put16(pointer, (get16(pointer) + instruction) & 0xFFF);
}

/* The pointer in the word that a pointer leads to, tagged if either is. */
static void follow(uint8_t *pointer)
{
    uint32_t word = word_at(pointer);
    put16(pointer, word & 0xFFF);
    pointer[2] = word >> 12 & 15;
    pointer[3] |= (uint8_t)(word >> 31);
}

/* The references of an instruction, save those to a list: the indirect word, then the operand. */
static void refer_by_instruction(uint8_t *due)
{
    uint8_t pointer[4];
    uint32_t instruction = word_at(due + LOCATION);
    unsigned opcode = instruction >> 24;
    if (opcode == LIT)
        return;
    form(pointer, due, instruction);
    if ((instruction & INDIRECT) != 0) {
        refer(due, pointer, false);
        follow(pointer);
    }
    if (opcode == LOAD || opcode == ADD || opcode == SUB)
        refer(due, pointer, false);
    if (opcode == STORE || opcode == SPP)
        refer(due, pointer, true);
}

/* The caller reads all words of the list at a but word 2; then the list's capability is entered, if it may be. */
static void call_by_list(uint8_t *due)
{
    uint8_t pointer[4];
    const uint8_t *frame = newest_frame(record.at);
    unsigned list = frame[0] - 1u;
    memcpy(pointer, due + POINTERS, 4);
    for (unsigned k = 0; k < 3 + 2 * list; k++) {
        put16(pointer, get16(due + POINTERS) + k);
        if (k != 2)
            refer(due, pointer, false);
    }
    bool enters = may_be_entered(frame, list);
    count_use(enters ? LIST_ENTERED : LIST_NOT_ENTERED, list);
    if (enters)
        enter_counted(due, capability(frame, list), record.at[DEPTH]);
}

static void count_cleared(const uint8_t *due)
{
    unsigned filled = 0;
    for (unsigned k = 0; k < RECENT_ROWS; k++)
        filled += row_of(due, k)[OF_FRAME] == due[DEPTH];
    if (filled != 0)
        count_use(CLEARED, filled - 1);
}

/* After a step that was completed and is no HALT: the registers are those of its references, in their order, then of its crossing. */
void judge_registers(void)
{
    uint8_t due[RECORD];
    const char *what = "the registers must be renewed by references through tagged pointers, and by them alone";
    memcpy(due, record_before(), RECORD);
    refer_by_instruction(due);
    if (record.at[DEPTH] > due[DEPTH]) {
        what = "a call must enter its list, where it may be entered, after its references";
        call_by_list(due);
    }
    if (record.at[DEPTH] < due[DEPTH]) {
        what = "a return must empty the registers of its frame, which come first, and keep the order of the others";
        count_cleared(due);
        clear(due, due[DEPTH]);
    }
    must(memcmp(record.at + RECENT, due + RECENT, RECENT_BYTES) == 0, "step", what);
}

/* The executing domain may execute the word at the location. */
static bool fetched(const uint8_t *bytes)
{
    unsigned segment = bytes[LOCATION + 2];
    return segment < bytes[SEGMENTS] && get16(bytes + LOCATION) < get16(bytes + LENGTHS + 2 * segment) &&
           (bytes[RIGHTS + 16 * bytes[EXECUTING] + segment] & E) != 0;
}

/* After a step that faulted: counts it where its indirect word was read through a tagged pointer before. */
void count_fault_between(void)
{
    uint8_t pointer[4];
    uint32_t instruction = word_at(record.at + LOCATION);
    unsigned offset = instruction & 0xFFF;
    form(pointer, record.at, instruction);
    bool in_range = offset < 0x800 ? get16(pointer) >= offset : get16(pointer) < offset;
    if (instruction >> 24 < LIT && fetched(record.at) && (instruction & INDIRECT) != 0 && in_range && pointer[3] == 1 &&
        live_code(0, pointer[2], (uint16_t)get16(pointer)) < 0x10000)
        count_use(FAULT_BETWEEN, record.at[DEPTH]);
}
