/* Records that are sound, but for a dead gate in some; words that are often instructions and lists of arguments; images of both. */
#include <string.h>

#include "capabilities.h"
#include "fuzz.h"

/* Even segments hold code, odd ones a list of arguments: that of a domain whose stack it is. */
static bool is_list(unsigned segment)
{
    return segment % 2 == 1;
}

static unsigned made_length(unsigned most)
{
    unsigned length = one_in(64) ? 4096 : one_in(8) ? 1 + below(4) : 4 + below(40);
    return length < most ? length : most;
}

static uint8_t made_rights(unsigned segment)
{
    static const uint8_t code[] = { 5, 9, 9, 11 };
    static const uint8_t list[] = { 1, 3, 3, 3 };
    if (one_in(6))
        return (uint8_t)below(16);
    return is_list(segment) ? list[below(4)] : code[below(4)];
}

static uint8_t made_segment(unsigned segments, bool list)
{
    unsigned segment = below(segments);
    return (uint8_t)(is_list(segment) != list && !one_in(8) && segments > 1 ? segment ^ 1u : segment) % segments;
}

static void made_segments(uint8_t *bytes, unsigned segments, unsigned domains)
{
    unsigned left = WORDS;
    for (unsigned s = 0; s < segments; s++) {
        unsigned length = made_length(left - (segments - 1 - s));
        left -= length;
        put16(bytes + LENGTHS + 2 * s, length);
        put16(bytes + GATES + 2 * s, is_list(s) && !one_in(4) ? 0 : one_in(2) ? length : below(length + 1));
        bytes[GATE_DOMAINS + s] = (uint8_t)below(domains);
    }
}

static void made_domains(uint8_t *bytes, unsigned segments, unsigned domains)
{
    for (unsigned d = 0; d < domains; d++) {
        bytes[STACKS + d] = made_segment(segments, true);
        for (unsigned s = 0; s < segments; s++)
            bytes[RIGHTS + 16 * d + s] = made_rights(s);
    }
}

/* Gates have E, also code without gates mostly; in one layout of sixteen E is taken from a segment, which may have gates. */
static void made_gates(uint8_t *bytes, unsigned segments)
{
    for (unsigned s = 0; s < segments; s++)
        if (get16(bytes + GATES + 2 * s) != 0 || (!is_list(s) && !one_in(8)))
            bytes[RIGHTS + 16 * bytes[GATE_DOMAINS + s] + s] |= E;
    unsigned taken = below(segments);
    if (one_in(16))
        bytes[RIGHTS + 16 * bytes[GATE_DOMAINS + taken] + taken] &= ALL_BUT_E;
}

void made_layout(uint8_t *bytes)
{
    unsigned segments = one_in(8) ? 16 : one_in(8) ? 1 + below(2) : 3 + below(6);
    unsigned domains = one_in(8) ? 8 : one_in(8) ? 1 : 2 + below(3);
    memset(bytes, 0, RECORD);
    made_segments(bytes, segments, domains);
    made_domains(bytes, segments, domains);
    made_gates(bytes, segments);
    put16(bytes + START, one_in(16) ? below(4096) : one_in(4) ? below(4) : 0);
    bytes[START + 2] = made_segment(segments, false);
    bytes[START + 3] = one_in(8) ? (uint8_t)below(domains) : bytes[GATE_DOMAINS + bytes[START + 2]];
    bytes[SEGMENTS] = (uint8_t)segments;
    bytes[DOMAINS] = (uint8_t)domains;
    restarted(bytes);
}

static void made_pointer(uint8_t *to, unsigned segments, bool tag)
{
    put16(to, one_in(16) ? below(4096) : below(4));
    to[2] = (uint8_t)(one_in(16) ? below(16) : below(segments));
    to[3] = tag;
}

static void made_capability(uint8_t *to, unsigned segments, unsigned domains)
{
    unsigned word = one_in(16) ? below(4096) : below(8);
    unsigned most = 4096 - word;
    unsigned flags = 1 + below(3);
    put16(to, word);
    put16(to + 2, 1 + below(one_in(4) || most < 40 ? most : 40));
    to[4] = (uint8_t)below(segments);
    to[5] = (uint8_t)below(domains);
    to[6] = flags & 1;
    to[7] = (uint8_t)(flags >> 1);
}

static void made_frame(uint8_t *to, unsigned segments, unsigned domains)
{
    to[0] = (uint8_t)(1 + below(9));
    for (unsigned k = 0; k < to[0]; k++)
        made_capability(to + 1 + 8 * k, segments, domains);
    made_pointer(to + 73, segments, one_in(2));
    made_pointer(to + 77, segments, false);
    to[81] = (uint8_t)below(domains);
}

/* A segment with gates into another domain than the executing one, or the number of segments. */
static unsigned made_gate(const uint8_t *bytes)
{
    unsigned s = 0;
    while (s < bytes[SEGMENTS] && (get16(bytes + GATES + 2 * s) == 0 || bytes[GATE_DOMAINS + s] == bytes[EXECUTING]))
        s++;
    return s;
}

/* As if a list had come as an argument: a is tagged, b at the stack, most capabilities of the live frame begin at a. They may be too short. A gate may be called. */
static void made_handed_list(uint8_t *bytes, unsigned segments)
{
    uint8_t *a = bytes + POINTERS;
    uint8_t *frame = bytes + FRAMES + FRAME * (bytes[DEPTH] - 1u);
    const uint8_t stack[] = { 0, 0, bytes[STACKS + bytes[EXECUTING]], 0 };
    memcpy(bytes + POINTERS + 4 * 2, stack, 4);
    if (made_gate(bytes) < segments)
        bytes[RIGHTS + 16 * bytes[EXECUTING] + made_gate(bytes)] = R + G;
    put16(a, one_in(8) ? below(4) : 0);
    a[2] = made_segment(segments, true);
    a[3] = 1;
    for (unsigned k = 0; k < frame[0]; k++) {
        uint8_t *to = frame + 1 + 8 * k;
        if (one_in(4))
            continue;
        memcpy(to, a, 2);
        put16(to + 2, 1 + below(12));
        to[4] = a[2];
    }
}

/* As if words from a on had been an argument of an older frame. */
static void made_older_argument(const uint8_t *bytes, uint8_t *frame)
{
    unsigned most = 4096 - get16(bytes + POINTERS);
    uint8_t *to = frame + 1;
    memcpy(to, bytes + POINTERS, 2);
    put16(to + LENGTH, 1 + below(most < 40 ? most : 40));
    to[OF_SEGMENT] = bytes[POINTERS + 2];
    to[READS] = to[WRITES] = 1;
}

/* A register stays empty, or has a capability of one of the last three of so many frames, often its first, if it may be entered. */
static void made_register(const uint8_t *bytes, uint8_t *to, unsigned frames)
{
    if (frames == 0 || one_in(3))
        return;
    unsigned number = frames - below(frames < 3 ? frames : 3);
    const uint8_t *frame = frame_of(bytes, number);
    unsigned k = one_in(2) ? 0 : below(frame[0]);
    if (!may_be_entered(frame, k))
        return;
    memcpy(to, capability(frame, k), CAPABILITY);
    to[OF_FRAME] = (uint8_t)number;
}

/* Any sound registers, with their numbers in any order; in one record of four all are empty, in some the live frame has none. */
static void made_registers(uint8_t *bytes)
{
    unsigned frames = bytes[DEPTH] == 0 || one_in(4) ? 0 : bytes[DEPTH] - below(2);
    for (unsigned k = 0; k < RECENT_ROWS; k++) {
        uint8_t *r = recent(bytes, k);
        uint8_t *other = recent(bytes, below(k + 1));
        r[RECENCY] = other[RECENCY];
        other[RECENCY] = (uint8_t)k;
        made_register(bytes, r, frames);
    }
}

/* Any sound A, pointers, frames and registers on a layout; one record in four stays fresh, one in four has been handed a list. */
void made_state(uint8_t *bytes)
{
    unsigned segments = bytes[SEGMENTS];
    unsigned domains = bytes[DOMAINS];
    if (one_in(4))
        return;
    put16(bytes + REGISTERS, draw() >> 16);
    put16(bytes + LOCATION, one_in(16) ? below(4097) : one_in(4) ? below(8) : 0);
    bytes[LOCATION + 2] = one_in(16) ? (uint8_t)below(16) : made_segment(segments, false);
    bytes[EXECUTING] = one_in(4) ? (uint8_t)below(domains) : bytes[GATE_DOMAINS + bytes[LOCATION + 2]];
    for (unsigned p = 0; p < 8; p++)
        if (p != 2 || one_in(4))
            made_pointer(bytes + POINTERS + 4 * p, segments, one_in(3));
    bool handed = one_in(3);
    bytes[DEPTH] = (uint8_t)(handed ? 1 + below(7) : one_in(4) ? 8 : below(9));
    for (unsigned f = 0; f < bytes[DEPTH]; f++)
        made_frame(bytes + FRAMES + FRAME * f, segments, domains);
    if (handed)
        made_handed_list(bytes, segments);
    if (bytes[DEPTH] >= 2)
        made_older_argument(bytes, bytes + FRAMES + FRAME * (bytes[DEPTH] - 2u));
    made_registers(bytes);
}

static uint32_t made_pointer_word(unsigned segments)
{
    return below(8) | below(segments) << 12 | (one_in(4) ? 1u << 31 : 0) | (one_in(32) ? 1u << 16 : 0);
}

/* An argument's pointer; one in two is to words of the list's segment. */
static uint32_t made_argument(unsigned segment, unsigned segments)
{
    uint32_t word = made_pointer_word(segments);
    return one_in(2) ? (word & ~0xF000u) | segment << 12 : word;
}

/* Number of arguments, return location, a gate, then pointers and modes in turn. */
static uint32_t made_list_word(unsigned segment, unsigned k, unsigned segments)
{
    if (k == 0)
        return one_in(8) ? below(12) : below(4);
    if (k <= 2)
        return (one_in(2) ? below(4) : 0) | (uint32_t)made_segment(segments, false) << 12;
    return k % 2 == 1 ? made_argument(segment, segments) : (1 + below(3)) << 30 | (1 + below(one_in(16) ? 5000 : 16));
}

static uint32_t made_instruction(void)
{
    uint32_t opcode = 1 + below(12);
    uint32_t offset = one_in(16) ? below(4096) : below(8);
    uint32_t base = one_in(2) ? 2 : below(8);
    uint32_t operand = opcode == 5 || opcode == 6 ? below(8) << 16 : 0;
    if (opcode == 12)
        return opcode << 24 | offset;
    return opcode << 24 | operand | (one_in(4) ? 0x8000 : 0) | base << 12 | offset;
}

/* A reference to a word near a, or through it. */
static uint32_t made_reference(void)
{
    static const uint32_t opcodes[] = { LOAD, LOAD, STORE, ADD, SUB, SPP };
    return opcodes[below(6)] << 24 | (one_in(3) ? INDIRECT : 0) | below(8);
}

/* After a := b often a CALL of the gate in b's list; else these, a RET to the caller, a JUMP to segment 0, HALT, a reference near a, any other. */
static uint32_t made_code_word(uint32_t before, unsigned segments)
{
    static const uint32_t often[] = { 0x05002000, 0x05002000, 0x05002000, 0x09008001, 0x07003000, 0x00000000 };
    if (before == often[0] && !one_in(8))
        return 0x0800A002;
    if (one_in(2))
        return often[below(sizeof often / sizeof often[0])];
    if (one_in(16))
        return one_in(2) ? draw() : made_pointer_word(segments);
    return one_in(4) ? made_reference() : made_instruction();
}

/* Code often begins with a call, or with the return of one. */
static uint32_t made_first_word(unsigned segments)
{
    return one_in(4) ? made_code_word(0, segments) : one_in(4) ? 0x09008001 : 0x05002000;
}

static uint32_t made_word(unsigned segment, unsigned k, uint32_t before, unsigned segments)
{
    if (is_list(segment))
        return made_list_word(segment, k, segments);
    return k == 0 ? made_first_word(segments) : made_code_word(before, segments);
}

/* The word of the stack's list that names a gate names one that may be called, if there is one. */
static void made_gate_word(const uint8_t *bytes, uint32_t *memory)
{
    unsigned stack = bytes[STACKS + bytes[EXECUTING]];
    unsigned gate = made_gate(bytes);
    if (gate < bytes[SEGMENTS] && get16(bytes + LENGTHS + 2 * stack) > 2)
        memory[base_of(bytes, stack) + 2] = gate << 12;
}

/* Where a is tagged, the next instruction is often a CALL of the gate in b's list, or some references come before it. */
static void made_next_words(const uint8_t *bytes, uint32_t *memory)
{
    unsigned segment = bytes[LOCATION + 2];
    unsigned word = get16(bytes + LOCATION);
    if (bytes[POINTERS + 3] == 0 || segment >= bytes[SEGMENTS] || one_in(8))
        return;
    unsigned length = get16(bytes + LENGTHS + 2 * segment);
    unsigned references = one_in(2) ? 1 + below(5) : 0;
    for (unsigned k = 0; k <= references && word + k < length; k++)
        memory[base_of(bytes, segment) + word + k] = k < references ? made_reference() : 0x0800A002;
    if (!one_in(8))
        made_gate_word(bytes, memory);
}

void made_words(const uint8_t *bytes, uint32_t *memory)
{
    uint32_t *to = memory;
    for (unsigned s = 0; s < bytes[SEGMENTS]; s++) {
        unsigned length = get16(bytes + LENGTHS + 2 * s);
        uint32_t word = 0;
        for (unsigned k = 0; k < length; k++) {
            word = made_word(s, k, word, bytes[SEGMENTS]);
            *to++ = word;
        }
    }
    made_next_words(bytes, memory);
}

void made_soup(uint32_t *memory, size_t count)
{
    for (size_t k = 0; k < count; k++)
        memory[k] = made_code_word(k == 0 ? 0 : memory[k - 1], 4);
}

static uint8_t *chunk(uint8_t *to, unsigned length, unsigned kind)
{
    put16(to, length);
    put16(to + 2, kind);
    return to + 4;
}

static uint8_t *segment_chunk(uint8_t *to, const uint8_t *bytes, unsigned s, const uint32_t *memory)
{
    unsigned length = get16(bytes + LENGTHS + 2 * s);
    to = chunk(to, 4 + 4 * length, 2);
    memcpy(to, bytes + GATES + 2 * s, 2);
    to[2] = bytes[GATE_DOMAINS + s];
    to[3] = 0;
    memcpy(to + 4, memory + base_of(bytes, s), 4 * length);
    return to + 4 + 4 * length;
}

size_t made_image(const uint8_t *bytes, const uint32_t *memory, uint8_t *to)
{
    uint8_t *at = chunk(to, 8, 1);
    unsigned segments = bytes[SEGMENTS];
    unsigned domains = bytes[DOMAINS];
    memset(at, 0, 8);
    at[0] = (uint8_t)segments;
    at[1] = (uint8_t)domains;
    at[2] = bytes[START + 3];
    put16(at + 4, get16(bytes + START) | (unsigned)bytes[START + 2] << 12);
    at += 8;
    for (unsigned s = 0; s < segments; s++)
        at = segment_chunk(at, bytes, s, memory);
    for (unsigned d = 0; d < domains; d++) {
        at = chunk(at, 1 + segments, 3);
        *at++ = bytes[STACKS + d];
        memcpy(at, bytes + RIGHTS + 16 * d, segments);
        at += segments;
    }
    return (size_t)(chunk(at, 0, 4) - to);
}
