/*
 * The proved player of 01 and 02 for C (C99) and C++. docs/LIBRARY.md says how to link it, and what is proved.
 */
#ifndef ROSTUVLAD_H
#define ROSTUVLAD_H

#include <stdbool.h>
#include <stddef.h>
#include <stdint.h>

#ifdef __cplusplus
extern "C" {
#endif

enum {
    ROSTUVLAD_MANAGEMENT_SIZE = 65536, /* bytes of management memory, exactly */
    ROSTUVLAD_LARGEST_MAIN = 1048576,  /* bytes of main memory, at most */
    ROSTUVLAD_RECORD_LIMIT = 10000     /* records after which the player stops */
};

/*
 * What a step answers (01, "Numbers the bench sees"). 1 to 5 refuse it: machine and memories stay,
 * and the player goes on.
 */
enum rostuvlad_answer {
    ROSTUVLAD_DONE = 0,
    ROSTUVLAD_WRONG_SIZE = 1, /* a memory has one */
    ROSTUVLAD_MALFORMED = 2,
    ROSTUVLAD_HALTED = 3, /* a program step on a halted machine */
    ROSTUVLAD_INVALID_OPCODE = 4,
    ROSTUVLAD_ABSENT_MEMORY = 5,
    ROSTUVLAD_VALUE = 6, /* a value was read; all others carry 0 */
    ROSTUVLAD_EXTERNAL = 7,
    ROSTUVLAD_NOTHING = 8,
    ROSTUVLAD_IGNORED = 9,
    ROSTUVLAD_LATCHED = 10,
    ROSTUVLAD_ENTERED = 11,
    ROSTUVLAD_RESUMED = 12
};

/* Why the player stopped. */
enum rostuvlad_reason {
    ROSTUVLAD_END = 0,   /* no bytes left */
    ROSTUVLAD_LIMIT = 1, /* bytes, or turns of a group, left after ROSTUVLAD_RECORD_LIMIT records */
    ROSTUVLAD_TORN = 2,  /* fewer than 2 bytes left, or a length that overshoots the trace */
    ROSTUVLAD_BAD = 3    /* a length below 2, an unknown kind, a wrong length for it, or a bad group */
};

/* The kinds of records. */
enum rostuvlad_kind {
    ROSTUVLAD_KIND_RESET = 1,
    ROSTUVLAD_KIND_REGISTERS = 2,
    ROSTUVLAD_KIND_DATA_READ = 3,
    ROSTUVLAD_KIND_DATA_WRITE = 4,
    ROSTUVLAD_KIND_PORT_READ = 5,
    ROSTUVLAD_KIND_PORT_WRITE = 6,
    ROSTUVLAD_KIND_OPCODE = 7,
    ROSTUVLAD_KIND_BOUNDARY = 8,
    ROSTUVLAD_KIND_HALT = 9,
    ROSTUVLAD_KIND_WAKE = 10
};

/*
 * The two players below play a trace from reset over two lent memories. They differ only in the
 * edition of the machine that they start from. The result is the count of records played.
 *
 * trace        trace_length bytes, any number; only read. (The limit of 65,536 bytes and the word
 *              "long" belong to the programs replay and replay_mii.)
 * main_memory  main_length bytes, 0 to ROSTUVLAD_LARGEST_MAIN. Taken as lent, since reset clears no
 *              memory; it is left as the steps leave it.
 * management   management_length bytes, ROSTUVLAD_MANAGEMENT_SIZE; otherwise as main_memory.
 * events       ROSTUVLAD_RECORD_LIMIT numbers, however short the trace, aligned as uint64_t. One
 *              is written for each record, from the first on; those past the count stay. None is
 *              read.
 * reason       one byte, written and not read: an enum rostuvlad_reason.
 *
 * A memory of another length is no error of the call: every record then answers
 * ROSTUVLAD_WRONG_SIZE and no byte of either memory changes, while count and reason are the same.
 *
 * The library can't test what follows, and its proof takes it for granted:
 * - no pointer is null, not even one with length 0;
 * - each buffer has the size that is said, and none overlaps another;
 * - the trace and the memories are initialised;
 * - during the call nothing else writes to a buffer, or reads one but the trace.
 *
 * A call leaves nothing behind but what it wrote. So calls may run at once, in threads, each on
 * memories, events and a reason of its own; they may share a trace.
 */
typedef size_t rostuvlad_player(const uint8_t *trace, size_t trace_length,
                                uint8_t *main_memory, size_t main_length,
                                uint8_t *management, size_t management_length,
                                uint64_t events[ROSTUVLAD_RECORD_LIMIT], uint8_t *reason);

rostuvlad_player rostuvlad_replay;     /* the 486 edition */
rostuvlad_player rostuvlad_replay_mii; /* the later core, the MII edition (02 request 1) */

/* The answer to a record: an enum rostuvlad_answer. */
static inline uint8_t rostuvlad_event_answer(uint64_t event)
{
    return (uint8_t)(event & 0xFF);
}

/* The record's kind: an enum rostuvlad_kind. */
static inline uint8_t rostuvlad_event_kind(uint64_t event)
{
    return (uint8_t)(event >> 8 & 0xFF);
}

/* Whether the machine was inside management mode before the step. */
static inline bool rostuvlad_event_inside(uint64_t event)
{
    return (event >> 16 & 1) == 1;
}

/* The value read, or 0. */
static inline uint32_t rostuvlad_event_value(uint64_t event)
{
    return (uint32_t)(event >> 32);
}

#ifdef __cplusplus
}
#endif

#endif
