/*
 * The record counter's journal of 02, request 4, for C (C99) and C++: numbers that are never handed
 * out twice, also where the power is cut. docs/LIBRARY.md says how to link it, and what is proved.
 */
#ifndef ROSTUVLAD_JOURNAL_H
#define ROSTUVLAD_JOURNAL_H

#include <stddef.h>
#include <stdint.h>

#ifdef __cplusplus
extern "C" {
#endif

enum {
    ROSTUVLAD_JOURNAL_SIZE = 4096, /* bytes of an area; a fresh one is all zero */
    ROSTUVLAD_JOURNAL_SLOTS = 341, /* raises that an area holds */
    ROSTUVLAD_JOURNAL_STORES = 11  /* byte stores of a raise, the last of which makes it count */
};

/* What every call returns. A call that is refused writes through no pointer. */
enum rostuvlad_journal_result {
    ROSTUVLAD_JOURNAL_DONE = 0,
    ROSTUVLAD_JOURNAL_REFUSED = 1
};

/*
 * The area holds the ceilings; numbers below the last one may be handed out. It lies where it
 * outlives the power. The counter, one uint64_t, is the next number of this run, and need not.
 *
 *     restart            at the start of each run: the counter begins at the last ceiling
 *     raise              a new ceiling, in the next free slot
 *     next .. next       the numbers up to it
 *
 * So a run asks for a raise before its first number, and the numbers that the run before it left
 * below the ceiling are lost. An area is full after ROSTUVLAD_JOURNAL_SLOTS raises, and nothing here
 * empties it: a cleared one begins at 0 again. Choose the steps of the ceiling by that.
 *
 * area    size bytes; a size other than ROSTUVLAD_JOURNAL_SIZE is refused by every call, as is an
 *         area that is not well formed. Well formed (02): each slot's length is 0 or 10, no taken
 *         slot follows a free one, every taken slot has kind 1, and ceilings rise strictly.
 * next    the counter.
 * number  where a number that is handed out goes; written and not read.
 *
 * No number is handed out twice if
 * - the area was fresh once, and nothing has written to it since but these calls;
 * - each run begins with a restart, has one counter, and nothing changes it but these calls;
 * - the stores of a raise reach the medium in their order, and before the next number is handed out.
 *   The library makes them in order, as its object code shows; but the compiler was not bound to,
 *   and what a cache, a write buffer or a flash page makes of them is up to the caller.
 *   docs/LIBRARY.md, "Order on the medium", says what can be done.
 *
 * The library can't test what follows, and its proof takes it for granted:
 * - no pointer is null, and the area has the size that is said, also where that is a wrong one;
 * - next and number are aligned as uint64_t, and neither overlaps the other or the area;
 * - area and next are initialised; but next before a restart, which doesn't read it, and number
 *   need not be;
 * - during a call nothing else writes to the area, the counter or the number, or reads what the call
 *   writes.
 *
 * A call leaves nothing behind but what it wrote. So calls may run at once, in threads, each on an
 * area, a counter and a number of its own.
 */

/* Sets next to the last ceiling, or to 0 with none. Refused if the area is not well formed. */
uint8_t rostuvlad_journal_restart(const uint8_t *area, size_t size, uint64_t *next);

/*
 * Hands out the next number: number becomes next, and next is one higher. Refused if the area is not
 * well formed, or next is not below the last ceiling.
 */
uint8_t rostuvlad_journal_next(const uint8_t *area, size_t size, uint64_t *next, uint64_t *number);

/*
 * Raises the ceiling, by ROSTUVLAD_JOURNAL_STORES byte stores in the first free slot. Refused if the
 * area is not well formed, all slots are taken, or the ceiling is not above the last one (0 with none).
 */
uint8_t rostuvlad_journal_raise(uint8_t *area, size_t size, uint64_t ceiling);

/*
 * The same, but it stops after so many of the stores: with ROSTUVLAD_JOURNAL_STORES or more it is a
 * raise, and with fewer what a power cut leaves of one. The old ceiling still counts then, and
 * ROSTUVLAD_JOURNAL_DONE means only that it was not refused. Another raise begins at the first store
 * again, in the same slot.
 */
uint8_t rostuvlad_journal_raise_part(uint8_t *area, size_t size, uint64_t ceiling, uint8_t stores);

#ifdef __cplusplus
}
#endif

#endif
