/*
 * The record counter's journal, with a raise that the loss of power cuts off, and with what is
 * refused. examples/run holds what this prints to what was worked out from 02, request 4, by hand.
 */
#include <inttypes.h>
#include <stdio.h>

#include "rostuvlad_journal.h"

static uint8_t area[ROSTUVLAD_JOURNAL_SIZE]; /* in a product, memory that outlives the power */
static uint64_t next;

static const char *word(uint8_t result)
{
    return result == ROSTUVLAD_JOURNAL_DONE ? "done" : "refused";
}

static void restart(void)
{
    if (rostuvlad_journal_restart(area, sizeof area, &next) == ROSTUVLAD_JOURNAL_DONE) {
        printf("restart: numbers begin at %" PRIu64 "\n", next);
    } else {
        puts("restart: refused");
    }
}

static void hand_out(void)
{
    uint64_t number;

    if (rostuvlad_journal_next(area, sizeof area, &next, &number) == ROSTUVLAD_JOURNAL_DONE) {
        printf("next: %" PRIu64 "\n", number);
    } else {
        puts("next: refused");
    }
}

static void raise_to(uint64_t ceiling)
{
    printf("raise %" PRIu64 ": %s\n", ceiling,
           word(rostuvlad_journal_raise(area, sizeof area, ceiling)));
}

static void cut_raise_to(uint64_t ceiling, uint8_t stores)
{
    printf("raise %" PRIu64 ", cut after %" PRIu8 " stores: %s\n", ceiling, stores,
           word(rostuvlad_journal_raise_part(area, sizeof area, ceiling, stores)));
}

static void show_slot(size_t slot)
{
    printf("slot %zu:", slot);
    for (size_t k = 12 * slot; k < 12 * slot + 12; k++) {
        printf(" %02" PRIx8, area[k]);
    }
    putchar('\n');
}

int main(void)
{
    /* a fresh area, and the numbers up to a ceiling */
    restart();
    hand_out();
    raise_to(3);
    for (int k = 0; k < 4; k++) {
        hand_out();
    }
    raise_to(3);
    show_slot(0);

    /* the power goes, with two stores of the kind made and five of the ceiling */
    cut_raise_to(0x0102030405060708, 7);
    show_slot(1);
    restart();
    hand_out();

    /* the slot is used again */
    raise_to(5);
    show_slot(1);
    for (int k = 0; k < 3; k++) {
        hand_out();
    }

    /* ten stores, a barrier, where the medium needs one, and the raise: it makes these ten again and
       then the last */
    cut_raise_to(1000, ROSTUVLAD_JOURNAL_STORES - 1);
    show_slot(2);
    raise_to(1000);
    show_slot(2);
    hand_out();

    /* after a restart the rest of the numbers below the ceiling is lost */
    restart();

    /* the slots that are left */
    int raises = 0;
    while (rostuvlad_journal_raise(area, sizeof area, 1001 + (uint64_t)raises) == ROSTUVLAD_JOURNAL_DONE) {
        raises++;
    }
    printf("%d raises more, then refused; slots: %d\n", raises, ROSTUVLAD_JOURNAL_SLOTS);
    restart();

    /* what a refusal leaves as it was */
    uint64_t other = 77, number = 88;
    uint8_t result = rostuvlad_journal_restart(area, sizeof area - 1, &other);
    printf("restart of 4095 bytes: %s, next %" PRIu64 "\n", word(result), other);
    area[2] = 2;
    result = rostuvlad_journal_next(area, sizeof area, &other, &number);
    printf("next with kind 2 in slot 0: %s, next %" PRIu64 ", number %" PRIu64 "\n", word(result), other,
           number);
    return 0;
}
