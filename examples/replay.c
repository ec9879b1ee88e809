/*
 * Replays 01's printed example, a trace on a management memory that the caller filled, and one on
 * the later core. examples/run holds what this prints to what was worked out from 01 and 02 by hand.
 */
#include <inttypes.h>
#include <stdio.h>

#include "rostuvlad.h"

static const uint8_t printed[] = {
    5, 0, 6, 0, 0x22, 0, 0xC1, /* out 22h C1h */
    5, 0, 6, 0, 0x23, 0, 0x06, /* out 23h 06h */
    5, 0, 6, 0, 0x22, 0, 0xC1, /* out 22h C1h */
    4, 0, 5, 0, 0x23, 0,       /* in 23h */
};

static const uint8_t window[] = {
    /* SMAR 000683h: the region is 16 KiB at 68000h, and its byte k is management[k] */
    5, 0, 6, 0, 0x22, 0, 0xCD,
    5, 0, 6, 0, 0x23, 0, 0x00,
    5, 0, 6, 0, 0x22, 0, 0xCE,
    5, 0, 6, 0, 0x23, 0, 0x06,
    5, 0, 6, 0, 0x22, 0, 0xCF,
    5, 0, 6, 0, 0x23, 0, 0x83,
    /* CCR1 06h: USE_SMI and SMAC, the window is open */
    5, 0, 6, 0, 0x22, 0, 0xC1,
    5, 0, 6, 0, 0x23, 0, 0x06,
    /* read 4 68010h; write 4 68020h 11223344h; read 2 68022h */
    7, 0, 3, 0, 4, 0x10, 0x80, 0x06, 0,
    11, 0, 4, 0, 4, 0x20, 0x80, 0x06, 0, 0x44, 0x33, 0x22, 0x11,
    7, 0, 3, 0, 2, 0x22, 0x80, 0x06, 0,
    /* CCR1 02h: closed. read 4 68020h is main memory's then, beyond its end */
    5, 0, 6, 0, 0x22, 0, 0xC1,
    5, 0, 6, 0, 0x23, 0, 0x02,
    7, 0, 3, 0, 4, 0x20, 0x80, 0x06, 0,
    /* boundary with SMI at 1000h; the handler's read 4 68020h, and a wake */
    19, 0, 8, 0, 1, 0x00, 0x10, 0, 0, 0, 0, 0, 0, 0, 0, 0, 0, 0, 0, 0, 0,
    7, 0, 3, 0, 4, 0x20, 0x80, 0x06, 0,
    2, 0, 10, 0,
};

static const uint8_t later[] = {
    /* SMAR 000683h again, and CCR1 06h */
    5, 0, 6, 0, 0x22, 0, 0xCE,
    5, 0, 6, 0, 0x23, 0, 0x06,
    5, 0, 6, 0, 0x22, 0, 0xCF,
    5, 0, 6, 0, 0x23, 0, 0x83,
    5, 0, 6, 0, 0x22, 0, 0xC1,
    5, 0, 6, 0, 0x23, 0, 0x06,
    /* write 4 100h 69000h; wrshr 100h next=1003h: the header ends at 69000h, in mid-region */
    11, 0, 4, 0, 4, 0x00, 0x01, 0, 0, 0x00, 0x90, 0x06, 0,
    12, 0, 7, 0, 0x37, 0x05, 0x00, 0x01, 0, 0, 0x03, 0x10, 0, 0,
    /* CCR1 02h, a boundary with SMI at 1000h, and RSM */
    5, 0, 6, 0, 0x22, 0, 0xC1,
    5, 0, 6, 0, 0x23, 0, 0x02,
    19, 0, 8, 0, 1, 0x00, 0x10, 0, 0, 0, 0, 0, 0, 0, 0, 0, 0, 0, 0, 0, 0,
    12, 0, 7, 0, 0xAA, 0, 0, 0, 0, 0, 0, 0, 0, 0,
};

static uint8_t main_memory[65536];
static uint8_t management[ROSTUVLAD_MANAGEMENT_SIZE];
static uint64_t events[ROSTUVLAD_RECORD_LIMIT];

static size_t replay(rostuvlad_player *player, const uint8_t *trace, size_t length)
{
    static const char *const words[] = {"end", "limit", "torn", "bad"};
    uint8_t reason;
    size_t count = player(trace, length, main_memory, sizeof main_memory,
                          management, sizeof management, events, &reason);

    for (size_t i = 0; i < count; i++) {
        printf("%" PRIu8 " %08" PRIx32 "\n", rostuvlad_event_answer(events[i]),
               rostuvlad_event_value(events[i]));
    }
    puts(words[reason]);
    return count;
}

static void show_management(size_t from, size_t to)
{
    printf("management %zXh to %zXh:", from, to);
    for (size_t k = from; k <= to; k++) {
        printf(" %02" PRIx8, management[k]);
    }
    putchar('\n');
}

int main(void)
{
    replay(rostuvlad_replay, printed, sizeof printed);

    for (size_t k = 0; k < sizeof management; k++) {
        management[k] = (uint8_t)k;
    }
    size_t count = replay(rostuvlad_replay, window, sizeof window);
    for (size_t i = 0; i < count; i++) {
        if (rostuvlad_event_inside(events[i])) {
            printf("record %zu, of kind %" PRIu8 ", was inside\n", i + 1,
                   rostuvlad_event_kind(events[i]));
        }
    }
    show_management(0x1F, 0x24);

    replay(rostuvlad_replay_mii, later, sizeof later);
    for (size_t from = 0xFC0; from <= 0x1000; from += 16) {
        show_management(from, from + 15);
    }
    return 0;
}
