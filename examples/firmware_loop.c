/* A bare-metal loop: a static store, no heap, no system calls; of a C library only memset is needed. */
#include "broker.h"

#define ENTRIES 32
#define DUE 64 /* a dispatch takes at least one permit: with no more granted in all, push never says 15 */

static uint64_t store[BROKER_NEEDED(ENTRIES)], records[DUE * BROKER_RECORD_WORDS];

/* The board's own: makes the next command's call, sends a record, shows why the loop ended. */
extern uint64_t board_command(uint64_t *words, size_t n);
extern void board_send(const uint64_t *record);
extern void board_halt(unsigned number);

void firmware_loop(void)
{
    const size_t n = sizeof store / sizeof *store, m = sizeof records / sizeof *records;
    uint64_t answer = broker_open(store, n, ENTRIES, 0, 0);
    while (BROKER_NUMBER(answer) == BROKER_DONE) { /* else 1: a word of the store was damaged */
        int64_t i;
        board_command(store, n);
        answer = broker_push(store, n, records, m);
        for (i = 0; BROKER_NUMBER(answer) == BROKER_DONE && i < BROKER_VALUE(answer); i++)
            board_send(records + (size_t)i * BROKER_RECORD_WORDS);
    }
    board_halt(BROKER_NUMBER(answer));
}
