/*
 * A morning's commands in one call. A terminal that has many in hand queues them as a script and makes them
 * in a row, which checks the store once and not once for each. Then it goes through the answers, one for each
 * command, and through the list, where every push has put its records behind those of the push before. A second
 * row is lent too few answers, is refused and has done nothing, and is made again with as many as it needs.
 *
 *     cc -std=c99 -Iinclude examples/row.c target/staticlib/libbroker.a -o row
 */
#include "broker.h"

#include <inttypes.h>
#include <stdio.h>
#include <string.h>

/* E: messages kept per topic. */
#define ENTRIES 32
#define WORDS BROKER_NEEDED(ENTRIES)

/* Room for a row: words of its script, calls, and dispatches of all its pushes together. */
#define ROOM 100
#define CALLS 24
#define DUE 4

enum { ORDERS = 1, PRICES = 2 };                     /* topics */
enum { MARKET = 1, OFFICE = 2 };                     /* subscriptions */
enum { ANNA = 7, BERT = 8, CLERK = 20, NOBODY = 99 }; /* consumers */

static uint64_t store[WORDS];
static uint64_t script[ROOM], answers[CALLS], records[DUE * BROKER_RECORD_WORDS];

/* ---- the queue ---- */

static const char *commands[CALLS]; /* what the calls of the script are, for people */
static size_t queued, used;         /* how many they are, and how many words they take */

/* Puts a call of n words at the script's end. Where the queue is full it says so and leaves the call out. */
static void queue(const char *command, const uint64_t *words, size_t n)
{
    if (queued == CALLS || n > ROOM - used) {
        printf("  %-32s waits: the queue is full\n", command);
        return;
    }
    memcpy(script + used, words, n * sizeof *words);
    used += n;
    commands[queued++] = command;
}

/* A command and its call: one of BROKER_CALL_..., with the words of its list behind it if it has one. */
#define QUEUE(command, ...) \
    queue(command, (const uint64_t[]){__VA_ARGS__}, sizeof((const uint64_t[]){__VA_ARGS__}) / sizeof(uint64_t))

/* ---- the row ---- */

static const char *name(uint64_t consumer)
{
    switch (consumer) {
    case ANNA: return "Anna";
    case BERT: return "Bert";
    case CLERK: return "the clerk";
    default: return "nobody";
    }
}

static void say(const char *what, uint64_t answer)
{
    if (BROKER_NUMBER(answer) == BROKER_DONE)
        printf("  %-32s done, value %" PRId64 "\n", what, BROKER_VALUE(answer));
    else
        printf("  %-32s refused, %u, value %" PRId64 "\n", what, BROKER_NUMBER(answer), BROKER_VALUE(answer));
}

static void say_record(const uint64_t *r)
{
    printf("    %s gets (%" PRIu64 ",%" PRIu64 "), handle %" PRIu64 "\n", name(r[BROKER_RECORD_CONSUMER]),
           r[BROKER_RECORD_LEDGER], r[BROKER_RECORD_ENTRY], r[BROKER_RECORD_HANDLE]);
}

/* Each command with its answer, and under each push the records that it made. */
static void go_through(void)
{
    const uint64_t *call = script, *record = records;
    size_t i;
    int64_t made;
    for (i = 0; i < queued; i++) {
        say(commands[i], answers[i]);
        if (call[0] == BROKER_CALL_KIND_PUSH && BROKER_NUMBER(answers[i]) == BROKER_DONE)
            for (made = BROKER_VALUE(answers[i]); made > 0; made--, record += BROKER_RECORD_WORDS)
                say_record(record);
        call += 2 + call[1]; /* past kind, count and as many words stands the next call */
    }
}

/* Makes what is queued in one row with so many answers. Done, the queue is empty; refused, it is as it was. */
static uint64_t make_row(size_t room)
{
    uint64_t answer = broker_calls(store, WORDS, script, used, answers, room, records, DUE * BROKER_RECORD_WORDS);
    printf("A row of %lu calls in %lu words, with %lu answers\n", (unsigned long)queued, (unsigned long)used,
           (unsigned long)room);
    say("the row", answer);
    if (BROKER_NUMBER(answer) == BROKER_DONE) {
        go_through();
        queued = used = 0;
    }
    return answer;
}

/* ---- the market ---- */

static void morning(void)
{
    QUEUE("Anna subscribes, shared", BROKER_CALL_SUBSCRIBE(ANNA, BROKER_SHARED, ORDERS, MARKET));
    QUEUE("Bert subscribes, shared", BROKER_CALL_SUBSCRIBE(BERT, BROKER_SHARED, ORDERS, MARKET));
    QUEUE("the clerk subscribes, plain", BROKER_CALL_SUBSCRIBE(CLERK, BROKER_PLAIN, PRICES, OFFICE));
    QUEUE("order (1,0), handle 500", BROKER_CALL_APPEND(ORDERS, 1, 0, 500, 0));
    QUEUE("order (1,1), a batch of 3", BROKER_CALL_APPEND(ORDERS, 1, 1, 501, 3));
    QUEUE("order (1,1) once more", BROKER_CALL_APPEND(ORDERS, 1, 1, 501, 3));
    QUEUE("price (1,0), handle 900", BROKER_CALL_APPEND(PRICES, 1, 0, 900, 0));
    QUEUE("Anna grants 2", BROKER_CALL_FLOW(ANNA, 2));
    QUEUE("Bert grants 1", BROKER_CALL_FLOW(BERT, 1));
    QUEUE("nobody grants 5", BROKER_CALL_FLOW(NOBODY, 5));
    QUEUE("push", BROKER_CALL_PUSH);
    QUEUE("Anna acks (1,0)", BROKER_CALL_ACK(ANNA, 3), 1, 0, 0);
    QUEUE("Bert acks a list cut short", BROKER_CALL_ACK(BERT, 2), 1, 1);
    QUEUE("the clerk grants 5", BROKER_CALL_FLOW(CLERK, 5));
    QUEUE("push", BROKER_CALL_PUSH);
    QUEUE("Bert closes", BROKER_CALL_CLOSE(BERT));
    QUEUE("price (1,1), handle 901", BROKER_CALL_APPEND(PRICES, 1, 1, 901, 0));
    QUEUE("push", BROKER_CALL_PUSH); /* one record is left of the list, and two are due: 15 */
    QUEUE("price (1,2), handle 902", BROKER_CALL_APPEND(PRICES, 1, 2, 902, 0));
    QUEUE("order (1,2), handle 502", BROKER_CALL_APPEND(ORDERS, 1, 2, 502, 0)); /* has to wait for the next row */
    make_row(CALLS);
}

static void noon(void)
{
    uint64_t answer;
    QUEUE("push", BROKER_CALL_PUSH); /* the list is free again */
    QUEUE("order (1,2), handle 502", BROKER_CALL_APPEND(ORDERS, 1, 2, 502, 0));
    QUEUE("Anna hands (1,1) back", BROKER_CALL_REDELIVER(ANNA, 3), 1, 1, 0);
    QUEUE("the clerk seeks (1,2)", BROKER_CALL_SEEK_ID(CLERK, 1, 2));
    QUEUE("push", BROKER_CALL_PUSH);
    answer = make_row(3);
    if (BROKER_NUMBER(answer) == BROKER_ANSWERS_SHORT && BROKER_VALUE(answer) <= CALLS)
        make_row((size_t)BROKER_VALUE(answer));
}

int main(void)
{
    broker_open(store, WORDS, ENTRIES, 0, 0);
    morning();
    noon();
    return 0;
}
