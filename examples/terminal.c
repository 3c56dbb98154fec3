/*
 * A short market morning, from a terminal's side: three stalls share one subscription of the orders, a
 * clerk reads the prices alone. It prints who got what, the permits and mark-delete after each step, one
 * refusal of each kind that a terminal meets, and the words of a consumer and of a dispatcher by the
 * offsets of docs/STORE.md. Given the name of a file, it also records its calls there, those at the limits
 * aside, as a trace that can be played again (include/broker_trace.h); it prints the same.
 *
 *     cc -std=c99 -Iinclude examples/terminal.c target/staticlib/libbroker.a -o terminal
 *     ./terminal [TRACE]
 */
#include "broker.h"
#include "broker_trace.h"

#include <inttypes.h>
#include <stdio.h>
#include <stdlib.h>

/* E: messages kept per topic. The store is lent to every call; a terminal keeps it where it likes. */
#define ENTRIES 32
#define WORDS BROKER_NEEDED(ENTRIES)

/* Room for the dispatches of one push: as much as where a trace is played. */
#define DUE 32

enum { ORDERS = 1, PRICES = 2 };   /* topics */
enum { MARKET = 1, OFFICE = 2 };   /* subscriptions */
enum { ANNA = 7, BERT = 8, CARLA = 9, CLERK = 20, NOBODY = 99 }; /* consumers */

static uint64_t store[WORDS];
static uint64_t records[DUE * BROKER_RECORD_WORDS];

/* ---- the calls, recorded: each is made, and its record kept, with the same numbers ---- */

static FILE *trace;                            /* NULL: nothing is recorded */
static uint8_t bytes[BROKER_TRACE_MOST_BYTES]; /* room for any record */

static void fail(const char *what)
{
    perror(what);
    exit(EXIT_FAILURE);
}

/* Writes the first n of the bytes to the trace. */
static void keep(size_t n)
{
    if (trace != NULL && fwrite(bytes, 1, n, trace) != n)
        fail("the trace");
}

static void begin_trace(const char *path)
{
    trace = fopen(path, "wb");
    if (trace == NULL)
        fail(path);
    keep(broker_trace_header(bytes, sizeof bytes));
}

static void end_trace(void)
{
    if (trace != NULL && fclose(trace) != 0)
        fail("the trace");
    trace = NULL;
}

/* Keeps the record of a call, n bytes, and gives the call's answer. A call that was refused for damaged words or for
 * a short list is left out: where the trace is played, nothing refuses it. */
static uint64_t recorded(uint64_t answer, size_t n)
{
    unsigned number = BROKER_NUMBER(answer);
    if (number != BROKER_NO_STATE && number != BROKER_LIST_SHORT)
        keep(n);
    return answer;
}

static uint64_t append(uint8_t topic, uint64_t ledger, uint64_t entry, uint64_t handle, uint64_t batch)
{
    return recorded(broker_append(store, WORDS, topic, ledger, entry, handle, batch),
                    broker_trace_append(bytes, sizeof bytes, topic, ledger, entry, handle, batch));
}

static uint64_t subscribe(uint64_t consumer, uint64_t kind, uint8_t topic, uint8_t subscription)
{
    return recorded(broker_subscribe(store, WORDS, consumer, kind, topic, subscription),
                    broker_trace_subscribe(bytes, sizeof bytes, consumer, kind, topic, subscription));
}

static uint64_t flow(uint64_t consumer, uint32_t grant)
{
    return recorded(broker_flow(store, WORDS, consumer, grant),
                    broker_trace_flow(bytes, sizeof bytes, consumer, grant));
}

static uint64_t ack(uint64_t consumer, const uint64_t *ids, size_t m)
{
    return recorded(broker_ack(store, WORDS, consumer, ids, m),
                    broker_trace_ack(bytes, sizeof bytes, consumer, ids, m));
}

static uint64_t seek(uint64_t consumer, uint64_t target, uint64_t ledger, uint64_t entry)
{
    return recorded(broker_seek(store, WORDS, consumer, target, ledger, entry),
                    broker_trace_seek(bytes, sizeof bytes, consumer, target, ledger, entry));
}

static uint64_t redeliver(uint64_t consumer, const uint64_t *ids, size_t m)
{
    return recorded(broker_redeliver(store, WORDS, consumer, ids, m),
                    broker_trace_redeliver(bytes, sizeof bytes, consumer, ids, m));
}

static uint64_t close_consumer(uint64_t consumer)
{
    return recorded(broker_close(store, WORDS, consumer), broker_trace_close(bytes, sizeof bytes, consumer));
}

static uint64_t push_with_room(size_t dispatches)
{
    return recorded(broker_push(store, WORDS, records, dispatches * BROKER_RECORD_WORDS),
                    broker_trace_push(bytes, sizeof bytes));
}

/* ---- what is printed ---- */

/* Why a call was refused, for people. */
static const char *reason(unsigned number)
{
    static const char *const reasons[] = {
        "done", "the words spell no state", "E is not 1 to 4,096", "the store is too short",
        "no live consumer has this id", "there are 8 topics", "the topic is full", "the id is taken",
        "the batch size is not 0 to 256", "permits out of range", "the list is not well formed",
        "too many ids outside the ledger, or nacked", "32 consumers are live",
        "there are 8 shared subscriptions", "the ring is full", "the list is too short"};
    return number < sizeof reasons / sizeof *reasons ? reasons[number] : "?";
}

static const char *name(uint64_t consumer)
{
    switch (consumer) {
    case ANNA: return "Anna";
    case BERT: return "Bert";
    case CARLA: return "Carla";
    case CLERK: return "the clerk";
    default: return "nobody";
    }
}

/* Prints a call and its answer; gives the value. */
static int64_t say(const char *call, uint64_t answer)
{
    unsigned number = BROKER_NUMBER(answer);
    int64_t value = BROKER_VALUE(answer);
    if (number == BROKER_DONE)
        printf("  %-38s done, value %" PRId64 "\n", call, value);
    else
        printf("  %-38s refused, %u: %s (value %" PRId64 ")\n", call, number, reason(number), value);
    return value;
}

/* Pushes what is due and prints a line for each message. */
static void push(void)
{
    uint64_t answer = push_with_room(DUE);
    int64_t made = say("push", answer), i;
    if (BROKER_NUMBER(answer) != BROKER_DONE)
        return;
    for (i = 0; i < made; i++) {
        const uint64_t *r = records + (size_t)i * BROKER_RECORD_WORDS;
        printf("    %-9s gets (%" PRIu64 ",%" PRIu64 "), handle %" PRIu64 ", batch %" PRIu64,
               name(r[BROKER_RECORD_CONSUMER]), r[BROKER_RECORD_LEDGER], r[BROKER_RECORD_ENTRY],
               r[BROKER_RECORD_HANDLE], r[BROKER_RECORD_BATCH]);
        if (r[BROKER_RECORD_ACK_COUNT] != 0)
            printf(", open bits 0x%" PRIx64, r[BROKER_RECORD_ACK_SET]);
        if (r[BROKER_RECORD_REDELIVERY] != 0)
            printf(", sent again %" PRIu64, r[BROKER_RECORD_REDELIVERY]);
        printf(": cost %" PRIu64 ", permits left %" PRId64 "\n", r[BROKER_RECORD_COST],
               (int64_t)r[BROKER_RECORD_PERMITS]);
    }
}

/* ---- the dump: offsets from docs/STORE.md ---- */

#define EXCESS (UINT64_C(1) << 62) /* permits are stored as the number plus this */

static int64_t permits(uint64_t word)
{
    return (int64_t)(word - EXCESS);
}

static void list(const char *what, const uint64_t *at, size_t width)
{
    uint64_t i;
    printf("    %s:", what);
    for (i = 0; i < at[0]; i++) {
        const uint64_t *element = at + 1 + i * width;
        if (width == 1)
            printf(" %" PRIu64, element[0]);
        else
            printf(" (%" PRIu64 ",%" PRIu64 ")", element[0], element[1]);
    }
    printf(at[0] == 0 ? " none\n" : "\n");
}

static void dump_consumer(size_t i)
{
    const uint64_t *c = store + 17 + 72 * i;
    printf("  consumer %" PRIu64 " (%s), words %lu to %lu\n", c[0], name(c[0]),
           (unsigned long)(17 + 72 * i), (unsigned long)(17 + 72 * i + 71));
    printf("    topic %" PRIu64 ", subscription %" PRIu64 ", %s, permits %" PRId64 ", cursor %" PRIu64 "\n",
           c[1], c[2], c[3] == 0 ? "plain" : "shared", permits(c[4]), c[5]);
    list("nacked positions", c + 6, 1);
}

static void dump_dispatcher(size_t d)
{
    size_t e = (size_t)store[1], from = 2355 + 32 * e + (176 + 9 * e) * d, k;
    const uint64_t *w = store + from, *marks = w + 175 + 3 * e;
    printf("  dispatcher of topic %" PRIu64 ", subscription %" PRIu64 ", words %lu to %lu\n", w[0], w[1],
           (unsigned long)from, (unsigned long)(from + 175 + 9 * e));
    printf("    next %" PRIu64 ", cursor %" PRIu64 ", mark-delete %" PRIu64 ", permits %" PRId64 "\n", w[2],
           w[3], w[4], permits(w[5]));
    list("ring", w + 11, 1);
    list("complete outside the ledger", w + 44, 2);
    list("queued positions", w + 173, 1);
    list("in flight (holder,position)", w + 174 + e, 2);
    for (k = 0; k < marks[0]; k++) {
        const uint64_t *mark = marks + 1 + 6 * k;
        printf("    entry %lu: %s, sent again %" PRIu64 ", open bits 0x%" PRIx64 "\n", (unsigned long)k,
               mark[0] == 0 ? "not complete" : "complete", mark[1], mark[2]);
    }
}

/* ---- the market ---- */

static void opening(void)
{
    printf("Opening\n");
    say("open for 32 entries", broker_open(store, WORDS, ENTRIES, 0, 0));
    say("open with a word too few", broker_open(store, WORDS - 1, ENTRIES, 0, 0));
    say("open for 4,097 entries", broker_open(store, WORDS, 4097, 0, 0));
}

static void arrivals(void)
{
    printf("Stalls and messages\n");
    say("Anna subscribes, shared", subscribe(ANNA, BROKER_SHARED, ORDERS, MARKET));
    say("Bert subscribes, shared", subscribe(BERT, BROKER_SHARED, ORDERS, MARKET));
    say("the clerk subscribes, plain", subscribe(CLERK, BROKER_PLAIN, PRICES, OFFICE));
    say("order (1,0), handle 500", append(ORDERS, 1, 0, 500, 0));
    say("order (1,1), a batch of 3", append(ORDERS, 1, 1, 501, 3));
    say("order (1,2), handle 502", append(ORDERS, 1, 2, 502, 0));
    say("price (1,0), handle 900", append(PRICES, 1, 0, 900, 0));
    say("order (1,2) once more", append(ORDERS, 1, 2, 502, 0));
    say("order (1,3), a batch of 257", append(ORDERS, 1, 3, 503, 257));

    printf("Nobody has permits, so nothing is due\n");
    push();
}

/* A list has groups of ledger, entry, a count of ack-set words, and those words. */
static void orders(void)
{
    static const uint64_t first[] = {1, 0, 0};
    static const uint64_t part_of_second[] = {1, 1, 1, 0x6}; /* bits 1 and 2 stay open, bit 0 is done */
    static const uint64_t second[] = {1, 1, 0};
    static const uint64_t cut[] = {1, 1};

    printf("Permits\n");
    say("Anna grants 2", flow(ANNA, 2));
    say("Bert grants 1", flow(BERT, 1));
    say("the clerk grants 5", flow(CLERK, 5));
    say("nobody grants 5", flow(NOBODY, 5));
    say("push with room for 2", push_with_room(2));
    push();

    printf("Acknowledgements: the value is mark-delete * 2, + 1 if it moved\n");
    say("Anna acks (1,0)", ack(ANNA, first, 3));
    say("Bert acks a third of (1,1)", ack(BERT, part_of_second, 4));
    say("Bert acks a list cut short", ack(BERT, cut, 2));

    printf("Bert closes: what he holds goes to another, who pays for what is open\n");
    say("Bert closes", close_consumer(BERT));
    say("Bert closes again", close_consumer(BERT));
    say("Carla subscribes, shared", subscribe(CARLA, BROKER_SHARED, ORDERS, MARKET));
    say("Carla grants 10", flow(CARLA, 10));
    push();
    say("Anna hands (1,1) back", redeliver(ANNA, second, 3));
    push();
}

static void prices(void)
{
    printf("The clerk starts over\n");
    say("the clerk seeks the start", seek(CLERK, BROKER_START, 0, 0));
    push();

    printf("The clerk has read everything, seeks past it and waits for the next\n");
    say("the clerk seeks (1,1)", seek(CLERK, BROKER_ID, 1, 1));
    push();
    say("price (1,1), handle 901", append(PRICES, 1, 1, 901, 0));
    push();
}

static void words(void)
{
    size_t i;
    printf("The words\n");
    printf("  E %" PRIu64 ", %" PRIu64 " consumers, %" PRIu64 " topics\n", store[1], store[16], store[2321]);
    for (i = 0; i < store[16]; i++)
        dump_consumer(i);
    dump_dispatcher(0);

    printf("A word is damaged, then mended\n");
    store[16] += 1;
    say("Anna grants 1", flow(ANNA, 1));
    store[16] -= 1;
    say("Anna grants 1", flow(ANNA, 1));
}

/* The refusals at the limits, each on the first call past one. They are not recorded, as no trace says that a store
 * is opened anew. */
static void limits(void)
{
    static const uint64_t unknown[] = {9, 64, 0};
    uint64_t group[] = {9, 0, 0};
    int i;
    printf("The limits, in a store opened anew\n");
    say("open for 32 entries", broker_open(store, WORDS, ENTRIES, 0, 0));
    say("Carla subscribes, shared", broker_subscribe(store, WORDS, CARLA, BROKER_SHARED, ORDERS, MARKET));
    for (i = 0; i < 256; i++)
        broker_flow(store, WORDS, CARLA, UINT32_MAX);
    say("Carla grants past 2^40", broker_flow(store, WORDS, CARLA, UINT32_MAX));
    for (i = 0; i < ENTRIES; i++)
        broker_append(store, WORDS, ORDERS, 1, (uint64_t)i, 600, 0);
    say("order 33", broker_append(store, WORDS, ORDERS, 1, ENTRIES, 600, 0));
    for (i = 1; i < BROKER_MAX_TOPICS; i++)
        broker_append(store, WORDS, (uint8_t)(ORDERS + i), 1, 0, 800, 0);
    say("a ninth topic", broker_append(store, WORDS, 30, 1, 0, 800, 0));
    for (i = 0; i < BROKER_MAX_OUTSIDE; i++, group[1]++)
        broker_ack(store, WORDS, CARLA, group, 3);
    say("ack of a 65th id never appended", broker_ack(store, WORDS, CARLA, unknown, 3));
    for (i = 1; i < BROKER_MAX_DISPATCHERS; i++)
        broker_subscribe(store, WORDS, (uint64_t)(100 + i), BROKER_SHARED, ORDERS, (uint8_t)(MARKET + i));
    say("a ninth shared subscription", broker_subscribe(store, WORDS, 200, BROKER_SHARED, ORDERS, 30));
    for (i = 1; i < BROKER_MAX_CONSUMERS; i++)
        broker_subscribe(store, WORDS, (uint64_t)(100 + i), BROKER_SHARED, ORDERS, MARKET);
    say("a 33rd consumer", broker_subscribe(store, WORDS, 200, BROKER_SHARED, ORDERS, MARKET));
    /* Who subscribes elsewhere keeps the place in the old ring, also when closed there. */
    say("Carla turns to the prices", broker_subscribe(store, WORDS, CARLA, BROKER_PLAIN, PRICES, OFFICE));
    say("Carla closes", broker_close(store, WORDS, CARLA));
    say("a 33rd in the ring", broker_subscribe(store, WORDS, 200, BROKER_SHARED, ORDERS, MARKET));
}

int main(int argc, char **argv)
{
    if (argc > 2) {
        fprintf(stderr, "usage: terminal [TRACE]\n");
        return 2;
    }
    if (argc == 2)
        begin_trace(argv[1]);
    opening();
    arrivals();
    orders();
    prices();
    words();
    end_trace();
    limits();
    return 0;
}
