/*
 * A command as it comes off the wire, read and done: a stall's client sends a Subscribe, a Flow, an Ack and a Redeliver, and
 * what is pushed goes back to it as the bytes of Messages. Sizes, metadata, payload and checksum around the commands are
 * the caller's own and left out here.
 *
 *     cc -std=c99 -Iinclude examples/wire.c target/staticlib/libbroker.a -o wire
 */
#include "broker.h"

#include <inttypes.h>
#include <stdio.h>
#include <string.h>

#define ENTRIES 32
#define WORDS BROKER_NEEDED(ENTRIES)

/* Consumer 7 subscribes the topic "orders" as one of those who share the subscription "market". */
static const uint8_t subscribe[] = {
    0x08, 0x04,                               /* type: Subscribe */
    0x22, 0x16,                               /* its message, of 22 bytes */
    0x0a, 0x06, 'o', 'r', 'd', 'e', 'r', 's', /* topic */
    0x12, 0x06, 'm', 'a', 'r', 'k', 'e', 't', /* subscription */
    0x18, 0x01,                               /* sub type: Shared */
    0x20, 0x07,                               /* consumer 7 */
    0x28, 0x01,                               /* request 1 */
};

/* It may be sent 10 messages. */
static const uint8_t flow[] = {
    0x08, 0x0b, /* type: Flow */
    0x5a, 0x04, /* its message, of 4 bytes */
    0x08, 0x07, /* consumer 7 */
    0x10, 0x0a, /* permits: 10 */
};

/* It is done with (1,0), and with the first of the three messages in (1,1). */
static const uint8_t ack[] = {
    0x08, 0x0a, /* type: Ack */
    0x52, 0x12, /* its message, of 18 bytes */
    0x08, 0x07, /* consumer 7 */
    0x10, 0x00, /* ack type: Individual */
    0x1a, 0x04, /* an id of 4 bytes */
    0x08, 0x01, /*   ledger 1 */
    0x10, 0x00, /*   entry 0 */
    0x1a, 0x06, /* an id of 6 bytes */
    0x08, 0x01, /*   ledger 1 */
    0x10, 0x01, /*   entry 1 */
    0x28, 0x06, /*   a word of its ack set: bits 1 and 2 are open */
};

/* It hands (1,1) back. */
static const uint8_t redeliver[] = {
    0x08, 0x14,       /* type: RedeliverUnacknowledgedMessages */
    0xa2, 0x01, 0x08, /* its message, of 8 bytes */
    0x08, 0x07,       /* consumer 7 */
    0x12, 0x04,       /* an id of 4 bytes */
    0x08, 0x01,       /*   ledger 1 */
    0x10, 0x01,       /*   entry 1 */
};

/* It wants to know whether the other end is there: nothing for this part. */
static const uint8_t ping[] = {
    0x08, 0x12,       /* type: Ping */
    0x92, 0x01, 0x00, /* its message, of no bytes */
};

/* The numbers that the caller has given to names. */
struct named {
    const char *name;
    uint8_t number;
};

static const struct named topics[] = {{"orders", 1}, {"prices", 2}};
static const struct named subscriptions[] = {{"market", 1}, {"office", 2}};

static uint64_t store[WORDS];
static uint64_t list[BROKER_COMMAND_LIST];
static uint64_t records[8 * BROKER_RECORD_WORDS];

/* The number of a name that stands at a part of the input; 0 is none. */
static uint8_t number_of(const struct named *table, const uint8_t *bytes, uint64_t start, uint64_t size)
{
    size_t i;
    for (i = 0; i < 2; i++)
        if (strlen(table[i].name) == size && memcmp(bytes + start, table[i].name, (size_t)size) == 0)
            return table[i].number;
    return 0;
}

/* Prints what a call answered. */
static void say(uint64_t answer)
{
    if (BROKER_NUMBER(answer) == BROKER_DONE)
        printf("done, value %" PRId64 "\n", BROKER_VALUE(answer));
    else
        printf("refused, %u\n", BROKER_NUMBER(answer));
}

static void say_name(const char *what, const uint8_t *bytes, uint64_t start, uint64_t size)
{
    printf(", %s %.*s", what, (int)size, (const char *)bytes + start);
}

static void do_subscribe(const uint8_t *bytes, const uint64_t *c)
{
    uint64_t topic = c[BROKER_COMMAND_TOPIC], topic_size = c[BROKER_COMMAND_TOPIC_SIZE];
    uint64_t name = c[BROKER_COMMAND_SUBSCRIPTION], name_size = c[BROKER_COMMAND_SUBSCRIPTION_SIZE];
    uint8_t of_topic = number_of(topics, bytes, topic, topic_size);
    uint8_t of_name = number_of(subscriptions, bytes, name, name_size);
    printf("Subscribe of consumer %" PRIu64 ", request %" PRIu64 ", %s", c[BROKER_COMMAND_CONSUMER],
           c[BROKER_COMMAND_REQUEST], c[BROKER_COMMAND_KIND] == BROKER_SHARED ? "shared" : "plain");
    say_name("topic", bytes, topic, topic_size);
    say_name("subscription", bytes, name, name_size);
    printf(": ");
    say(broker_subscribe(store, WORDS, c[BROKER_COMMAND_CONSUMER], c[BROKER_COMMAND_KIND], of_topic, of_name));
}

/* Ack and Redeliver: the list goes on as it was read. */
static void do_ids(const char *what, const uint64_t *c,
                   uint64_t (*call)(uint64_t *, size_t, uint64_t, const uint64_t *, size_t))
{
    size_t words = (size_t)c[BROKER_COMMAND_LIST_WORDS], at, i;
    printf("%s of consumer %" PRIu64, what, c[BROKER_COMMAND_CONSUMER]);
    for (at = 0; at < words; at += 3 + (size_t)list[at + 2]) {
        printf(", (%" PRIu64 ",%" PRIu64 ")", list[at], list[at + 1]);
        for (i = 0; i < list[at + 2]; i++)
            printf(" open bits 0x%" PRIx64, list[at + 3 + i]);
    }
    printf(": ");
    say(call(store, WORDS, c[BROKER_COMMAND_CONSUMER], list, words));
}

/* Reads a command and does it. */
static void take(const uint8_t *bytes, size_t n)
{
    uint64_t c[BROKER_COMMAND_WORDS];
    uint64_t answer = broker_read_command(bytes, n, list, BROKER_COMMAND_LIST, c);
    if (BROKER_NUMBER(answer) == BROKER_NOT_WELL_FORMED)
        printf("%lu bytes: refused, 16: no well-formed command\n", (unsigned long)n);
    else if (BROKER_NUMBER(answer) == BROKER_OTHER_TYPE)
        printf("%lu bytes: refused, 17: a command of another type\n", (unsigned long)n);
    else
        switch (BROKER_VALUE(answer)) {
        case BROKER_TYPE_SUBSCRIBE:
            do_subscribe(bytes, c);
            break;
        case BROKER_TYPE_FLOW:
            printf("Flow of consumer %" PRIu64 ", %" PRIu64 " permits: ", c[BROKER_COMMAND_CONSUMER], c[BROKER_COMMAND_PERMITS]);
            say(broker_flow(store, WORDS, c[BROKER_COMMAND_CONSUMER], (uint32_t)c[BROKER_COMMAND_PERMITS]));
            break;
        case BROKER_TYPE_ACK:
            do_ids("Ack", c, broker_ack);
            break;
        case BROKER_TYPE_REDELIVER:
            do_ids("Redeliver", c, broker_redeliver);
            break;
        case BROKER_TYPE_SEEK:
            printf("Seek of consumer %" PRIu64 ": ", c[BROKER_COMMAND_CONSUMER]);
            say(broker_seek(store, WORDS, c[BROKER_COMMAND_CONSUMER], c[BROKER_COMMAND_TARGET], c[BROKER_COMMAND_LEDGER],
                            c[BROKER_COMMAND_ENTRY]));
            break;
        case BROKER_TYPE_CLOSE:
            printf("Close of consumer %" PRIu64 ": ", c[BROKER_COMMAND_CONSUMER]);
            say(broker_close(store, WORDS, c[BROKER_COMMAND_CONSUMER]));
            break;
        }
}

/* A record as the bytes of a Message, and what its receiver reads from them. */
static void to_wire(const uint64_t *record)
{
    uint8_t buffer[BROKER_MESSAGE_BYTES];
    uint64_t back[BROKER_RECORD_WORDS];
    uint64_t answer = broker_write_message(record, buffer, sizeof buffer);
    size_t written = (size_t)BROKER_VALUE(answer), i;
    printf("  a Message of %lu bytes:", (unsigned long)written);
    for (i = 0; i < written; i++)
        printf(i % 20 == 0 ? "\n    %02x" : " %02x", buffer[i]);
    if (broker_read_message(buffer, written, back) != BROKER_DONE)
        return;
    printf("\n    read: consumer %" PRIu64 ", (%" PRIu64 ",%" PRIu64 "), batch %" PRIu64, back[BROKER_RECORD_CONSUMER],
           back[BROKER_RECORD_LEDGER], back[BROKER_RECORD_ENTRY], back[BROKER_RECORD_BATCH]);
    for (i = 0; i < back[BROKER_RECORD_ACK_COUNT]; i++)
        printf(", open bits 0x%" PRIx64, back[BROKER_RECORD_ACK_SET + i]);
    printf(", sent again %" PRIu64 "\n", back[BROKER_RECORD_REDELIVERY]);
}

/* Pushes what is due to the wire. */
static void push(void)
{
    uint64_t answer = broker_push(store, WORDS, records, sizeof records / sizeof *records);
    int64_t i;
    printf("push: ");
    say(answer);
    if (BROKER_NUMBER(answer) == BROKER_DONE)
        for (i = 0; i < BROKER_VALUE(answer); i++)
            to_wire(records + (size_t)i * BROKER_RECORD_WORDS);
}

int main(void)
{
    broker_open(store, WORDS, ENTRIES, 0, 0);
    broker_append(store, WORDS, 1, 1, 0, 500, 0); /* (1,0) */
    broker_append(store, WORDS, 1, 1, 1, 501, 3); /* (1,1), a batch of 3 */
    take(subscribe, sizeof subscribe);
    take(flow, sizeof flow);
    push();
    take(ack, sizeof ack);
    take(redeliver, sizeof redeliver);
    push();
    take(flow, sizeof flow - 1); /* its last byte is missing */
    take(ping, sizeof ping);
    return 0;
}
