/*
 * Times the readers and the writer of commands as bytes beside a plain decoder and encoder (plain.c), in one run, and the
 * readers alone on longer and longer commands. Prints tables in Markdown: the best of some rounds, in nanoseconds a call.
 * Both sides are checked to give the same before they are timed.
 */
#define _POSIX_C_SOURCE 199309L
#include "broker.h"
#include "plain.h"

#include <stdio.h>
#include <stdlib.h>
#include <string.h>
#include <time.h>

#define ROUNDS 15
#define ROUND_NANOSECONDS 4e6
#define ROOM ((size_t)1 << 18)

/* ---- bytes ---- */

struct bytes {
    size_t n;
    uint8_t at[ROOM];
};

static struct bytes input, message, id;

static void add(struct bytes *b, uint64_t v)
{
    while (v > 127) {
        b->at[b->n++] = (uint8_t)((v & 127) | 128);
        v >>= 7;
    }
    b->at[b->n++] = (uint8_t)v;
}

static void add_number(struct bytes *b, uint64_t number, uint64_t v)
{
    add(b, number * 8);
    add(b, v);
}

static void add_part(struct bytes *b, uint64_t number, const struct bytes *part)
{
    add(b, number * 8 + 2);
    add(b, part->n);
    memcpy(b->at + b->n, part->at, part->n);
    b->n += part->n;
}

/* The message in hand as a command. */
static void make_command(uint64_t type)
{
    input.n = 0;
    add_number(&input, 1, type);
    add_part(&input, type, &message);
}

static void make_id(unsigned words, uint64_t word)
{
    unsigned i;
    id.n = 0;
    add_number(&id, 1, 123456);
    add_number(&id, 2, 789);
    for (i = 0; i < words; i++)
        add_number(&id, 5, word);
}

/* The message of a type, with no unknown field. */
static void make_message(uint64_t type)
{
    struct bytes *m = &message;
    static struct bytes name;
    m->n = 0;
    name.n = 0;
    add(&name, 'a');
    make_id(0, 0);
    if (type == BROKER_TYPE_SUBSCRIBE) {
        add_part(m, 1, &name);
        add_part(m, 2, &name);
        add_number(m, 3, 1);
        add_number(m, 4, 7);
        add_number(m, 5, 9);
        return;
    }
    add_number(m, 1, 7);
    if (type == 9 || type == BROKER_TYPE_REDELIVER)
        add_part(m, 2, &id);
    else
        add_number(m, 2, 9);
    if (type == BROKER_TYPE_ACK || type == BROKER_TYPE_SEEK)
        add_part(m, 3, &id);
}

static void make_ack(unsigned ids, unsigned words, uint64_t word)
{
    make_id(words, word);
    message.n = 0;
    add_number(&message, 1, 7);
    add_number(&message, 2, 0);
    while (ids-- > 0)
        add_part(&message, 3, &id);
    make_command(BROKER_TYPE_ACK);
}

/* ---- calls ---- */

enum side { LIBRARY, PLAIN };

static uint64_t list[2][BROKER_COMMAND_LIST], command[2][BROKER_RECORD_WORDS], record[BROKER_RECORD_WORDS];
static uint8_t buffer[2][BROKER_MESSAGE_BYTES];
static volatile uint64_t sink;

static uint64_t read_once(enum side side)
{
    if (side == LIBRARY)
        return broker_read_command(input.at, input.n, list[side], BROKER_COMMAND_LIST, command[side]);
    return plain_read(input.at, input.n, list[side], BROKER_COMMAND_LIST, command[side]) * 256;
}

static uint64_t read_message_once(enum side side)
{
    return broker_read_message(input.at, input.n, command[side]);
}

static uint64_t write_once(enum side side)
{
    if (side == LIBRARY)
        return broker_write_message(record, buffer[side], BROKER_MESSAGE_BYTES);
    return (uint64_t)plain_write(record, buffer[side], BROKER_MESSAGE_BYTES) * 256;
}

static double now(void)
{
    struct timespec t;
    clock_gettime(CLOCK_MONOTONIC, &t);
    return (double)t.tv_sec * 1e9 + (double)t.tv_nsec;
}

static double round_of(uint64_t (*call)(enum side), enum side side, unsigned long calls)
{
    unsigned long i;
    double from = now();
    for (i = 0; i < calls; i++)
        sink = call(side);
    return (now() - from) / (double)calls;
}

/* The best rounds of both sides, taken in turn, or of the library alone. */
static void time_call(uint64_t (*call)(enum side), int sides, double best[2])
{
    int round, side;
    for (side = 0; side < sides; side++)
        best[side] = round_of(call, (enum side)side, 16);
    for (round = 0; round < ROUNDS; round++)
        for (side = 0; side < sides; side++) {
            unsigned long calls = (unsigned long)(ROUND_NANOSECONDS / best[side]) + 1;
            double took = round_of(call, (enum side)side, calls);
            if (took < best[side])
                best[side] = took;
        }
}

static void check(int holds, const char *what)
{
    if (!holds) {
        printf("speed: FAILED: %s\n", what);
        exit(1);
    }
}

/* ---- beside the plain decoder ---- */

static void row(const char *what, size_t bytes, const double best[2])
{
    printf("| %s | %lu | %.1f | %.1f | %.2f |\n", what, (unsigned long)bytes, best[LIBRARY], best[PLAIN],
           best[LIBRARY] / best[PLAIN]);
}

static void reading(const char *what)
{
    double best[2];
    check(read_once(LIBRARY) == read_once(PLAIN) && BROKER_NUMBER(read_once(LIBRARY)) == BROKER_DONE &&
              memcmp(command[LIBRARY], command[PLAIN], BROKER_COMMAND_WORDS * sizeof(uint64_t)) == 0 &&
              memcmp(list[LIBRARY], list[PLAIN], sizeof list[LIBRARY]) == 0,
          "library and plain decoder read other things");
    time_call(read_once, 2, best);
    row(what, input.n, best);
}

static void writing(const char *what)
{
    double best[2];
    uint64_t answer = write_once(LIBRARY);
    check(answer == write_once(PLAIN) && BROKER_NUMBER(answer) == BROKER_DONE &&
              memcmp(buffer[LIBRARY], buffer[PLAIN], BROKER_MESSAGE_BYTES) == 0,
          "library and plain encoder write other things");
    time_call(write_once, 2, best);
    row(what, (size_t)(answer >> 8), best);
}

static void set_record(uint64_t number, uint64_t batch, uint64_t words, uint64_t word, uint64_t redelivery)
{
    size_t i;
    for (i = 0; i < BROKER_RECORD_WORDS; i++)
        record[i] = number;
    record[BROKER_RECORD_BATCH] = batch;
    record[BROKER_RECORD_ACK_COUNT] = words;
    for (i = 0; i < 4; i++)
        record[BROKER_RECORD_ACK_SET + i] = word;
    record[BROKER_RECORD_REDELIVERY] = redelivery;
}

static void beside_plain(void)
{
    printf("| call | bytes | library, ns | plain C, ns | ratio |\n|---|---:|---:|---:|---:|\n");
    make_message(BROKER_TYPE_FLOW);
    make_command(BROKER_TYPE_FLOW);
    reading("read a Flow");
    make_ack(1, 0, 0);
    reading("read an Ack of 1 id");
    make_ack(1, 4, 6);
    reading("read an Ack of 1 id with 4 small words");
    make_ack(1, 4, UINT64_MAX);
    reading("read an Ack of 1 id with 4 words of ten bytes");
    make_ack(64, 0, 0);
    reading("read an Ack of 64 ids");
    make_ack(64, 4, 6);
    reading("read an Ack of 64 ids with 4 small words");
    make_ack(64, 4, UINT64_MAX);
    reading("read an Ack of 64 ids with 4 words of ten bytes");
    set_record(123456, 0, 0, 0, 0);
    writing("write a Message, no batch");
    set_record(123456, 10, 1, 0x3f6, 2);
    writing("write a Message, a batch sent again");
    set_record(UINT64_MAX, 256, 4, UINT64_MAX, UINT32_MAX);
    writing("write the largest Message");
}

/* ---- longer and longer ---- */

static void alone(uint64_t type)
{
    uint64_t (*call)(enum side) = type == 9 ? read_message_once : read_once;
    double best[2];
    check(BROKER_NUMBER(call(LIBRARY)) == BROKER_DONE, "a command is not read");
    time_call(call, 1, best);
    printf(" %.0f (%.2f) |", best[LIBRARY], best[LIBRARY] / (double)input.n);
}

static void acks(void)
{
    static const unsigned ids[] = {1, 8, 16, 32, 64};
    size_t i;
    printf("\nns a call (ns a byte):\n\n| ids | 1 | 8 | 16 | 32 | 64 |\n|---|---:|---:|---:|---:|---:|\n| Ack |");
    for (i = 0; i < sizeof ids / sizeof *ids; i++) {
        make_ack(ids[i], 0, 0);
        alone(BROKER_TYPE_ACK);
    }
    printf("\n| Ack, 4 words of ten bytes each |");
    for (i = 0; i < sizeof ids / sizeof *ids; i++) {
        make_ack(ids[i], 4, UINT64_MAX);
        alone(BROKER_TYPE_ACK);
    }
    printf("\n");
}

/* A command of a type with so many unknown fields of ten bytes in its message, or one of so many bytes. */
static void unknown(uint64_t type, unsigned fields, int one)
{
    static struct bytes skipped;
    unsigned i;
    make_message(type);
    skipped.n = one ? fields : 8;
    if (one)
        add_part(&message, 30, &skipped);
    else
        for (i = 0; i < fields; i++)
            add_part(&message, 15, &skipped);
    make_command(type);
    alone(type);
}

static void unknowns(int one)
{
    static const struct {
        const char *name;
        uint64_t type;
    } types[] = {{"Subscribe", BROKER_TYPE_SUBSCRIBE}, {"Flow", BROKER_TYPE_FLOW}, {"Ack", BROKER_TYPE_ACK},
                 {"Seek", BROKER_TYPE_SEEK}, {"Redeliver", BROKER_TYPE_REDELIVER}, {"Close", BROKER_TYPE_CLOSE}, {"Message", 9}};
    static const unsigned counts[] = {1, 10, 100, 1000};
    size_t t, i;
    printf("\n| %s | 1 | 10 | 100 | 1,000 |\n|---|---:|---:|---:|---:|\n", one ? "bytes of one unknown field" : "unknown fields of ten bytes");
    for (t = 0; t < sizeof types / sizeof *types; t++) {
        printf("| %s |", types[t].name);
        for (i = 0; i < sizeof counts / sizeof *counts; i++)
            unknown(types[t].type, counts[i], one);
        printf("\n");
    }
}

int main(void)
{
    beside_plain();
    acks();
    unknowns(0);
    unknowns(1);
    return 0;
}
