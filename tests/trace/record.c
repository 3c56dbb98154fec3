/*
 * Records of broker_trace.h, byte by byte and without a player: the example of document 02; every kind of record with
 * its fields all different and all at their largest, in exact, in more and in too little room; lists up to the
 * longest that a record holds, and one word more. The bytes that a record has to have are made here in another way
 * than there.
 *
 *     record [TRACE]     also writes the example as a trace to this file
 *
 * Prints the number of checks; ends with 1 and a message at the first that fails.
 */
#include "broker_trace.h"

#include <stdio.h>
#include <stdlib.h>
#include <string.h>

#define TOP UINT64_MAX
#define LONGEST ((size_t)1216) /* the words of the longest list */
#define GUARD ((size_t)64)
#define FILL 0xa5

static uint8_t buffer[BROKER_TRACE_MOST_BYTES + 2 * GUARD], wanted[BROKER_TRACE_MOST_BYTES];
static uint8_t *const lent = buffer + GUARD; /* what the functions are given, with bytes on both sides of it */
static uint64_t list[LONGEST + 1];
static unsigned long checks;

static void check(int holds, const char *of, const char *what)
{
    checks++;
    if (!holds) {
        printf("record: FAILED: %s: %s\n", of, what);
        exit(EXIT_FAILURE);
    }
}

/* ---- what a call has to answer and to write ---- */

static void clear(void)
{
    memset(buffer, FILL, sizeof buffer);
}

/* Whether `from` up to `to` of the whole buffer is as it was. */
static int untouched(size_t from, size_t to)
{
    while (from < to && buffer[from] == FILL)
        from++;
    return from == to;
}

/* The call wrote the first n wanted bytes and no others. */
static void check_written(const char *of, size_t answer, size_t n)
{
    check(answer == n, of, "the answer is not the length");
    check(memcmp(lent, wanted, n) == 0, of, "other bytes");
    check(untouched(0, GUARD), of, "a byte before the buffer changed");
    check(untouched(GUARD + n, sizeof buffer), of, "a byte past the length changed");
}

/* The call answered 0 and wrote nothing. */
static void check_refused(const char *of, size_t answer)
{
    check(answer == 0, of, "the answer is not 0");
    check(untouched(0, sizeof buffer), of, "a byte changed");
}

/* The last `n` bytes before `end`, low byte first going down. */
static void want_number(size_t end, uint64_t number, size_t n)
{
    for (; n > 0; n--, number /= 256)
        wanted[--end] = (uint8_t)(number % 256);
}

/* A record of these words, and of as many of the list; its length. */
static size_t want(unsigned kind, const uint64_t *words, size_t n, size_t m)
{
    size_t i;
    want_number(1, kind, 1);
    want_number(3, n + m, 2);
    for (i = 0; i < n + m; i++)
        want_number(3 + 8 * (i + 1), i < n ? words[i] : list[i - n], 8);
    return 3 + 8 * (n + m);
}

/* ---- every kind ---- */

/* A call's numbers in their order, the kind and the words of its record. */
struct call {
    const char *of;
    size_t (*record)(size_t room, const uint64_t *a);
    uint64_t a[5];
    unsigned kind;
    size_t n;
    uint64_t words[5];
};

static size_t append(size_t room, const uint64_t *a)
{
    return broker_trace_append(lent, room, (uint8_t)a[0], a[1], a[2], a[3], a[4]);
}

static size_t subscribe(size_t room, const uint64_t *a)
{
    return broker_trace_subscribe(lent, room, a[0], a[1], (uint8_t)a[2], (uint8_t)a[3]);
}

static size_t flow(size_t room, const uint64_t *a)
{
    return broker_trace_flow(lent, room, a[0], (uint32_t)a[1]);
}

static size_t ack(size_t room, const uint64_t *a)
{
    return broker_trace_ack(lent, room, a[0], a + 1, 3);
}

static size_t seek(size_t room, const uint64_t *a)
{
    return broker_trace_seek(lent, room, a[0], a[1], a[2], a[3]);
}

static size_t redeliver(size_t room, const uint64_t *a)
{
    return broker_trace_redeliver(lent, room, a[0], a + 1, 3);
}

static size_t close_consumer(size_t room, const uint64_t *a)
{
    return broker_trace_close(lent, room, a[0]);
}

static size_t push(size_t room, const uint64_t *a)
{
    (void)a;
    return broker_trace_push(lent, room);
}

/* Four words of different bytes, and the largest of 32 bits. */
#define A UINT64_C(0x0102030405060708)
#define B UINT64_C(0x1112131415161718)
#define C UINT64_C(0x2122232425262728)
#define D UINT64_C(0x3132333435363738)
#define TOP32 UINT64_C(0xffffffff)

static const struct call all[] = {
    {"append, different", append, {0x41, A, B, C, D}, 1, 5, {0x41, A, B, C, D}},
    {"append, largest", append, {255, TOP, TOP, TOP, TOP}, 1, 5, {255, TOP, TOP, TOP, TOP}},
    {"append, least", append, {0, 0, 0, 0, 0}, 1, 5, {0, 0, 0, 0, 0}},
    {"subscribe, plain", subscribe, {A, 0, 0x41, 0x42, 0}, 2, 4, {A, 0, 0x41, 0x42, 0}},
    {"subscribe, shared", subscribe, {A, 1, 0x41, 0x42, 0}, 2, 4, {A, 1, 0x41, 0x42, 0}},
    {"subscribe, kind 256", subscribe, {A, 256, 0x41, 0x42, 0}, 2, 4, {A, 1, 0x41, 0x42, 0}},
    {"subscribe, largest", subscribe, {TOP, TOP, 255, 255, 0}, 2, 4, {TOP, 1, 255, 255, 0}},
    {"flow, different", flow, {A, 0x41424344, 0, 0, 0}, 3, 2, {A, 0x41424344, 0, 0, 0}},
    {"flow, largest", flow, {TOP, TOP32, 0, 0, 0}, 3, 2, {TOP, TOP32, 0, 0, 0}},
    {"ack, different", ack, {A, B, C, D, 0}, 4, 4, {A, B, C, D, 0}},
    {"ack, largest", ack, {TOP, TOP, TOP, TOP, 0}, 4, 4, {TOP, TOP, TOP, TOP, 0}},
    {"seek, to an id", seek, {A, 1, B, C, 0}, 5, 4, {A, 1, B, C, 0}},
    {"seek, target 256", seek, {A, 256, B, C, 0}, 5, 4, {A, 1, B, C, 0}},
    {"seek, largest", seek, {TOP, TOP, TOP, TOP, 0}, 5, 4, {TOP, 1, TOP, TOP, 0}},
    {"seek, to the start", seek, {A, 0, B, C, 0}, 5, 2, {A, 0, 0, 0, 0}},
    {"seek, largest to the start", seek, {TOP, 0, TOP, TOP, 0}, 5, 2, {TOP, 0, 0, 0, 0}},
    {"redeliver, different", redeliver, {A, B, C, D, 0}, 6, 4, {A, B, C, D, 0}},
    {"redeliver, largest", redeliver, {TOP, TOP, TOP, TOP, 0}, 6, 4, {TOP, TOP, TOP, TOP, 0}},
    {"close, different", close_consumer, {A, 0, 0, 0, 0}, 7, 1, {A, 0, 0, 0, 0}},
    {"close, largest", close_consumer, {TOP, 0, 0, 0, 0}, 7, 1, {TOP, 0, 0, 0, 0}},
    {"push", push, {0, 0, 0, 0, 0}, 8, 0, {0, 0, 0, 0, 0}},
};

/* Each call with its room and with more; with every room that is too small. */
static void every_kind(void)
{
    const struct call *c;
    size_t n, room;
    for (c = all; c < all + sizeof all / sizeof *all; c++) {
        n = want(c->kind, c->words, c->n, 0);
        check(n == BROKER_TRACE_BYTES(c->n), c->of, "BROKER_TRACE_BYTES is not the length");
        for (room = 0; room < n; room++) {
            clear();
            check_refused(c->of, c->record(room, c->a));
        }
        clear();
        check_written(c->of, c->record(n, c->a), n);
        clear();
        check_written(c->of, c->record(BROKER_TRACE_MOST_BYTES, c->a), n);
    }
}

/* ---- lists, the header, the example ---- */

/* Ack or redeliver with the first m words of the list, in room for them, in one byte less and in all. */
static void one_list(const char *of, size_t (*record)(uint8_t *, size_t, uint64_t, const uint64_t *, size_t),
                     unsigned kind, size_t m)
{
    const uint64_t consumer = A, *words = m == 0 ? NULL : list;
    size_t n;
    clear();
    if (m > LONGEST) {
        check_refused(of, record(lent, BROKER_TRACE_MOST_BYTES + GUARD, consumer, words, m));
        return;
    }
    n = want(kind, &consumer, 1, m);
    check_refused(of, record(lent, n - 1, consumer, words, m));
    check_written(of, record(lent, n, consumer, words, m), n);
    clear();
    check_written(of, record(lent, BROKER_TRACE_MOST_BYTES, consumer, words, m), n);
}

static void lists(void)
{
    static const size_t lengths[] = {0, 1, LONGEST, LONGEST + 1, SIZE_MAX};
    size_t i;
    for (i = 0; i < LONGEST + 1; i++)
        list[i] = A * (2 * i + 1);
    for (i = 0; i < sizeof lengths / sizeof *lengths; i++) {
        one_list("ack of a list", broker_trace_ack, 4, lengths[i]);
        one_list("redeliver of a list", broker_trace_redeliver, 6, lengths[i]);
    }
    check(want(4, list, 1, LONGEST) == BROKER_TRACE_MOST_BYTES, "the longest", "BROKER_TRACE_MOST_BYTES is not it");
}

static void header(void)
{
    static const uint8_t bytes[] = {'H', 'B', 'T', 0, 1};
    size_t room;
    memcpy(wanted, bytes, sizeof bytes);
    for (room = 0; room < sizeof bytes; room++) {
        clear();
        check_refused("header", broker_trace_header(lent, room));
    }
    check_written("header", broker_trace_header(lent, sizeof bytes), sizeof bytes);
    clear();
    check_written("header", broker_trace_header(lent, BROKER_TRACE_MOST_BYTES), sizeof bytes);
    check(sizeof bytes == BROKER_TRACE_HEADER_BYTES, "header", "BROKER_TRACE_HEADER_BYTES is not the length");
}

/* One message on topic 1, of which consumer 7 takes one of the two that it may. */
static const uint8_t example[] = {
    'H', 'B', 'T', 0, 1,
    1, 0, 5,                /* append */
    0, 0, 0, 0, 0, 0, 0, 1, /*   topic 1 */
    0, 0, 0, 0, 0, 0, 0, 1, /*   ledger 1 */
    0, 0, 0, 0, 0, 0, 0, 0, /*   entry 0 */
    0, 0, 0, 0, 0, 0, 0, 5, /*   handle 5 */
    0, 0, 0, 0, 0, 0, 0, 0, /*   no batch */
    2, 0, 4,                /* subscribe */
    0, 0, 0, 0, 0, 0, 0, 7, /*   consumer 7 */
    0, 0, 0, 0, 0, 0, 0, 1, /*   shared */
    0, 0, 0, 0, 0, 0, 0, 1, /*   topic 1 */
    0, 0, 0, 0, 0, 0, 0, 1, /*   subscription 1 */
    3, 0, 2,                /* flow */
    0, 0, 0, 0, 0, 0, 0, 7, /*   consumer 7 */
    0, 0, 0, 0, 0, 0, 0, 2, /*   grants 2 */
    8, 0, 0,                /* push */
};

/* The example put together in the buffer, in room for it and no more. */
static void whole_example(void)
{
    const size_t room = sizeof example;
    size_t n;
    clear();
    memcpy(wanted, example, room);
    n = broker_trace_header(lent, room);
    n += broker_trace_append(lent + n, room - n, 1, 1, 0, 5, 0);
    n += broker_trace_subscribe(lent + n, room - n, 7, 1, 1, 1);
    n += broker_trace_flow(lent + n, room - n, 7, 2);
    n += broker_trace_push(lent + n, room - n);
    check_written("the example", n, room);
}

/* Whether the example, which is in the buffer, is in the file too. */
static int written_to(const char *path)
{
    FILE *file = fopen(path, "wb");
    int all_there;
    if (file == NULL)
        return 0;
    all_there = fwrite(lent, 1, sizeof example, file) == sizeof example;
    return fclose(file) == 0 && all_there;
}

int main(int argc, char **argv)
{
    if (argc > 2) {
        fprintf(stderr, "usage: record [TRACE]\n");
        return 2;
    }
    every_kind();
    lists();
    header();
    whole_example();
    if (argc == 2 && !written_to(argv[1])) {
        perror(argv[1]);
        return 1;
    }
    printf("record: %lu checks of the bytes that broker_trace.h writes\n", checks);
    return 0;
}
