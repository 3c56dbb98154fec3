/*
 * What is lent and how it is called: slices with guards, every call with all lent words compared around it,
 * lists of groups, and the parts that the program counts.
 */
#include "faults.h"

#include <stdio.h>
#include <stdlib.h>
#include <string.h>

/* ---- lent words ---- */

struct slice stores[5];
struct slice *store = &stores[0];
struct slice list;

struct slice make(size_t room)
{
    struct slice s;
    size_t all = room + 2 * GUARD, i;
    s.base = malloc(all * sizeof(uint64_t));
    s.was = malloc(all * sizeof(uint64_t));
    if (s.base == NULL || s.was == NULL) {
        fprintf(stderr, "faults: no memory\n");
        exit(2);
    }
    for (i = 0; i < all; i++)
        s.base[i] = FILL;
    s.words = s.base + GUARD;
    s.room = room;
    s.n = 0;
    return s;
}

/* Lends n words, none of them written. */
void fill(struct slice *s, size_t n)
{
    size_t i;
    s->n = n;
    for (i = 0; i < n; i++)
        s->words[i] = FILL;
}

static void remember(struct slice *s)
{
    memcpy(s->was, s->base, (s->n + 2 * GUARD) * sizeof(uint64_t));
}

/* Whether the lent words from `from` on, and the guards, are as they were. */
static int same(const struct slice *s, size_t from)
{
    size_t behind = (s->n - from + GUARD) * sizeof(uint64_t);
    return memcmp(s->base, s->was, GUARD * sizeof(uint64_t)) == 0 &&
           memcmp(s->words + from, s->was + GUARD + from, behind) == 0;
}

/* ---- calls ---- */

const char *const names[OPERATIONS] = {"open", "append", "subscribe", "flow", "ack",
                                              "seek", "redeliver", "close", "push"};

#define N(number) (1u << (number))
/* The refusals that each operation has. */
static const unsigned refusals[OPERATIONS] = {
    N(2) | N(3),
    N(1) | N(8) | N(7) | N(5) | N(6),
    N(1) | N(12) | N(13) | N(14),
    N(1) | N(4) | N(9),
    N(1) | N(4) | N(10) | N(11),
    N(1) | N(4),
    N(1) | N(4) | N(10) | N(11),
    N(1) | N(9),
    N(1) | N(15),
};

static const char *part = "";
static struct call now;
uint64_t answer;
unsigned long calls, part_calls, made_of[OPERATIONS], given[16];

static void fail(const char *what)
{
    const uint64_t *a = now.a;
    printf("faults: FAILED: %s: %s\n", part, what);
    printf("  the call: %s, numbers %llu %llu %llu %llu %llu, a store of %llu words, a list of %llu\n",
           names[now.operation], (unsigned long long)a[0], (unsigned long long)a[1],
           (unsigned long long)a[2], (unsigned long long)a[3], (unsigned long long)a[4],
           (unsigned long long)store->n, (unsigned long long)list.n);
    printf("  its answer: number %u, value %lld; %lu calls before it\n", BROKER_NUMBER(answer),
           (long long)BROKER_VALUE(answer), calls - 1);
    exit(1);
}

struct call call(enum operation operation, uint64_t a, uint64_t b, uint64_t c, uint64_t d, uint64_t e)
{
    struct call made;
    made.operation = operation;
    made.a[0] = a;
    made.a[1] = b;
    made.a[2] = c;
    made.a[3] = d;
    made.a[4] = e;
    return made;
}

struct call open_(uint64_t entries, uint64_t leak, uint64_t noop)
{
    return call(OPEN, entries, leak, noop, 0, 0);
}

struct call append(uint64_t topic, uint64_t ledger, uint64_t entry, uint64_t batch)
{
    return call(APPEND, topic, ledger, entry, 500 + entry, batch);
}

struct call subscribe(uint64_t consumer, uint64_t kind, uint64_t topic, uint64_t subscription)
{
    return call(SUBSCRIBE, consumer, kind, topic, subscription, 0);
}

struct call flow(uint64_t consumer, uint64_t grant)
{
    return call(FLOW, consumer, grant, 0, 0, 0);
}

struct call seek(uint64_t consumer, uint64_t target, uint64_t ledger, uint64_t entry)
{
    return call(SEEK, consumer, target, ledger, entry, 0);
}

/* Ack, redeliver and close of a consumer; push, which has none. */
struct call of(enum operation operation, uint64_t consumer)
{
    return call(operation, consumer, 0, 0, 0, 0);
}

int null_if_empty;

/* The pointer that is lent. */
static uint64_t *lent(const struct slice *s)
{
    return null_if_empty && s->n == 0 ? NULL : s->words;
}

static uint64_t perform(const struct call *c)
{
    uint64_t *words = lent(store), *listed = lent(&list);
    const uint64_t *a = c->a;
    size_t n = store->n;
    switch (c->operation) {
    case OPEN:
        return broker_open(words, n, a[0], a[1], a[2]);
    case APPEND:
        return broker_append(words, n, (uint8_t)a[0], a[1], a[2], a[3], a[4]);
    case SUBSCRIBE:
        return broker_subscribe(words, n, a[0], a[1], (uint8_t)a[2], (uint8_t)a[3]);
    case FLOW:
        return broker_flow(words, n, a[0], (uint32_t)a[1]);
    case ACK:
        return broker_ack(words, n, a[0], listed, list.n);
    case SEEK:
        return broker_seek(words, n, a[0], a[1], a[2], a[3]);
    case REDELIVER:
        return broker_redeliver(words, n, a[0], listed, list.n);
    case CLOSE:
        return broker_close(words, n, a[0]);
    case PUSH:
    default:
        return broker_push(words, n, listed, list.n);
    }
}

/* The value that a call may have when it is done, with E entries per topic. */
static int value_fits(enum operation operation, int64_t value, uint64_t entries)
{
    switch (operation) {
    case FLOW:
        return value >= -255 && value <= (int64_t)POWER(40);
    case ACK:
        return value >= 0 && value <= 2 * (int64_t)entries + 1;
    case SEEK:
        return value >= 0 && value <= (int64_t)entries;
    case CLOSE:
        return value == 0 || value == 1;
    case PUSH:
        return value >= 0 && (uint64_t)value <= list.n / BROKER_RECORD_WORDS;
    case OPEN:
    case APPEND:
    case SUBSCRIBE:
    case REDELIVER:
    default:
        return value == 0;
    }
}

static int record_fits(const uint64_t *r)
{
    uint64_t batch = r[BROKER_RECORD_BATCH], words = r[BROKER_RECORD_ACK_COUNT], i;
    int64_t permits = (int64_t)(r[BROKER_RECORD_PERMITS] + 255) - 255;
    if (batch > 256 || (words != 0 && words != (batch + 63) / 64))
        return 0;
    for (i = words; i < 4; i++)
        if (r[BROKER_RECORD_ACK_SET + i] != 0)
            return 0;
    return r[BROKER_RECORD_REDELIVERY] < POWER(32) && r[BROKER_RECORD_COST] >= 1 &&
           r[BROKER_RECORD_COST] <= 256 && permits >= -255 && permits < (int64_t)POWER(40);
}

/* Makes a call and looks at all that was lent. */
unsigned run(struct call c)
{
    unsigned number;
    int64_t value;
    uint64_t entries;
    size_t written = 0, i;
    int has_list = c.operation == ACK || c.operation == REDELIVER || c.operation == PUSH;

    now = c;
    calls++;
    part_calls++;
    made_of[c.operation]++;
    remember(store);
    if (has_list)
        remember(&list);
    answer = perform(&c);
    number = BROKER_NUMBER(answer);
    value = BROKER_VALUE(answer);
    if (number > 15 || (number != 0 && (refusals[c.operation] & N(number)) == 0))
        fail("the operation has no such refusal");
    given[number]++;
    if (number != 0) {
        if (!same(store, 0))
            fail("a refused call changed the store, or words around it");
        if (has_list && !same(&list, 0))
            fail("a refused call changed the list, or words around it");
        if (number == 15 ? value <= (int64_t)(list.n / BROKER_RECORD_WORDS) : value != 0)
            fail("a refusal with a wrong value");
        return number;
    }
    entries = store->words[1];
    if (entries < 1 || entries > 4096 || store->n < BROKER_NEEDED(entries))
        fail("done, but the store does not say how many entries it has");
    if (!same(store, BROKER_NEEDED(entries)))
        fail("words past the needed ones, or around the store, changed");
    if (!value_fits(c.operation, value, entries))
        fail("the value is out of its range");
    if (c.operation == PUSH) {
        written = BROKER_RECORD_WORDS * (size_t)value;
        for (i = 0; i < written; i += BROKER_RECORD_WORDS)
            if (!record_fits(list.words + i))
                fail("a record is not of its form");
    }
    if (has_list && !same(&list, written))
        fail("words of the list, behind push's records, or around it changed");
    return 0;
}

void expect(struct call c, unsigned number, int64_t value)
{
    static char text[80];
    if (run(c) == number && BROKER_VALUE(answer) == value)
        return;
    snprintf(text, sizeof text, "document 01 has number %u, value %lld", number, (long long)value);
    fail(text);
}

void done(struct call c)
{
    expect(c, 0, 0);
}

void refused(struct call c, unsigned number)
{
    expect(c, number, 0);
}

/* Done, with any value. */
void does(struct call c)
{
    if (run(c) != 0)
        fail("document 01 has it done");
}

void check(int holds, const char *what)
{
    if (!holds)
        fail(what);
}

/* A store opened for E entries per topic, with some words more. */
void opened(uint64_t entries, uint64_t leak, uint64_t noop)
{
    fill(store, BROKER_NEEDED(entries) + 5);
    done(open_(entries, leak, noop));
}

/* ---- lists ---- */

/* One group more: an id, n, and as many words as stand behind it. */
void group(uint64_t ledger, uint64_t entry, uint64_t n, size_t words, uint64_t word)
{
    uint64_t *at = list.words + list.n;
    size_t i;
    at[0] = ledger;
    at[1] = entry;
    at[2] = n;
    for (i = 0; i < words; i++)
        at[3 + i] = word;
    list.n += 3 + words;
}

/* The groups (ledger, first), (ledger, first + 1), ..., each with so many words. */
void groups(uint64_t count, uint64_t ledger, uint64_t first, size_t words)
{
    uint64_t i;
    list.n = 0;
    for (i = 0; i < count; i++)
        group(ledger, first + i, words, words, TOP);
}

/* Document 01: at most 64 groups of ledger, entry, n (at most 16) and n words, ending exactly. */
int formed(const uint64_t *words, size_t m)
{
    size_t at = 0, count = 0;
    while (at < m) {
        if (m - at < 3 || words[at + 2] > 16 || m - at - 3 < words[at + 2])
            return 0;
        at += 3 + (size_t)words[at + 2];
        count++;
    }
    return count <= 64;
}

/* ---- parts ---- */

void begin(const char *name)
{
    part = name;
    part_calls = 0;
}

void ended(const char *what)
{
    printf("faults: %s: %lu calls, %s\n", part, part_calls, what);
    fflush(stdout);
}
