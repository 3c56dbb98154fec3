/*
 * Each number of each operation at its limit and one past it, and push's records word by word.
 */
#include "faults.h"

#include <string.h>

void open_limits(void)
{
    static const uint64_t wrong[] = {0, 4097, 4098, POWER(32), POWER(57), POWER(57) + 1, POWER(63), TOP};
    static const uint64_t right[] = {1, 2, 32, 4095, 4096};
    size_t i, k;
    for (i = 0; i < sizeof wrong / sizeof *wrong; i++) {
        fill(store, 0);
        refused(open_(wrong[i], 0, 0), 2);
        fill(store, store->room);
        refused(open_(wrong[i], 1, 1), 2);
    }
    for (i = 0; i < sizeof right / sizeof *right; i++) {
        uint64_t e = right[i];
        size_t needed = BROKER_NEEDED(e);
        fill(store, 0);
        refused(open_(e, 0, 0), 3);
        fill(store, 1);
        refused(open_(e, 0, 0), 3);
        fill(store, needed - 1);
        refused(open_(e, 0, 0), 3);
        fill(store, needed);
        done(open_(e, i % 2 == 0 ? 0 : TOP, i % 2 == 0 ? POWER(63) : 0));
        check(store->words[1] == e && store->words[2] == i % 2 && store->words[3] == 1 - i % 2,
              "the header is not what was asked for");
        for (k = 4; k < needed; k++)
            check(store->words[k] == 0, "a store just opened has something in it");
        fill(store, needed + 7);
        done(open_(e, 0, 0));
        done(open_(1, 0, 0));
        check(store->words[1] == 1, "opened again with another E");
    }
    /* Document 01's readings: 8,192 and 8,191 words for E = 32. */
    fill(store, 8192);
    refused(open_(4096, 0, 0), 3);
    refused(open_(4097, 0, 0), 2);
    done(open_(32, 0, 0));
    fill(store, 8191);
    refused(open_(32, 0, 0), 3);
}

void append_limits(void)
{
    uint64_t i, *topic;
    opened(2, 0, 0);
    refused(append(1, 1, 0, 257), 8);
    refused(append(1, 1, 0, TOP), 8);
    done(append(1, 1, 0, 256));
    refused(append(1, 1, 0, 256), 7);
    refused(append(1, 1, 0, 257), 8);
    done(append(1, TOP, TOP, 0));
    refused(append(1, 1, 1, 0), 6);
    refused(append(1, TOP, TOP, 0), 7);
    refused(append(1, 1, 1, 257), 8);
    for (i = 0; i < 7; i++)
        done(append(255 - i, 1, 0, i));
    refused(append(9, 1, 0, 0), 5);
    refused(append(9, 1, 0, 257), 8);
    done(append(255, 1, 1, 1));
    refused(append(255, 1, 2, 1), 6);
    /* One topic of 4,095 entries, then the last place and one past it. */
    opened(4096, 0, 0);
    done(append(3, 1, 0, 1));
    topic = store->words + TOPIC(4096, 0);
    topic[3] = 4095;
    for (i = 1; i < 4095; i++) {
        topic[4 + 4 * i] = 1;
        topic[5 + 4 * i] = i;
    }
    refused(append(3, 1, 4094, 1), 7);
    done(append(3, 1, 4095, 1));
    refused(append(3, 1, 4096, 1), 6);
    refused(append(3, 1, 4095, 1), 7);
    done(append(4, 1, 4096, 1));
    /* E = 1. */
    opened(1, 0, 0);
    done(append(3, 1, 0, 1));
    refused(append(3, 1, 1, 1), 6);
}

void subscribe_limits(void)
{
    uint64_t i;
    int noop;
    for (noop = 0; noop < 2; noop++) {
        opened(2, 0, noop == 0 ? 0 : TOP);
        for (i = 0; i < 8; i++)
            done(subscribe(TOP - i, TOP, i, 255));
        refused(subscribe(1, 1, 8, 255), 13);
        refused(subscribe(1, 2, 0, 0), 13);
        done(subscribe(1, 0, 8, 255));
        if (noop == 0)
            refused(subscribe(1, 1, 8, 255), 13);
        else
            done(subscribe(1, 1, 8, 255));
        for (i = 2; i < 25; i++)
            done(subscribe(i, i % 2, 0, 255));
        refused(subscribe(25, 0, 0, 255), 12);
        refused(subscribe(25, 1, 0, 255), 12);
        refused(subscribe(25, 1, 8, 255), 12);
        done(subscribe(24, 0, 7, 7));
        expect(of(CLOSE, 2), 0, 1);
        done(subscribe(25, 1, 0, 255));
        refused(subscribe(2, 0, 0, 255), 12);
    }
    /* A ring of 32, then one id past it: 0 leaves the consumers but not the ring. */
    opened(2, 0, 0);
    for (i = 0; i < 32; i++)
        done(subscribe(i, 1, 1, 1));
    refused(subscribe(32, 1, 1, 1), 12);
    done(subscribe(0, 0, 1, 1));
    expect(of(CLOSE, 0), 0, 1);
    refused(subscribe(32, 1, 1, 1), 14);
    done(subscribe(32, 0, 1, 1));
    refused(subscribe(32, 1, 1, 1), 14);
    expect(of(CLOSE, 32), 0, 1);
    done(subscribe(0, 1, 1, 1));
    expect(of(CLOSE, 0), 0, 1);
    done(subscribe(32, 1, 1, 1));
    refused(subscribe(0, 1, 1, 1), 12);
}

void flow_limits(void)
{
    const uint64_t most = POWER(32) - 1;
    uint64_t *permits, *total, kind, i;
    for (kind = 0; kind < 2; kind++) {
        opened(1, 0, 0);
        refused(flow(7, 0), 4);
        done(subscribe(7, kind, 1, 1));
        expect(flow(7, 0), 0, 0);
        for (i = 1; i <= 256; i++)
            expect(flow(7, most), 0, (int64_t)(i * most));
        refused(flow(7, 257), 9);
        expect(flow(7, 255), 0, (int64_t)POWER(40) - 1);
        refused(flow(7, 2), 9);
        expect(flow(7, 1), 0, (int64_t)POWER(40));
        expect(flow(7, 0), 0, (int64_t)POWER(40));
        refused(flow(7, 1), 9);
        refused(flow(7, most), 9);
        refused(flow(8, most), 4);
        permits = store->words + CONSUMER(0) + PERMITS;
        *permits = EXCESS + POWER(40) + 1;
        refused(flow(7, 0), 1);
        *permits = EXCESS - 256;
        refused(flow(7, 0), 1);
        *permits = EXCESS - 255;
        expect(flow(7, 0), 0, -255);
        expect(flow(7, 254), 0, -1);
        *permits = EXCESS + POWER(40) - most;
        expect(flow(7, most), 0, (int64_t)POWER(40));
    }
    /* The subscription's own limit, which no number of calls in reach comes near. */
    total = store->words + DISPATCHER(1, 0) + TOTAL;
    *permits = EXCESS;
    *total = EXCESS + POWER(60);
    expect(flow(7, 0), 0, 0);
    refused(flow(7, 1), 9);
    refused(flow(7, most), 9);
    *total = EXCESS + POWER(60) - most;
    expect(flow(7, most), 0, (int64_t)most);
    refused(flow(7, 1), 9);
    check(*total == EXCESS + POWER(60), "the total is not 2^60");
    *total = EXCESS - POWER(60);
    expect(flow(7, 1), 0, (int64_t)most + 1);
    *total = EXCESS + POWER(60) + 1;
    refused(flow(7, 0), 1);
    *total = EXCESS - POWER(60) - 1;
    refused(flow(7, 0), 1);
}

/* Close of a consumer with permits out of a subscription with a total. */
static void close_with(uint64_t leak, uint64_t permits, uint64_t total, unsigned number)
{
    opened(1, leak, 0);
    done(subscribe(7, 1, 1, 1));
    store->words[CONSUMER(0) + PERMITS] = permits;
    store->words[DISPATCHER(1, 0) + TOTAL] = total;
    expect(of(CLOSE, 7), number, number == 0);
    total -= number == 0 ? (leak + 1) * (permits - EXCESS) : 0;
    check(store->words[DISPATCHER(1, 0) + TOTAL] == total, "a close left another total");
    expect(seek(7, 0, 0, 0), number == 0 ? 4 : 0, 0);
    expect(of(CLOSE, 8), 0, 0);
}

void close_limits(void)
{
    const uint64_t low = EXCESS - POWER(60), high = EXCESS + POWER(60);
    close_with(0, EXCESS + 0, low, 0);
    close_with(0, EXCESS + 1, low, 9);
    close_with(0, EXCESS + 1, low + 1, 0);
    close_with(0, EXCESS - 1, high, 9);
    close_with(0, EXCESS - 1, high - 1, 0);
    close_with(0, EXCESS - 255, high - 254, 9);
    close_with(0, EXCESS - 255, high - 255, 0);
    close_with(0, EXCESS + POWER(40), low + POWER(40), 0);
    close_with(0, EXCESS + POWER(40), low + POWER(40) - 1, 9);
    close_with(1, EXCESS + 1, low + 2, 0);
    close_with(1, EXCESS + 1, low + 1, 9);
    close_with(1, EXCESS - 255, high - 510, 0);
    close_with(1, EXCESS - 255, high - 509, 9);
    close_with(1, EXCESS + POWER(40), low + POWER(41), 0);
    close_with(1, EXCESS + POWER(40), low + POWER(41) - 1, 9);
    opened(1, 1, 0);
    done(subscribe(7, 0, 1, 1));
    store->words[CONSUMER(0) + PERMITS] = EXCESS + POWER(40);
    expect(of(CLOSE, 7), 0, 1);
    expect(of(CLOSE, 7), 0, 0);
}

void ack_limits(void)
{
    uint64_t kind, i;
    int ack;
    /* The list's form, for both operations and both kinds. */
    for (ack = 0; ack < 2; ack++)
        for (kind = 0; kind < 2; kind++) {
            enum operation op = ack ? ACK : REDELIVER;
            opened(2, 0, 0);
            done(subscribe(7, kind, 1, 1));
            groups(64, 1, 0, 16);
            done(of(op, 7));
            groups(65, 1, 0, 0);
            refused(of(op, 7), 10);
            refused(of(op, 8), 4);
            groups(1, 1, 0, 17);
            refused(of(op, 7), 10);
            refused(of(op, 8), 4);
            groups(1, 1, 0, 16);
            done(of(op, 7));
            list.n--;
            refused(of(op, 7), 10);
            list.n = 0;
            done(of(op, 7));
        }
    /* 64 complete ids outside the ledger, and one more. */
    opened(2, 0, 0);
    done(subscribe(7, 1, 1, 1));
    done(subscribe(8, 0, 1, 1));
    groups(63, 1, 0, 1);
    done(of(ACK, 7));
    groups(2, 1, 63, 0);
    refused(of(ACK, 7), 11);
    groups(64, 1, 0, 0);
    done(of(ACK, 7));
    groups(1, 1, 64, 0);
    refused(of(ACK, 7), 11);
    expect(of(ACK, 8), 0, 0);
    groups(65, 1, 64, 0);
    refused(of(ACK, 7), 10);
    list.n = 0;
    for (i = 0; i < 64; i++)
        group(1, 5, 0, 0, 0);
    done(of(ACK, 7));
    /* An append frees a place and the entry is complete; the next ack moves mark-delete. */
    done(append(1, 1, 5, 3));
    groups(2, 1, 64, 0);
    refused(of(ACK, 7), 11);
    groups(1, 1, 64, 0);
    expect(of(ACK, 7), 0, 2 * 1 + 1);
    expect(of(ACK, 7), 0, 2 * 1);
    groups(1, 1, 65, 0);
    refused(of(ACK, 7), 11);
    /* 64 nacked entries of a plain consumer, and one more; seek clears them. */
    groups(64, 1, 65, 0);
    done(of(REDELIVER, 8));
    list.n = 0;
    for (i = 0; i < 63; i++)
        group(1, 5, 0, 0, 0);
    done(of(REDELIVER, 8));
    list.n = 0;
    group(1, 5, 0, 0, 0);
    group(1, 5, 1, 1, 0);
    refused(of(REDELIVER, 8), 11);
    list.n = 3;
    done(of(REDELIVER, 8));
    refused(of(REDELIVER, 8), 11);
    list.words[2] = 17;
    refused(of(REDELIVER, 8), 10);
    list.words[1] = 6;
    list.words[2] = 0;
    done(of(REDELIVER, 8));
    list.n = 0;
    for (i = 0; i < 64; i++)
        group(1, 5, 0, 0, 0);
    refused(of(REDELIVER, 8), 11);
    done(of(REDELIVER, 7));
    expect(seek(8, 0, 0, 0), 0, 0);
    done(of(REDELIVER, 8));
    /* The counts that a store may spell, and one past. */
    store->words[CONSUMER(1) + 6] = 65;
    refused(seek(8, 0, 0, 0), 1);
    store->words[CONSUMER(1) + 6] = 64;
    store->words[DISPATCHER(2, 0) + 44] = 65;
    refused(seek(8, 0, 0, 0), 1);
    store->words[DISPATCHER(2, 0) + 44] = 64;
    expect(seek(8, 1, 1, 5), 0, 0);
    refused(seek(9, 1, 1, 5), 4);
}

/* A push with room for 3 makes so many dispatches; the first is of this entry to this consumer. */
static void sends(int64_t count, uint64_t consumer, uint64_t entry)
{
    fill(&list, (size_t)3 * BROKER_RECORD_WORDS);
    expect(of(PUSH, 0), 0, count);
    check(count == 0 || (list.words[BROKER_RECORD_CONSUMER] == consumer && list.words[BROKER_RECORD_ENTRY] == entry),
          "a push sent another entry");
}

/* An entry is appended to the topic of plain consumer 7, who waits at its end, and of shared consumer 8: it goes
 * to 7 alone, and past it both go to the new end, where 7 is sent nothing. */
static void next_entry(uint64_t entry, int64_t length)
{
    uint64_t consumer;
    done(append(1, 1, entry, 0));
    sends(1, 7, entry);
    for (consumer = 7; consumer <= 8; consumer++) {
        expect(seek(consumer, 1, 1, entry), 0, length - 1);
        expect(seek(consumer, 1, 1, entry + 1), 0, length);
        expect(seek(consumer, 1, 2, 0), 0, length);
        expect(seek(consumer, 1, TOP, TOP), 0, length);
    }
    sends(0, 0, 0);
}

void seek_limits(void)
{
    uint64_t *cursor;
    /* On a topic that no append has made, then past one entry, and past the last that it can hold. */
    opened(2, 0, 0);
    done(subscribe(7, 0, 1, 1));
    done(subscribe(8, 1, 1, 1));
    expect(flow(7, 9), 0, 9);
    expect(seek(7, 1, 1, 0), 0, 0);
    expect(seek(7, 1, TOP, TOP), 0, 0);
    sends(0, 0, 0);
    next_entry(0, 1);
    next_entry(5, 2);
    expect(seek(7, 0, TOP, TOP), 0, 0);
    sends(2, 7, 0);
    /* A cursor at the ledger's length is a state, one past it is none. */
    cursor = store->words + CONSUMER(0) + CURSOR;
    check(*cursor == 2, "a cursor is not at the ledger's length");
    *cursor = 3;
    refused(seek(7, 0, 0, 0), 1);
    *cursor = 2;
    expect(seek(7, 0, 0, 0), 0, 0);
}

static void record_is(size_t at, const uint64_t *expected)
{
    check(memcmp(list.words + at * BROKER_RECORD_WORDS, expected, BROKER_RECORD_WORDS * sizeof *expected) == 0,
          "a record is not document 01's");
}

/* Records word by word: fresh, handed back with an ack set, and to a plain consumer. */
void records(void)
{
    static const uint64_t fresh[] = {7, 1, 0, 500, 3, 0, 0, 0, 0, 0, 0, 3, 7};
    static const uint64_t again[] = {7, 1, 0, 500, 3, 1, 5, 0, 0, 0, 1, 2, 5};
    static const uint64_t debt[] = {7, 1, 65, 565, 65, 0, 0, 0, 0, 0, 0, 65, TOP - 59};
    static const uint64_t wide[] = {7, 1, 65, 565, 65, 2, TOP, 1, 0, 0, 1, 65, TOP - 63};
    static const uint64_t plain[] = {8, 1, 0, 500, 3, 0, 0, 0, 0, 0, 0, 1, 0};
    opened(2, 0, 0);
    done(append(1, 1, 0, 3));
    done(subscribe(7, 1, 1, 1));
    done(subscribe(8, 0, 1, 1));
    expect(flow(7, 10), 0, 10);
    fill(&list, 30);
    expect(of(PUSH, 0), 0, 1);
    record_is(0, fresh);
    list.n = 0;
    group(1, 0, 1, 1, 5);
    expect(of(ACK, 7), 0, 0);
    done(of(REDELIVER, 7));
    fill(&list, 13);
    expect(of(PUSH, 0), 0, 1);
    record_is(0, again);
    done(append(1, 1, 65, 65));
    fill(&list, 14);
    expect(of(PUSH, 0), 0, 1);
    record_is(0, debt);
    list.n = 0;
    group(1, 65, 2, 2, TOP);
    expect(of(ACK, 7), 0, 0);
    done(of(REDELIVER, 7));
    fill(&list, 25);
    expect(of(PUSH, 0), 0, 0);
    expect(flow(7, 60), 0, 0);
    expect(of(PUSH, 0), 0, 0);
    expect(flow(7, 1), 0, 1);
    expect(flow(8, 1), 0, 1);
    fill(&list, 25);
    expect(of(PUSH, 0), 15, 2);
    fill(&list, 26);
    expect(of(PUSH, 0), 0, 2);
    record_is(0, wide);
    record_is(1, plain);
    list.n = 0;
    group(1, 0, 1, 1, 2);
    group(1, 65, 0, 0, 0);
    expect(of(ACK, 7), 0, 2 * 2 + 1);
}
