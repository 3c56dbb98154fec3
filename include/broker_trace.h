/*
 * Records calls of the dispatch part as bytes, so that they can be played again on another machine: one function for
 * the header of a trace, and one for each of the eight calls of broker.h that an open store is for; the calls of a
 * row are recorded one by one. It takes the caller's buffer and its room in bytes, then what that call takes after
 * the store, in the same order and of the same types; push's list is left out. It puts its bytes at the start of the
 * buffer and answers how many they are; the caller sends them on or keeps them. Where the room is too small it answers
 * 0 and writes nothing. Nothing else is read or written, and nothing is kept; nothing is needed of a C library or of
 * libbroker.a.
 *
 *     static uint8_t bytes[BROKER_TRACE_MOST_BYTES];
 *     keep(bytes, broker_trace_header(bytes, sizeof bytes));                   once, right after broker_open
 *     keep(bytes, broker_trace_flow(bytes, sizeof bytes, consumer, grant));    with each broker_flow, and so on
 *
 * A trace is the bytes `HBT` and a version of 16 bits, then records: a kind of one byte, a count of 16 bits, and as
 * many words of 8 bytes; all high byte first.
 *
 * What the player takes as given, as no trace says it:
 *  - The store is of E = 32, opened with both switches off right before the first recorded call. A store of another
 *    size plays back only as far as it behaves like one of 32, which refuses the 33rd message of a topic.
 *  - Each push is lent a list of 32 records; a recorded one that made more dispatches than that is refused by 15
 *    there. One that was refused by 15 for a shorter list has changed nothing in the part, yet is done when it is
 *    played: it is better not recorded.
 *  - The words of the store are undamaged. A call that was refused by 1 is better not recorded, for the same reason.
 * Calls refused by any other number may be recorded: they are refused again.
 */
#ifndef BROKER_TRACE_H
#define BROKER_TRACE_H

#include <stddef.h>
#include <stdint.h>

#define BROKER_TRACE_VERSION 1

/* The kinds of records. */
#define BROKER_TRACE_APPEND 1
#define BROKER_TRACE_SUBSCRIBE 2
#define BROKER_TRACE_FLOW 3
#define BROKER_TRACE_ACK 4
#define BROKER_TRACE_SEEK 5
#define BROKER_TRACE_REDELIVER 6
#define BROKER_TRACE_CLOSE 7
#define BROKER_TRACE_PUSH 8

/* The bytes of the header, and of a record of so many words; the most words of a record, a consumer and a list of
 * 1,216, and the bytes of such a record: room for any. */
#define BROKER_TRACE_HEADER_BYTES 5
#define BROKER_TRACE_BYTES(words) ((size_t)3 + (size_t)8 * (size_t)(words))
#define BROKER_TRACE_MOST_WORDS 1217
#define BROKER_TRACE_MOST_BYTES BROKER_TRACE_BYTES(BROKER_TRACE_MOST_WORDS)

/* For the functions below: puts the low n bytes of a number, 1 to 8, high byte first. Answers where they end. */
static inline uint8_t *broker_trace_put(uint8_t *bytes, uint64_t number, unsigned n)
{
    while (n > 0) {
        n--;
        *bytes++ = (uint8_t)((number >> (8 * n)) & 255u);
    }
    return bytes;
}

/* For the functions below: puts a record of a kind, whose words are n, at most 5, and then the m of a list. */
static inline size_t broker_trace_record(uint8_t *bytes, size_t room, unsigned kind, const uint64_t *words, size_t n,
                                         const uint64_t *list, size_t m)
{
    size_t i;
    if (m > BROKER_TRACE_MOST_WORDS - n || room < BROKER_TRACE_BYTES(n + m))
        return 0;
    bytes = broker_trace_put(bytes, kind, 1);
    bytes = broker_trace_put(bytes, n + m, 2);
    for (i = 0; i < n; i++)
        bytes = broker_trace_put(bytes, words[i], 8);
    for (i = 0; i < m; i++)
        bytes = broker_trace_put(bytes, list[i], 8);
    return BROKER_TRACE_BYTES(n + m);
}

/* The header, which stands once, before all records: BROKER_TRACE_HEADER_BYTES. */
static inline size_t broker_trace_header(uint8_t *bytes, size_t room)
{
    const uint64_t mark = 0x484254; /* HBT */
    if (room < BROKER_TRACE_HEADER_BYTES)
        return 0;
    broker_trace_put(bytes, (mark << 16) | BROKER_TRACE_VERSION, BROKER_TRACE_HEADER_BYTES);
    return BROKER_TRACE_HEADER_BYTES;
}

/* An append: 5 words. */
static inline size_t broker_trace_append(uint8_t *bytes, size_t room, uint8_t topic, uint64_t ledger, uint64_t entry,
                                         uint64_t handle, uint64_t batch)
{
    const uint64_t words[] = {topic, ledger, entry, handle, batch};
    return broker_trace_record(bytes, room, BROKER_TRACE_APPEND, words, 5, NULL, 0);
}

/* A subscribe: 4 words. The kind is written as 0, or as 1 for any other number, as broker_subscribe takes it. */
static inline size_t broker_trace_subscribe(uint8_t *bytes, size_t room, uint64_t consumer, uint64_t kind,
                                            uint8_t topic, uint8_t subscription)
{
    const uint64_t words[] = {consumer, kind != 0, topic, subscription};
    return broker_trace_record(bytes, room, BROKER_TRACE_SUBSCRIBE, words, 4, NULL, 0);
}

/* A flow: 2 words. */
static inline size_t broker_trace_flow(uint8_t *bytes, size_t room, uint64_t consumer, uint32_t grant)
{
    const uint64_t words[] = {consumer, grant};
    return broker_trace_record(bytes, room, BROKER_TRACE_FLOW, words, 2, NULL, 0);
}

/* An ack: 1 word and those of the list. Answers 0 also for a list of more than 1,216 words, which a record does not
 * hold. Nothing is lost: such a list is never of the form, and broker_ack refuses it, by 10 where the consumer is
 * live. */
static inline size_t broker_trace_ack(uint8_t *bytes, size_t room, uint64_t consumer, const uint64_t *list, size_t m)
{
    return broker_trace_record(bytes, room, BROKER_TRACE_ACK, &consumer, 1, list, m);
}

/* A seek: 2 words to the start, where ledger and entry are not written; else 4. The target is written as 0, or as 1
 * for any other number, as broker_seek takes it. */
static inline size_t broker_trace_seek(uint8_t *bytes, size_t room, uint64_t consumer, uint64_t target,
                                       uint64_t ledger, uint64_t entry)
{
    const uint64_t words[] = {consumer, target != 0, ledger, entry};
    return broker_trace_record(bytes, room, BROKER_TRACE_SEEK, words, target != 0 ? 4 : 2, NULL, 0);
}

/* A redeliver: 1 word and those of the list, as for an ack. */
static inline size_t broker_trace_redeliver(uint8_t *bytes, size_t room, uint64_t consumer, const uint64_t *list,
                                            size_t m)
{
    return broker_trace_record(bytes, room, BROKER_TRACE_REDELIVER, &consumer, 1, list, m);
}

/* A close: 1 word. */
static inline size_t broker_trace_close(uint8_t *bytes, size_t room, uint64_t consumer)
{
    return broker_trace_record(bytes, room, BROKER_TRACE_CLOSE, &consumer, 1, NULL, 0);
}

/* A push: no words. Its list is not recorded. */
static inline size_t broker_trace_push(uint8_t *bytes, size_t room)
{
    return broker_trace_record(bytes, room, BROKER_TRACE_PUSH, NULL, 0, NULL, 0);
}

#endif
