/*
 * The dispatch part for C: the consumer side of a Pulsar broker in one lent slice of 64-bit words.
 * Link with libbroker.a (`make library`). docs/STORE.md says what every word of a store means.
 *
 * Every call but the last three takes the store as a pointer and its length in words; those three read and
 * write commands as bytes and take no store. Every call returns one number: value * 256 + number, where the
 * number is 0 when the call is done and else says why it was refused. A refused call has changed nothing of
 * what was lent. A refusal's value is 0, save those of BROKER_LIST_SHORT and BROKER_ANSWERS_SHORT. The first
 * refusal that applies, in the order given at each call, is returned.
 *
 * Every call on a store but broker_open first checks that the words spell a state, and returns 1 if they do
 * not; it takes any words whatever. Words past BROKER_NEEDED(E) are never read or written.
 *
 * broker_trace.h records calls as bytes, which the trace player makes again.
 *
 * The caller's part:
 *  - A pointer is to as many words as the length says, aligned for uint64_t, or to as many bytes. With length 0
 *    it is never read or written through and may be NULL: an empty list or script, no answers, a store of no
 *    words, an empty input. One without a length is to as many words as it is declared with.
 *  - The slices of one call (the store, the list, script and answers, bytes and words lent) do not overlap.
 *  - Nobody else writes a slice of a call during it, nor reads one that the call writes.
 * The library keeps nothing between calls: several stores may be used at once, each by one call at a time.
 */
#ifndef BROKER_H
#define BROKER_H

#include <stddef.h>
#include <stdint.h>

#ifdef __cplusplus
extern "C" {
#endif

/* An answer taken apart: the refusal's number, or 0; and the value, signed (an arithmetic shift right
 * by 8, written so that it does not rest on how a compiler shifts negative numbers). */
#define BROKER_NUMBER(answer) ((unsigned)((uint64_t)(answer) & 255u))
#define BROKER_VALUE(answer) \
    ((int64_t)((uint64_t)(answer) >> 8) - (int64_t)(((uint64_t)(answer) >> 63) << 56))

/* The words that a store for E entries per topic needs, E from 1 to BROKER_MAX_ENTRIES. */
#define BROKER_NEEDED(entries) ((size_t)4096 + (size_t)128 * (size_t)(entries))

/* The refusals. */
#define BROKER_DONE 0
#define BROKER_NO_STATE 1         /* the words spell no state */
#define BROKER_BAD_ENTRIES 2      /* E is not 1 to 4,096 */
#define BROKER_STORE_SHORT 3      /* the store is shorter than E needs */
#define BROKER_NOT_LIVE 4         /* no live consumer has this id */
#define BROKER_TOPICS_FULL 5      /* a new topic, and there are 8 */
#define BROKER_ENTRIES_FULL 6     /* the topic has E entries */
#define BROKER_ID_TAKEN 7         /* the topic has an entry with this ledger and entry id */
#define BROKER_BAD_BATCH 8        /* the batch size is not 0 to 256 */
#define BROKER_PERMITS_RANGE 9    /* permits would leave their range */
#define BROKER_BAD_LIST 10        /* the list is not at most 64 whole groups of at most 16 words */
#define BROKER_IDS_FULL 11        /* complete ids outside the ledger, or nacked entries, would pass 64 */
#define BROKER_CONSUMERS_FULL 12  /* a new consumer, and 32 are live */
#define BROKER_DISPATCHERS_FULL 13 /* a new shared subscription, and there are 8 */
#define BROKER_RING_FULL 14       /* the shared subscription's ring has 32 ids */
#define BROKER_LIST_SHORT 15      /* more dispatches are due than the list holds; the value is how many */
#define BROKER_NOT_WELL_FORMED 16 /* the bytes are no command, or what is lent or to be written is not fit */
#define BROKER_OTHER_TYPE 17      /* a command of a type that this reader does not take */
#define BROKER_NO_CALL 18         /* a record of a script or a trace is no call; the trace player prints bad */
/* This library's own number, far from those of the customer's papers, which go from 1 on. */
#define BROKER_ANSWERS_SHORT 64   /* a row has more calls than answers are lent; the value is how many */

/* The limits. */
#define BROKER_MAX_ENTRIES 4096
#define BROKER_MAX_TOPICS 8
#define BROKER_MAX_CONSUMERS 32
#define BROKER_MAX_DISPATCHERS 8
#define BROKER_MAX_RING 32
#define BROKER_MAX_BATCH 256
#define BROKER_MAX_OUTSIDE 64
#define BROKER_MAX_NACKED 64
#define BROKER_MAX_GROUPS 64
#define BROKER_MAX_GROUP_WORDS 16

/* A subscribe's kind (any other number is shared too) and a seek's target (any other number is an id). */
#define BROKER_PLAIN 0
#define BROKER_SHARED 1
#define BROKER_START 0
#define BROKER_ID 1

/* A record of push's list: 13 words, the first record at word 0, the next at word 13, and so on. */
#define BROKER_RECORD_WORDS 13
#define BROKER_RECORD_CONSUMER 0    /* to whom */
#define BROKER_RECORD_LEDGER 1      /* the message id: ledger */
#define BROKER_RECORD_ENTRY 2       /* and entry */
#define BROKER_RECORD_HANDLE 3      /* what append was given */
#define BROKER_RECORD_BATCH 4       /* the batch size */
#define BROKER_RECORD_ACK_COUNT 5   /* how many ack-set words there are, 0 to 4; 0 is no ack set */
#define BROKER_RECORD_ACK_SET 6     /* four words, those past the count 0 */
#define BROKER_RECORD_REDELIVERY 10 /* the redelivery count, 32 bits */
#define BROKER_RECORD_COST 11       /* the permits it cost */
#define BROKER_RECORD_PERMITS 12    /* the consumer's permits after it, in two's complement */

/* Makes any words of enough length an empty store for `entries` entries per topic. The switches are off at
 * 0, else on: leak charges a shared subscription twice at close; noop makes a subscribe of a live id do
 * nothing. Refused by 2, 3. Value 0. */
uint64_t broker_open(uint64_t *store, size_t n, uint64_t entries, uint64_t leak, uint64_t noop);

/* Appends a message to a topic, which its first append makes. The handle is the caller's own; a batch size
 * of 0 is a message that is no batch. Refused by 1, 8, 7, 5, 6. Value 0. */
uint64_t broker_append(uint64_t *store, size_t n, uint8_t topic, uint64_t ledger, uint64_t entry,
                       uint64_t handle, uint64_t batch);

/* Makes a consumer of a topic's subscription with no permits, or replaces the live one of that id.
 * Refused by 1, 12, 13, 14. Value 0. */
uint64_t broker_subscribe(uint64_t *store, size_t n, uint64_t consumer, uint64_t kind, uint8_t topic,
                          uint8_t subscription);

/* Grants permits to a consumer and, if it is shared, its subscription. Refused by 1, 4, 9 (the consumer
 * would pass 2^40 or the subscription 2^60). Value: the consumer's permits after, which can be below 0. */
uint64_t broker_flow(uint64_t *store, size_t n, uint64_t consumer, uint32_t grant);

/* Acknowledges. The list has groups of ledger, entry, a count of ack-set words (0 to 16) and those words,
 * whose set bits are not yet acknowledged; a plain consumer's ack changes nothing. Refused by 1, 4, 10, 11.
 * Value: the mark-delete position * 2, + 1 if it moved; of a plain consumer 0. */
uint64_t broker_ack(uint64_t *store, size_t n, uint64_t consumer, const uint64_t *list, size_t m);

/* Moves the consumer's own cursor and forgets what it handed back: to the start, or to the first entry at or
 * after the id; where there is none, to the end, so that a plain consumer waits for the next append, also on a
 * topic that has none yet. A shared subscription does not move. Refused by 1, 4. Value: the cursor. */
uint64_t broker_seek(uint64_t *store, size_t n, uint64_t consumer, uint64_t target, uint64_t ledger,
                     uint64_t entry);

/* Hands entries back to be sent again. The list is of ack's form; its ack-set words are ignored. Refused
 * by 1, 4, 10, 11 (plain only). Value 0. */
uint64_t broker_redeliver(uint64_t *store, size_t n, uint64_t consumer, const uint64_t *list, size_t m);

/* Closes a consumer; what a shared one holds waits to be sent again. Refused by 1, 9 (the subscription
 * would leave -2^60 to 2^60). Value: 1 if it was live, else 0. */
uint64_t broker_close(uint64_t *store, size_t n, uint64_t consumer);

/* Dispatches all that is due and writes a record for each to the list, which holds m / 13 of them; words
 * behind the records written stay as they were. Refused by 1, 15. Value: the dispatches made; with 15 the
 * number due, for which the list needs that many records. */
uint64_t broker_push(uint64_t *store, size_t n, uint64_t *list, size_t m);

/* ---- A row of calls ----
 *
 * Every single call checks the whole store before it does anything; a row of calls checks it once. Whoever has
 * several commands in hand, or a command and the push after it, makes them as one row.
 *
 * A script is records one after the other, up to its end: a word kind, a word count, at most
 * BROKER_CALL_MOST_WORDS, and as many words. Kinds and words are those of a trace (broker_trace.h):
 *
 *   1  append     topic, ledger, entry, handle, batch
 *   2  subscribe  consumer, kind, topic, subscription
 *   3  flow       consumer, grant
 *   4  ack        consumer, and the words of its list
 *   5  seek       consumer, BROKER_START; or consumer, BROKER_ID, ledger, entry
 *   6  redeliver  consumer, and the words of its list
 *   7  close      consumer
 *   8  push       no words
 *
 * A topic and a subscription are at most 255, a grant is at most 2^32 - 1, a subscribe's kind is BROKER_PLAIN or
 * BROKER_SHARED. Every other word may be any number: it is the call that refuses a batch of 257 or a cut list.
 */
#define BROKER_CALL_KIND_APPEND 1
#define BROKER_CALL_KIND_SUBSCRIBE 2
#define BROKER_CALL_KIND_FLOW 3
#define BROKER_CALL_KIND_ACK 4
#define BROKER_CALL_KIND_SEEK 5
#define BROKER_CALL_KIND_REDELIVER 6
#define BROKER_CALL_KIND_CLOSE 7
#define BROKER_CALL_KIND_PUSH 8

#define BROKER_CALL_MOST_WORDS 1217 /* the most words after a count: a consumer and a list of 1,216 */

/* The words that each call takes in a script, its kind and count among them. */
#define BROKER_CALL_APPEND_WORDS 7
#define BROKER_CALL_SUBSCRIBE_WORDS 6
#define BROKER_CALL_FLOW_WORDS 4
#define BROKER_CALL_ACK_WORDS(list_words) ((size_t)3 + (size_t)(list_words))
#define BROKER_CALL_SEEK_START_WORDS 4
#define BROKER_CALL_SEEK_ID_WORDS 6
#define BROKER_CALL_REDELIVER_WORDS(list_words) ((size_t)3 + (size_t)(list_words))
#define BROKER_CALL_CLOSE_WORDS 3
#define BROKER_CALL_PUSH_WORDS 2

/* The words of each call, for the initialiser of an array of uint64_t. The words of an ack's or a redeliver's
 * list, as many as it is told, stand right behind it:
 *
 *     uint64_t script[] = {BROKER_CALL_ACK(7, 3), 1, 0, 0, BROKER_CALL_FLOW(7, 10), BROKER_CALL_PUSH};
 */
#define BROKER_CALL_APPEND(topic, ledger, entry, handle, batch) \
    (uint64_t)BROKER_CALL_KIND_APPEND, (uint64_t)5, (uint64_t)(topic), (uint64_t)(ledger), (uint64_t)(entry), \
    (uint64_t)(handle), (uint64_t)(batch)
#define BROKER_CALL_SUBSCRIBE(consumer, kind, topic, subscription) \
    (uint64_t)BROKER_CALL_KIND_SUBSCRIBE, (uint64_t)4, (uint64_t)(consumer), (uint64_t)(kind), (uint64_t)(topic), \
    (uint64_t)(subscription)
#define BROKER_CALL_FLOW(consumer, grant) \
    (uint64_t)BROKER_CALL_KIND_FLOW, (uint64_t)2, (uint64_t)(consumer), (uint64_t)(grant)
#define BROKER_CALL_ACK(consumer, list_words) \
    (uint64_t)BROKER_CALL_KIND_ACK, (uint64_t)1 + (uint64_t)(list_words), (uint64_t)(consumer)
#define BROKER_CALL_SEEK_START(consumer) \
    (uint64_t)BROKER_CALL_KIND_SEEK, (uint64_t)2, (uint64_t)(consumer), (uint64_t)BROKER_START
#define BROKER_CALL_SEEK_ID(consumer, ledger, entry) \
    (uint64_t)BROKER_CALL_KIND_SEEK, (uint64_t)4, (uint64_t)(consumer), (uint64_t)BROKER_ID, (uint64_t)(ledger), \
    (uint64_t)(entry)
#define BROKER_CALL_REDELIVER(consumer, list_words) \
    (uint64_t)BROKER_CALL_KIND_REDELIVER, (uint64_t)1 + (uint64_t)(list_words), (uint64_t)(consumer)
#define BROKER_CALL_CLOSE(consumer) (uint64_t)BROKER_CALL_KIND_CLOSE, (uint64_t)1, (uint64_t)(consumer)
#define BROKER_CALL_PUSH (uint64_t)BROKER_CALL_KIND_PUSH, (uint64_t)0

/* Makes the calls of a script of s words in their order, each on the store as the one before has left it, and
 * puts into the i-th of the a answers what the i-th call answers. A call that is refused has its own answer, has
 * changed nothing, and the row goes on. A push is given what is left of the list of m words behind the records
 * that the row has made so far; after one that is refused by 15 the next has that same rest. Words behind the
 * last answer and behind the last record stay as they were. The four slices do not overlap.
 * Refused by 1, 18 (a record is cut off, has a count over BROKER_CALL_MOST_WORDS, a kind that is none of the
 * eight, too few or too many words for its kind, or a word that is not as above), 64 (more calls than answers;
 * the value is how many calls there are). A refused row has made none of its calls and changed nothing.
 * Value: the calls made, 0 for an empty script. */
uint64_t broker_calls(uint64_t *store, size_t n, const uint64_t *script, size_t s, uint64_t *answers, size_t a,
                      uint64_t *list, size_t m);

/* ---- Commands as bytes ----
 *
 * The bytes are a BaseCommand of Pulsar without the sizes before it; metadata, payload and checksum stay with
 * the caller. Unknown fields and other types' messages are skipped. 16: the bytes are not well formed, a
 * required field is absent, or the message of a type that the reader takes; a field read stands twice or has
 * another wire type or a number too wide for it; a group occurs; a list has more than 64 ids or 16 words of an
 * id; the lent list is under BROKER_COMMAND_LIST words. 17: else, if the type is none that the reader takes.
 * Such a call has changed nothing.
 *
 * What each command puts into the 8 words of `command`; words not named are 0:
 *
 *   type       answer       0         1        2            3            4           5             6
 *   Subscribe   4 * 256     consumer  request  kind         topic start  topic size  subscription  its size
 *   Ack        10 * 256     consumer           list words
 *   Flow       11 * 256     consumer           permits
 *   Close      16 * 256     consumer  request
 *   Redeliver  20 * 256     consumer           list words
 *   Seek       28 * 256     consumer  request  target       ledger       entry
 *
 * Kind is BROKER_SHARED for the sub type Shared and BROKER_PLAIN for every other; target is BROKER_ID with an id,
 * else BROKER_START. Start and size are in bytes of the input; the names are not tested as UTF-8. List words
 * is how many words of the list the ids have taken, from its first on: groups as broker_ack and
 * broker_redeliver take them. What follows in the list stays as it was.
 */
#define BROKER_TYPE_SUBSCRIBE 4
#define BROKER_TYPE_ACK 10
#define BROKER_TYPE_FLOW 11
#define BROKER_TYPE_CLOSE 16
#define BROKER_TYPE_REDELIVER 20
#define BROKER_TYPE_SEEK 28

#define BROKER_COMMAND_WORDS 8
#define BROKER_COMMAND_LIST 1216 /* the words that a list has at least: 64 ids with 16 words each */
#define BROKER_COMMAND_CONSUMER 0
#define BROKER_COMMAND_REQUEST 1
#define BROKER_COMMAND_KIND 2              /* Subscribe */
#define BROKER_COMMAND_TOPIC 3
#define BROKER_COMMAND_TOPIC_SIZE 4
#define BROKER_COMMAND_SUBSCRIPTION 5
#define BROKER_COMMAND_SUBSCRIPTION_SIZE 6
#define BROKER_COMMAND_PERMITS 2           /* Flow */
#define BROKER_COMMAND_LIST_WORDS 2        /* Ack, Redeliver */
#define BROKER_COMMAND_TARGET 2            /* Seek */
#define BROKER_COMMAND_LEDGER 3
#define BROKER_COMMAND_ENTRY 4
#define BROKER_MESSAGE_BYTES 256 /* the bytes that a buffer has at least; the largest Message takes 114 */

/* Reads a Subscribe, Flow, Ack, Seek, RedeliverUnacknowledgedMessages or CloseConsumer of n bytes. Refused by
 * 16, 17. Value: the type. */
uint64_t broker_read_command(const uint8_t *bytes, size_t n, uint64_t *list, size_t m,
                             uint64_t command[BROKER_COMMAND_WORDS]);

/* Reads a Message of n bytes into a record as push writes it; handle, cost and permits, which are not on the
 * wire, are 0. More than 4 ack-set words or a batch size below 0 are 16. Refused by 16, 17. Value 0. */
uint64_t broker_read_message(const uint8_t *bytes, size_t n, uint64_t record[BROKER_RECORD_WORDS]);

/* Writes a record of push as the bytes of a Message, fields in ascending order, numbers as short as they go;
 * handle, cost, permits and words past the count are ignored. Refused by 16: a buffer under
 * BROKER_MESSAGE_BYTES, a count over 4, a batch size over 256, a redelivery count over 32 bits. Value: the
 * bytes written; what follows in the buffer stays as it was. */
uint64_t broker_write_message(const uint64_t record[BROKER_RECORD_WORDS], uint8_t *buffer, size_t n);

#ifdef __cplusplus
}
#endif

#endif
