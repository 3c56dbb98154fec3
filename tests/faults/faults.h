/*
 * What the parts of the faults program share.
 */
#ifndef FAULTS_H
#define FAULTS_H

#include "broker.h"

#include <stddef.h>
#include <stdint.h>

/* Words kept on both sides of what is lent. */
#define GUARD ((size_t)16)
#define FILL UINT64_C(0xa5a55a5a0f0ff0f0)
/* An id that no consumer has. */
#define NOBODY UINT64_C(0x7e5707e5707e5707)
#define TOP UINT64_MAX
#define POWER(n) (UINT64_C(1) << (n))
#define LENGTH(table) (sizeof(table) / sizeof *(table))
/* Permits are stored as the number plus this. */
#define EXCESS POWER(62)

/* Places in a store, from docs/STORE.md. */
#define CONSUMERS ((size_t)16)
#define CONSUMER(i) ((size_t)17 + 72 * (size_t)(i))
#define TOPICS ((size_t)2321)
#define TOPIC(e, t) ((size_t)2322 + (4 + 4 * (size_t)(e)) * (size_t)(t))
#define DISPATCHERS(e) ((size_t)2354 + 32 * (size_t)(e))
#define DISPATCHER(e, d) ((size_t)2355 + 32 * (size_t)(e) + (176 + 9 * (size_t)(e)) * (size_t)(d))
/* The six words of entry k under a dispatcher: complete, redelivery count, four of bits. */
#define MARK(e, d, k) (DISPATCHER(e, d) + 176 + 3 * (size_t)(e) + 6 * (size_t)(k))
#define PERMITS 4
#define CURSOR 5
#define TOTAL 5

/* Words that can be lent, the first n of them; `was` is what they were before a call. */
struct slice {
    uint64_t *base, *was, *words;
    size_t room, n;
};

enum operation { OPEN, APPEND, SUBSCRIBE, FLOW, ACK, SEEK, REDELIVER, CLOSE, PUSH };
#define OPERATIONS 9

/* An operation with its numbers, in the order of the export. */
struct call {
    enum operation operation;
    uint64_t a[5];
};

/* ---- lent.c: what is lent, and calls ---- */

extern struct slice stores[5];
extern struct slice *store;
extern struct slice list;
extern const char *const names[OPERATIONS];
extern uint64_t answer;
extern unsigned long calls, part_calls, made_of[OPERATIONS], given[16];
/* Whether a slice of no words is lent as NULL. */
extern int null_if_empty;

struct slice make(size_t room);
/* Lends n words, none of them written. */
void fill(struct slice *s, size_t n);
struct call call(enum operation operation, uint64_t a, uint64_t b, uint64_t c, uint64_t d, uint64_t e);
struct call open_(uint64_t entries, uint64_t leak, uint64_t noop);
struct call append(uint64_t topic, uint64_t ledger, uint64_t entry, uint64_t batch);
struct call subscribe(uint64_t consumer, uint64_t kind, uint64_t topic, uint64_t subscription);
struct call flow(uint64_t consumer, uint64_t grant);
struct call seek(uint64_t consumer, uint64_t target, uint64_t ledger, uint64_t entry);
/* Ack, redeliver and close of a consumer; push, which has none. */
struct call of(enum operation operation, uint64_t consumer);
/* Makes a call and looks at all that was lent. */
unsigned run(struct call c);
void expect(struct call c, unsigned number, int64_t value);
void done(struct call c);
void refused(struct call c, unsigned number);
/* Done, with any value. */
void does(struct call c);
void check(int holds, const char *what);
/* A store opened for E entries per topic, with some words more. */
void opened(uint64_t entries, uint64_t leak, uint64_t noop);
/* One group more: an id, n, and as many words as stand behind it. */
void group(uint64_t ledger, uint64_t entry, uint64_t n, size_t words, uint64_t word);
/* The groups (ledger, first), (ledger, first + 1), ..., each with so many words. */
void groups(uint64_t count, uint64_t ledger, uint64_t first, size_t words);
/* Document 01: at most 64 groups of ledger, entry, n (at most 16) and n words, ending exactly. */
int formed(const uint64_t *words, size_t m);
void begin(const char *name);
void ended(const char *what);

/* ---- limits.c ---- */

void open_limits(void);
void append_limits(void);
void subscribe_limits(void);
void flow_limits(void);
void close_limits(void);
void ack_limits(void);
/* Past the end: the ledger's length, and what is sent from there. */
void seek_limits(void);
/* Records word by word: fresh, handed back with an ack set, and to a plain consumer. */
void records(void);

/* ---- counts.c ---- */

/* Redelivery counts up to 2^32 - 1. */
void count_limits(void);

/* ---- batches.c ---- */

/* Every batch size: the bits of a first ack in part, and which bits a mark may have. */
void batch_sizes(void);

/* ---- stores.c ---- */

extern uint64_t *kept;
extern unsigned long damaged, unspelt;

void keep(void);
void restore(void);
/* A good store lent with every length below the needed one, and none at all. */
void short_stores(void);
void damaged_words(uint64_t e);
void outside_order(void);

/* ---- lists.c ---- */

extern unsigned long formed_lists, cut_lists;

void list_lengths(void);
void push_lists(void);

/* ---- rows.c: rows of calls ---- */

extern unsigned long rows_done, row_calls, rows_1, rows_18, rows_64;
/* What a row is lent beside the store; `sent` is its list. */
extern struct slice script, answers, sent;
/* An answer in one word. */
#define ANSWER(number, value) ((uint64_t)(value) * 256 + (number))
#define MOST_SCRIPT ((size_t)70000)
#define MOST_ANSWERS ((size_t)600)
#define MOST_SENT ((size_t)16 * BROKER_RECORD_WORDS)

/* A store opened for E entries per topic, no script yet, answers and list for any row of these tests. */
void fresh(uint64_t entries);
/* More words of the script; a record of a kind and a count with n words behind them. */
void put_words(const uint64_t *words, size_t n);
void put_record(uint64_t kind, uint64_t count, const uint64_t *words, size_t n);
/* Makes the row in hand, which has to have this answer, and looks at all that was lent. */
void row(unsigned number, size_t value);
void check_row(int holds, const char *what);
/* The same on the store that was kept. */
void row_again(unsigned number, size_t value);
/* The same, done with so many calls or else refused by 18. */
void row_if(int is_row, size_t made);

/* ---- row_records.c ---- */

/* Records of every kind and count, each number at its limit and one past it. */
void row_records(void);

/* ---- row_scripts.c ---- */

/* Scripts cut at every word, answers and lists of every length, refusals. */
void row_scripts(void);
void row_short_stores(void);
void row_damaged_words(void);
void null_rows(void);

/* ---- nulls.c ---- */

/* NULL with length 0 for every slice of every export that takes a store; wire.c has the others. */
void null_slices(void);

/* ---- wire.c ---- */

extern unsigned long bytes_read, bytes_16, bytes_17;

/* Commands as bytes: the limits of the three calls, and every cut and changed byte of good commands. */
void wire_limits(void);
void wire_damage(void);

/* ---- soak.c ---- */

extern uint64_t seed;

/* Stores of five sizes, opened anew now and then. Once a store has been told to spell a state, no call
 * but on damaged words may answer 1; words that are refused by 1 are put back. */
void soak(unsigned long wanted);

#endif
