/*
 * Records of a script: every kind with every count of words about its own, each number at its limit and one past
 * it, the longest lists. rows.c says what is looked at around each row.
 */
#include "faults.h"

#include "broker_trace.h"

#if BROKER_CALL_KIND_APPEND != BROKER_TRACE_APPEND || BROKER_CALL_KIND_SUBSCRIBE != BROKER_TRACE_SUBSCRIBE || \
    BROKER_CALL_KIND_FLOW != BROKER_TRACE_FLOW || BROKER_CALL_KIND_ACK != BROKER_TRACE_ACK || \
    BROKER_CALL_KIND_SEEK != BROKER_TRACE_SEEK || BROKER_CALL_KIND_REDELIVER != BROKER_TRACE_REDELIVER || \
    BROKER_CALL_KIND_CLOSE != BROKER_TRACE_CLOSE || BROKER_CALL_KIND_PUSH != BROKER_TRACE_PUSH || \
    BROKER_CALL_MOST_WORDS != BROKER_TRACE_MOST_WORDS
#error "a script has other kinds than a trace"
#endif

/* A store on which each call of the tests has something to do. */
static void begin_records(void)
{
    check(APPEND == BROKER_CALL_KIND_APPEND && SUBSCRIBE == BROKER_CALL_KIND_SUBSCRIBE &&
              FLOW == BROKER_CALL_KIND_FLOW && ACK == BROKER_CALL_KIND_ACK && SEEK == BROKER_CALL_KIND_SEEK &&
              REDELIVER == BROKER_CALL_KIND_REDELIVER && CLOSE == BROKER_CALL_KIND_CLOSE &&
              PUSH == BROKER_CALL_KIND_PUSH,
          "the kinds of a script are not numbered as the operations are");
    fresh(2);
    done(append(1, 1, 0, 3));
    done(subscribe(7, 1, 1, 1));
    done(subscribe(8, 0, 1, 1));
    expect(flow(7, 5), 0, 5);
    keep();
}

/* ---- kinds and counts ---- */

/* Whether a record of a kind below 10 with a count below 9 is a call; a seek's second word is 0 or 1. */
static int is_call(uint64_t kind, size_t count, uint64_t second)
{
    static const unsigned counts[] = {0, 1u << 5, 1u << 4, 1u << 2, ~1u, 0, ~1u, 1u << 1, 1u << 0, 0};
    if (kind == BROKER_CALL_KIND_SEEK)
        return count == (second == 0 ? 2 : 4);
    return (counts[kind] >> count & 1) != 0;
}

/* Every kind with every count, as the only record and with one behind it. */
static void counts_of_words(void)
{
    static const uint64_t push[] = {BROKER_CALL_PUSH};
    uint64_t words[] = {7, 0, 1, 0, 0, 0, 0, 0}, kind;
    size_t count;
    for (kind = 0; kind < 10; kind++)
        for (count = 0; count <= LENGTH(words); count++)
            for (words[1] = 0; words[1] < 2; words[1]++) {
                script.n = 0;
                put_record(kind, count, words, count);
                row_if(is_call(kind, count, words[1]), 1);
                put_words(push, LENGTH(push));
                row_if(is_call(kind, count, words[1]), 2);
            }
}

/* No kinds, whose low bits are some of a kind. */
static void no_kinds(void)
{
    static const uint64_t kinds[] = {0, 9, 255, 256 + 3, POWER(32) + 7, POWER(63) + 8, TOP};
    static const uint64_t words[] = {7, 0, 1, 0, 0, 0};
    size_t count, i;
    for (i = 0; i < LENGTH(kinds); i++)
        for (count = 0; count <= LENGTH(words); count++) {
            script.n = 0;
            put_record(kinds[i], count, words, count);
            row_again(BROKER_NO_CALL, 0);
        }
}

/* ---- numbers ---- */

/* One record, and whether it is a call. */
static const struct {
    int is_call;
    uint64_t words[7];
} shapes[] = {
    {1, {BROKER_CALL_APPEND(0, 0, 0, 0, 0)}},
    {1, {BROKER_CALL_APPEND(255, TOP, TOP, TOP, 256)}},
    {1, {BROKER_CALL_APPEND(255, 1, 1, 1, 257)}},
    {1, {BROKER_CALL_APPEND(255, 1, 1, 1, TOP)}},
    {0, {BROKER_CALL_APPEND(256, 1, 1, 1, 0)}},
    {0, {BROKER_CALL_APPEND(POWER(32), 1, 1, 1, 0)}},
    {0, {BROKER_CALL_APPEND(POWER(63) + 1, 1, 1, 1, 0)}},
    {0, {BROKER_CALL_APPEND(TOP, 1, 1, 1, 0)}},
    {1, {BROKER_CALL_SUBSCRIBE(TOP, 0, 255, 255)}},
    {1, {BROKER_CALL_SUBSCRIBE(TOP, 1, 255, 255)}},
    {1, {BROKER_CALL_SUBSCRIBE(0, 1, 0, 0)}},
    {0, {BROKER_CALL_SUBSCRIBE(7, 2, 1, 1)}},
    {0, {BROKER_CALL_SUBSCRIBE(7, 256, 1, 1)}},
    {0, {BROKER_CALL_SUBSCRIBE(7, POWER(32), 1, 1)}},
    {0, {BROKER_CALL_SUBSCRIBE(7, TOP, 1, 1)}},
    {0, {BROKER_CALL_SUBSCRIBE(7, 1, 256, 1)}},
    {0, {BROKER_CALL_SUBSCRIBE(7, 1, POWER(32) + 1, 1)}},
    {0, {BROKER_CALL_SUBSCRIBE(7, 1, TOP, 1)}},
    {0, {BROKER_CALL_SUBSCRIBE(7, 0, 1, 256)}},
    {0, {BROKER_CALL_SUBSCRIBE(7, 0, 1, POWER(63))}},
    {0, {BROKER_CALL_SUBSCRIBE(7, 0, 1, TOP)}},
    {1, {BROKER_CALL_FLOW(7, 0)}},
    {1, {BROKER_CALL_FLOW(7, POWER(32) - 1)}},
    {1, {BROKER_CALL_FLOW(TOP, POWER(32) - 1)}},
    {0, {BROKER_CALL_FLOW(7, POWER(32))}},
    {0, {BROKER_CALL_FLOW(9, POWER(63))}},
    {0, {BROKER_CALL_FLOW(7, TOP)}},
    {1, {BROKER_CALL_ACK(TOP, 0)}},
    {1, {BROKER_CALL_ACK(8, 0)}},
    {1, {BROKER_CALL_ACK(7, 3), TOP, TOP, TOP}},
    {1, {BROKER_CALL_REDELIVER(TOP, 0)}},
    {1, {BROKER_CALL_REDELIVER(7, 3), TOP, TOP, TOP}},
    {1, {BROKER_CALL_SEEK_START(8)}},
    {1, {BROKER_CALL_SEEK_START(TOP)}},
    {1, {BROKER_CALL_SEEK_ID(8, 1, 0)}},
    {1, {BROKER_CALL_SEEK_ID(8, TOP, TOP)}},
    {0, {BROKER_CALL_KIND_SEEK, 2, 8, 1}},
    {0, {BROKER_CALL_KIND_SEEK, 2, 8, 2}},
    {0, {BROKER_CALL_KIND_SEEK, 2, 8, POWER(32)}},
    {0, {BROKER_CALL_KIND_SEEK, 2, 8, TOP}},
    {0, {BROKER_CALL_KIND_SEEK, 4, 8, 0, 1, 0}},
    {0, {BROKER_CALL_KIND_SEEK, 4, 8, 2, 1, 0}},
    {0, {BROKER_CALL_KIND_SEEK, 4, 8, POWER(32) + 1, 1, 0}},
    {0, {BROKER_CALL_KIND_SEEK, 4, 8, TOP, 1, 0}},
    {1, {BROKER_CALL_CLOSE(0)}},
    {1, {BROKER_CALL_CLOSE(TOP)}},
    {1, {BROKER_CALL_PUSH}},
};

static void numbers(void)
{
    size_t i;
    for (i = 0; i < LENGTH(shapes); i++) {
        script.n = 0;
        put_words(shapes[i].words, 2 + (size_t)shapes[i].words[1]);
        row_if(shapes[i].is_call, 1);
    }
}

/* ---- long records ---- */

/* A record with a count, and behind it a consumer and the list in hand, so many words of both in all. */
static void put_long(uint64_t kind, uint64_t count, size_t words)
{
    static const uint64_t consumer = 7;
    script.n = 0;
    put_record(kind, count, &consumer, 1);
    put_words(list.words, words - 1);
}

/* 1,217 words, which a list of 64 groups has, and some more or fewer; counts with 1,217 in their low bits, once
 * with all the words behind them; counts past all words. */
static void longest(void)
{
    const size_t most = BROKER_CALL_MOST_WORDS;
    static const uint64_t counts[] = {65536 + 1217, POWER(32) + 1217, POWER(61), POWER(63), TOP - 2, TOP - 1, TOP};
    uint64_t kind;
    size_t i, words;
    for (kind = 0; kind < 10; kind++) {
        int is_long = kind == BROKER_CALL_KIND_ACK || kind == BROKER_CALL_KIND_REDELIVER;
        for (words = most - 3; words <= most + 3; words++) {
            groups(65, 1, 0, 16);
            put_long(kind, words, words);
            row_if(is_long && words <= most, 1);
            groups(65, 1, 0, 16);
            put_long(kind, words, words + 1);
            row_again(BROKER_NO_CALL, 0);
            put_long(kind, words, words - 1);
            row_again(BROKER_NO_CALL, 0);
        }
        groups(65, 1, 0, 16);
        for (i = 0; i < LENGTH(counts); i++) {
            put_long(kind, counts[i], most);
            row_again(BROKER_NO_CALL, 0);
        }
        put_long(kind, 65536 + most, 65536 + most);
        row_again(BROKER_NO_CALL, 0);
    }
}

void row_records(void)
{
    rows_done = row_calls = rows_1 = rows_18 = rows_64 = 0;
    begin_records();
    counts_of_words();
    no_kinds();
    numbers();
    longest();
}
