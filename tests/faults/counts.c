/*
 * The redelivery count up to its stop, on a store put together word by word as docs/STORE.md has it.
 */
#include "faults.h"

#include <string.h>

#define E 32
/* Words of entry 0 under dispatcher 0, and of a record. */
#define COUNT (MARK(E, 0, 0) + 1)
#define RECORD_COUNT 10
#define MOST_COUNT (POWER(32) - 1)

/* "A small store, word by word" of docs/STORE.md, its header apart, which opening writes. */
static const uint64_t small[][2] = {
    {16, 1},
    {17, 7},
    {18, 1},
    {19, 1},
    {20, 1},
    {21, EXCESS + 7},
    {2321, 1},
    {2322, 1},
    {2325, 1},
    {2326, 1},
    {2328, 500},
    {2329, 3},
    {3378, 1},
    {3379, 1},
    {3380, 1},
    {3382, 1},
    {3384, EXCESS + 7},
    {3390, 1},
    {3391, 7},
    {3585, 1},
    {3586, 7},
    {3650, 1},
};

/* That store, by its words. */
static void small_store(void)
{
    size_t i;
    opened(E, 0, 0);
    for (i = 0; i < sizeof small / sizeof *small; i++)
        store->words[small[i][0]] = small[i][1];
}

/* The calls of which docs/STORE.md tells leave the same words. */
static void same_by_calls(void)
{
    small_store();
    keep();
    opened(E, 0, 0);
    done(append(1, 1, 0, 3));
    done(subscribe(7, 1, 1, 1));
    expect(flow(7, 10), 0, 10);
    fill(&list, BROKER_RECORD_WORDS);
    expect(of(PUSH, 0), 0, 1);
    check(memcmp(store->words, kept, BROKER_NEEDED(E) * sizeof *kept) == 0, "the small store is not STORE.md's");
}

/* The next push hands entry 0 to a consumer with this count. */
static void sent_with(uint64_t consumer, uint64_t count)
{
    fill(&list, BROKER_RECORD_WORDS);
    expect(of(PUSH, 0), 0, 1);
    check(list.words[0] == consumer && list.words[RECORD_COUNT] == count, "a record's count is not the entry's");
}

/* Handed back, an entry with a count has another. */
static void counted(uint64_t before, uint64_t after)
{
    small_store();
    store->words[COUNT] = before;
    list.n = 0;
    group(1, 0, 0, 0, 0);
    done(of(REDELIVER, 7));
    check(store->words[COUNT] == after, "a count did not rise by 1 to its stop");
    sent_with(7, after);
}

/* A close leaves the count as it was, and a plain consumer's redeliver too. */
static void unchanged(uint64_t count)
{
    small_store();
    store->words[COUNT] = count;
    done(subscribe(8, 0, 1, 1));
    list.n = 0;
    group(1, 0, 0, 0, 0);
    done(of(REDELIVER, 8));
    check(store->words[COUNT] == count, "a plain redeliver changed a count");
    done(subscribe(9, 1, 1, 1));
    expect(flow(9, 3), 0, 3);
    expect(of(CLOSE, 7), 0, 1);
    check(store->words[COUNT] == count, "a close changed a count");
    sent_with(9, count);
}

void count_limits(void)
{
    same_by_calls();
    counted(0, 1);
    counted(MOST_COUNT - 2, MOST_COUNT - 1);
    counted(MOST_COUNT - 1, MOST_COUNT);
    counted(MOST_COUNT, MOST_COUNT);
    unchanged(0);
    unchanged(MOST_COUNT - 1);
    unchanged(MOST_COUNT);
    small_store();
    store->words[COUNT] = MOST_COUNT + 1;
    list.n = 0;
    group(1, 0, 0, 0, 0);
    refused(of(REDELIVER, 7), 1);
}
