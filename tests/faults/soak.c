/*
 * Random calls on stores of five sizes, damaged ones among them.
 */
#include "faults.h"

/* ---- random calls ---- */

uint64_t seed = 1;

/* SplitMix64, so that a seed gives the same run everywhere. */
static uint64_t word(void)
{
    uint64_t z = seed += UINT64_C(0x9e3779b97f4a7c15);
    z = (z ^ (z >> 30)) * UINT64_C(0xbf58476d1ce4e5b9);
    z = (z ^ (z >> 27)) * UINT64_C(0x94d049bb133111eb);
    return z ^ (z >> 31);
}

static uint64_t below(uint64_t n)
{
    return word() % n;
}

#define PICK(table) ((table)[below(sizeof(table) / sizeof *(table))])

/* Mostly one that is live; the count may be of damaged words. */
static uint64_t any_consumer(void)
{
    uint64_t live = store->words[CONSUMERS];
    if (live > 0 && live <= 32 && below(6) != 0)
        return store->words[CONSUMER(below(live))];
    return below(4) == 0 ? below(40) : below(6);
}

static uint64_t any_topic(void)
{
    return below(20) == 0 ? below(256) : below(3);
}

static uint64_t any_entry(void)
{
    return below(store->words[1] > 64 ? 32 : store->words[1] + 2);
}

static void any_list(void)
{
    static const uint64_t counts[] = {0, 1, 1, 1, 1, 2, 2, 3, 5, 8, 20, 64};
    static const uint64_t words[] = {0, 0, 0, 1, 1, 1, 2, 4, 16};
    uint64_t count = PICK(counts), k, n;
    fill(&list, 0);
    if (below(200) == 0)
        count = 65;
    for (k = 0; k < count; k++) {
        n = below(300) == 0 ? 17 : PICK(words);
        group(below(40) == 0 ? below(3) : 1, any_entry(), n, (size_t)n, word() & word());
    }
    switch (below(30)) {
    case 0:
        list.n -= list.n > 0;
        break;
    case 1:
        list.words[list.n++] = word();
        break;
    case 2:
        if (list.n > 2)
            list.words[below(list.n)] = word();
        break;
    default:
        break;
    }
}

static struct call any_call(void)
{
    static const uint64_t batches[] = {0, 1, 1, 2, 3, 3, 64, 65, 255, 256};
    static const uint64_t grants[] = {0, 1, 1, 2, 3, 5, 10, 100, 256, 1000, POWER(32) - 1};
    uint64_t draw = below(100), c = any_consumer();
    if (draw < 16)
        return call(APPEND, any_topic(), below(30) == 0 ? word() : 1, any_entry(), word(),
                    below(60) == 0 ? 257 : PICK(batches));
    if (draw < 26)
        return subscribe(below(4) == 0 ? c : below(40), below(4), any_topic(), below(10) == 0 ? below(256) : below(2));
    if (draw < 42)
        return flow(c, PICK(grants));
    if (draw < 60) {
        any_list();
        return of(ACK, c);
    }
    if (draw < 64)
        return seek(c, below(3), below(3), any_entry());
    if (draw < 78) {
        any_list();
        return of(REDELIVER, c);
    }
    if (draw < 82)
        return of(CLOSE, c);
    fill(&list, below(8) == 0 ? (size_t)below(60) : (size_t)(13 * 150 + below(400)));
    return of(PUSH, 0);
}

/* Changes one to three words; where there is something more often than where there is nothing. */
static void damage_any(void)
{
    static const uint64_t edges[] = {EXCESS - 256,       EXCESS - 255,           EXCESS + POWER(40),
                                     EXCESS + POWER(60), EXCESS - POWER(60),     EXCESS + POWER(40) + 1,
                                     POWER(32) - 1,      EXCESS + POWER(60) + 1, POWER(32)};
    uint64_t times = 1 + below(3), *w = store->words;
    while (times-- > 0) {
        size_t i = (size_t)below(store->n), tries;
        for (tries = 0; tries < 60 && w[i] == 0; tries++)
            i = (size_t)below(store->n);
        switch (below(7)) {
        case 0:
            w[i] += 1;
            break;
        case 1:
            w[i] -= 1;
            break;
        case 2:
            w[i] = below(9);
            break;
        case 3:
            w[i] ^= POWER(below(64));
            break;
        case 4:
            w[i] = 0;
            break;
        case 5:
            w[i] = PICK(edges);
            break;
        default:
            w[i] = word();
            break;
        }
    }
}

/* Stores of five sizes, opened anew now and then. Once a store has been told to spell a state, no call
 * but on damaged words may answer 1; words that are refused by 1 are put back. */
void soak(unsigned long wanted)
{
    static const uint64_t sizes[] = {1, 2, 5, 12, 32};
    size_t k;
    for (k = 0; k < 5; k++) {
        store = &stores[k];
        opened(sizes[k], 0, 0);
    }
    damaged = unspelt = 0;
    while (part_calls < wanted) {
        struct call c;
        k = (size_t)below(5);
        store = &stores[k];
        if (below(1500) == 0)
            opened(sizes[k], below(3) == 0, below(4) == 0);
        if (below(8) != 0) {
            c = any_call();
            check(run(c) != 1, "1, and no word was changed since the last call");
            continue;
        }
        keep();
        damage_any();
        damaged++;
        c = any_call();
        if (run(c) != 1) {
            check(run(of(CLOSE, NOBODY)) == 0, "a call left words that spell no state");
            continue;
        }
        unspelt++;
        refused(any_call(), 1);
        restore();
    }
    store = &stores[0];
}
