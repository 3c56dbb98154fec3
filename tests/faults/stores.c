/*
 * A store with something of everything in it, and the stores made of it that spell no state: too short, or
 * with a word changed.
 */
#include "faults.h"

#include <string.h>

/* ---- good stores ---- */

/* Entries of many batch sizes in three topics, three shared subscriptions with entries held, queued,
 * complete and half acknowledged, outside ids, a plain consumer with nacked entries. E from 4 on. */
static void good(uint64_t e)
{
    static const uint64_t batches[] = {256, 3, 65, 0, 1, 64, 2, 128};
    uint64_t i;
    opened(e, 0, 0);
    for (i = 0; i < e; i++)
        done(append(1, 1 + i / 3, i, batches[i % 8]));
    for (i = 0; i + 1 < e; i++)
        done(append(200, 9, 2 * i, batches[(i + 1) % 8]));
    done(append(30, 0, 0, 2));
    done(subscribe(20, 1, 1, 1));
    done(subscribe(10, 1, 1, 1));
    done(subscribe(30, 1, 1, 1));
    done(subscribe(40, 1, 200, 5));
    done(subscribe(50, 1, 200, 6));
    done(subscribe(60, 0, 1, 1));
    done(subscribe(TOP, 0, 200, 0));
    expect(flow(20, 200), 0, 200);
    expect(flow(10, 70), 0, 70);
    expect(flow(30, 1), 0, 1);
    expect(flow(40, 4000), 0, 4000);
    expect(flow(50, 3), 0, 3);
    expect(flow(60, 2), 0, 2);
    fill(&list, list.room);
    does(of(PUSH, 0));
    list.n = 0;
    group(1, 0, 4, 4, POWER(33) | 7);
    group(1, 2, 1, 1, POWER(63) | 1);
    group(7, 7, 0, 0, 0);
    group(8, 8, 1, 1, 1);
    does(of(ACK, 20));
    list.n = 0;
    group(9, 0, 0, 0, 0);
    does(of(ACK, 40));
    list.n = 0;
    for (i = 0; i < e; i++)
        group(1 + i / 3, i, 0, 0, 0);
    done(of(REDELIVER, 20));
    list.n = 0;
    group(1, 1, 0, 0, 0);
    group(1, 0, 0, 0, 0);
    group(1, 1, 0, 0, 0);
    done(of(REDELIVER, 60));
    expect(of(CLOSE, 40), 0, 1);
    done(subscribe(40, 1, 200, 5));
    expect(seek(TOP, 1, 9, 1), 0, 1);
    does(flow(10, 5));
    expect(flow(TOP, 1), 0, 1);
}

/* A good store kept aside, and the store made that again. */
uint64_t *kept;
static size_t kept_n;

void keep(void)
{
    kept_n = store->n;
    memcpy(kept, store->words, kept_n * sizeof *kept);
}

void restore(void)
{
    memcpy(store->words, kept, kept_n * sizeof *kept);
    store->n = kept_n;
}

/* One call of each operation but open, each with something to do in a good store. */
static struct call one_of(enum operation operation)
{
    if (operation == PUSH) {
        fill(&list, 13 * 40 + 3);
    } else {
        list.n = 0;
        group(1, 2, 1, 1, 1);
        group(1, 0, 0, 0, 0);
        group(5, 5, 0, 0, 0);
    }
    switch (operation) {
    case APPEND:
        return append(30, 0, 1, 65);
    case SUBSCRIBE:
        return subscribe(45, 1, 200, 6);
    case FLOW:
        return flow(30, 77);
    case SEEK:
        return seek(60, 1, 1, 1);
    case PUSH:
        return of(PUSH, 0);
    case OPEN:
    case ACK:
    case REDELIVER:
    case CLOSE:
    default:
        return of(operation, 10);
    }
}

/* ---- stores that spell nothing ---- */

/* A good store lent with every length below the needed one, and none at all. */
void short_stores(void)
{
    size_t n;
    int op;
    good(4);
    keep();
    for (n = 0; n < BROKER_NEEDED(4); n++) {
        store->n = n;
        for (op = APPEND; op <= PUSH; op++)
            if (n % 64 < 2 || n % 64 == 63 || op == CLOSE)
                refused(one_of((enum operation)op), 1);
    }
    for (op = APPEND; op <= PUSH; op++) {
        restore();
        store->n = BROKER_NEEDED(4);
        does(one_of((enum operation)op));
    }
    /* Words that were never opened. */
    for (n = 0; n < BROKER_NEEDED(4); n += 61)
        for (op = APPEND; op <= PUSH; op++) {
            fill(store, n);
            refused(one_of((enum operation)op), 1);
            memset(store->words, 0, n * sizeof(uint64_t));
            refused(one_of((enum operation)op), 1);
        }
}

/* Whether a place of a list with its count at `at` is past its last element. */
static int past(const uint64_t *w, size_t at, size_t width, size_t place)
{
    return place >= at + 1 + width * (size_t)w[at];
}

/* Whether docs/STORE.md gives word i of the good store in w no meaning, so that it has to be 0. */
static int reserved(const uint64_t *w, size_t i)
{
    size_t e = (size_t)w[1], r;
    if (i < CONSUMERS)
        return i >= 4;
    if (i < TOPICS) {
        if (i == CONSUMERS)
            return 0;
        r = (i - CONSUMER(0)) % 72;
        return past(w, CONSUMERS, 72, i) || r == 71 || (r > 6 && past(w, i - r + 6, 1, i));
    }
    if (i < DISPATCHERS(e)) {
        if (i == TOPICS)
            return 0;
        r = (i - TOPIC(e, 0)) % (4 + 4 * e);
        return past(w, TOPICS, 4 + 4 * e, i) || r == 1 || r == 2 || (r > 3 && past(w, i - r + 3, 4, i));
    }
    if (i < DISPATCHER(e, 8)) {
        if (i == DISPATCHERS(e))
            return 0;
        r = (i - DISPATCHER(e, 0)) % (176 + 9 * e);
        if (past(w, DISPATCHERS(e), 176 + 9 * e, i) || (r >= 6 && r <= 10))
            return 1;
        if (r > 175 + 3 * e)
            return past(w, i - r + 175 + 3 * e, 6, i);
        if (r > 174 + e && r < 175 + 3 * e)
            return past(w, i - r + 174 + e, 2, i);
        if (r > 173 && r < 174 + e)
            return past(w, i - r + 173, 1, i);
        if (r > 44 && r < 173)
            return past(w, i - r + 44, 2, i);
        return r > 11 && r < 44 && past(w, i - r + 11, 1, i);
    }
    return 1;
}

unsigned long damaged, unspelt;

/* Every operation on the good store with word i changed: all refuse it by 1, or none does. */
static void damage(size_t i, uint64_t word)
{
    int op, first = -1;
    if (kept[i] == word)
        return;
    damaged++;
    for (op = APPEND; op <= PUSH; op++) {
        struct call c;
        int is_1;
        restore();
        store->words[i] = word;
        c = one_of((enum operation)op);
        is_1 = run(c) == 1;
        check(first < 0 || first == is_1, "1 from one operation and not from another, of the same words");
        check(is_1 || i >= BROKER_NEEDED(kept[1]) || !reserved(kept, i), "a word without a meaning is not 0");
        check(!is_1 || i < BROKER_NEEDED(kept[1]), "1 for a word past the needed ones");
        first = is_1;
        /* What one call leaves is a state for the next. */
        if (!is_1)
            check(run(of(CLOSE, NOBODY)) == 0, "a call left words that spell no state");
    }
    unspelt += first == 1;
}

void damaged_words(uint64_t e)
{
    size_t i;
    good(e);
    keep();
    for (i = 0; i < kept_n; i++) {
        uint64_t w = kept[i];
        damage(i, w + 1);
        damage(i, w - 1);
        damage(i, w ^ POWER(63));
        damage(i, w == 0 ? POWER(8) : 0);
        damage(i, ~w);
    }
}

/* Outside ids in another order than theirs, or one of them twice, spell nothing; an ack of ids in any order
 * leaves them ascending. */
void outside_order(void)
{
    static const uint64_t ascending[] = {4, 3, 2, 3, 7, 9, 0, 9, 1};
    uint64_t *ids;
    int op;
    good(4);
    ids = store->words + DISPATCHER(4, 0) + 44;
    check(ids[0] == 2 && ids[1] == 7 && ids[2] == 7 && ids[3] == 8 && ids[4] == 8, "outside ids 7 7 and 8 8");
    keep();
    for (op = APPEND; op <= PUSH; op++) {
        restore();
        ids[1] = ids[2] = 8;
        ids[3] = ids[4] = 7;
        refused(one_of((enum operation)op), 1);
        ids[1] = ids[2] = 7;
        refused(one_of((enum operation)op), 1);
        ids[3] = 7;
        ids[4] = 6;
        refused(one_of((enum operation)op), 1);
        ids[4] = 8;
        does(one_of((enum operation)op));
    }
    opened(4, 0, 0);
    done(subscribe(7, 1, 1, 1));
    list.n = 0;
    group(9, 1, 0, 0, 0);
    group(3, 7, 0, 0, 0);
    group(3, 2, 1, 1, 5);
    group(9, 0, 0, 0, 0);
    group(3, 7, 0, 0, 0);
    done(of(ACK, 7));
    check(memcmp(ids, ascending, sizeof ascending) == 0, "outside ids do not ascend");
    done(append(1, 3, 7, 1));
    check(ids[0] == 3 && ids[1] == 3 && ids[2] == 2 && ids[3] == 9 && ids[4] == 0 && ids[5] == 9 && ids[6] == 1,
          "outside ids after an append");
}
