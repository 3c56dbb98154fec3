/*
 * Lists of every length: those of ack and redeliver, and those that push fills.
 */
#include "faults.h"

#include <string.h>

/* ---- lists of every length ---- */

unsigned long formed_lists, cut_lists;

/* The list in hand to ack and redeliver of a shared, a plain and no consumer. */
static void try_list(int is_formed)
{
    static const enum operation both[] = {ACK, REDELIVER};
    size_t i;
    check(formed(list.words, list.n) == is_formed, "this test's own list is not what it was meant to be");
    *(is_formed ? &formed_lists : &cut_lists) += 1;
    for (i = 0; i < 2; i++) {
        restore();
        expect(of(both[i], 7), is_formed ? 0 : 10, 0);
        restore();
        expect(of(both[i], 8), is_formed ? 0 : 10, 0);
        refused(of(both[i], 9), 4);
    }
    store->words[0] ^= 1;
    refused(of(ACK, 7), 1);
    refused(of(REDELIVER, 7), 1);
}

/* A list of just m words with so many groups, which have m - 3 * count words between them. */
static void spread(size_t m, size_t count)
{
    size_t left = m - 3 * count, k, words;
    list.n = 0;
    for (k = 0; k < count; k++) {
        words = left < 16 ? left : 16;
        left -= words;
        group(3, k, words, words, TOP);
    }
}

void list_lengths(void)
{
    size_t m, k;
    opened(2, 0, 0);
    done(append(1, 1, 0, 3));
    done(subscribe(7, 1, 1, 1));
    done(subscribe(8, 0, 1, 1));
    keep();
    for (m = 0; m <= 1300; m++) {
        size_t fewest = (m + 18) / 19, most = m / 3 < 64 ? m / 3 : 64;
        fill(&list, 0);
        if (m == 0 || (m >= 3 && m <= 64 * 19)) {
            spread(m, fewest);
            try_list(1);
            spread(m, most > 0 && m - 3 * most > 16 * most ? fewest : most);
            try_list(1);
            /* The last group says one word more, or as many as there are numbers. */
            if (m > 0) {
                static const uint64_t more[] = {17, 0x100000000, POWER(61), POWER(63), TOP - 2, TOP - 1, TOP};
                uint64_t *n = list.words + 2;
                spread(m, fewest);
                for (k = 1; k < fewest; k++)
                    n += 3 + *n;
                *n += 1;
                try_list(0);
                for (k = 0; k < sizeof more / sizeof *more; k++) {
                    *n = more[k];
                    try_list(0);
                }
            }
        }
        /* Cut from 69 groups of 16 words, and from 434 groups of none. */
        list.n = 0;
        for (k = 0; k < 69; k++)
            group(3, k % 64, 16, 16, TOP);
        list.n = m;
        try_list(m % 19 == 0 && m <= 64 * 19);
        list.n = 0;
        for (k = 0; k < 434; k++)
            group(3, k % 64, 0, 0, 0);
        list.n = m;
        try_list(m % 3 == 0 && m <= 64 * 3);
        /* All words zero, and all ones. */
        memset(list.words, 0, m * sizeof(uint64_t));
        try_list(m % 3 == 0 && m <= 64 * 3);
        memset(list.words, 255, m * sizeof(uint64_t));
        try_list(m == 0);
    }
}

/* ---- push lists of every length ---- */

/* A push due to give `due` records, with lists of m words: 15 and nothing changed, or the records. */
static void push_into(size_t m, int64_t due)
{
    restore();
    fill(&list, m);
    if ((int64_t)(m / BROKER_RECORD_WORDS) < due)
        expect(of(PUSH, 0), 15, due);
    else
        expect(of(PUSH, 0), 0, due);
}

void push_lists(void)
{
    uint64_t i, *topic, *d;
    size_t m;
    /* Nothing due: done with any list, and next goes on. */
    opened(2, 0, 0);
    for (m = 0; m < 40; m++) {
        fill(&list, m);
        expect(of(PUSH, 0), 0, 0);
    }
    done(subscribe(7, 1, 1, 1));
    done(subscribe(8, 1, 1, 1));
    expect(flow(7, 1), 0, 1);
    expect(flow(8, 2), 0, 2);
    list.n = 0;
    expect(of(PUSH, 0), 0, 0);
    check(store->words[DISPATCHER(2, 0) + 2] == 1, "an idle push moves next");
    /* Five due: an entry each to 8 and 7, a nacked one and two more to 9. */
    done(append(1, 1, 0, 2));
    done(append(1, 1, 1, 0));
    done(subscribe(9, 0, 1, 1));
    expect(flow(9, 10), 0, 10);
    list.n = 0;
    group(1, 1, 0, 0, 0);
    done(of(REDELIVER, 9));
    keep();
    for (m = 0; m <= 13 * 5 + 30; m++)
        push_into(m, 5);
    /* Full: 4,096 to a shared consumer and as many to each of two plain ones. */
    opened(4096, 0, 0);
    done(append(1, 1, 0, 0));
    done(subscribe(7, 1, 1, 1));
    done(subscribe(8, 0, 1, 1));
    done(subscribe(9, 0, 1, 1));
    for (i = 7; i < 10; i++)
        expect(flow(i, 5000), 0, 5000);
    topic = store->words + TOPIC(4096, 0);
    d = store->words + DISPATCHER(4096, 0);
    topic[3] = 4096;
    d[175 + 3 * 4096] = 4096;
    for (i = 1; i < 4096; i++) {
        topic[4 + 4 * i] = 1;
        topic[5 + 4 * i] = i;
    }
    keep();
    push_into(0, 3 * 4096);
    push_into(12, 3 * 4096);
    push_into(13, 3 * 4096);
    push_into(13 * 3 * 4096 - 13, 3 * 4096);
    push_into(13 * 3 * 4096 - 1, 3 * 4096);
    push_into(13 * 3 * 4096, 3 * 4096);
    push_into(13 * 3 * 4096 + 27, 3 * 4096);
    fill(&list, 0);
    expect(of(PUSH, 0), 0, 0);
    expect(of(CLOSE, 7), 0, 1);
    expect(of(CLOSE, 8), 0, 1);
    check(store->words[DISPATCHER(4096, 0) + 173] == 4096, "what was held waits to be sent again");
}
