/*
 * NULL with length 0, for the store, for every list and for each slice of a row: an empty slice, and nothing is
 * read through it.
 */
#include "faults.h"

static const enum operation with_list[] = {ACK, REDELIVER, PUSH};

/* No store: opening finds it too short, every other call that it spells no state, whatever its list. */
static void null_stores(void)
{
    size_t m, i;
    fill(store, 0);
    for (m = 0; m <= 3 * BROKER_RECORD_WORDS; m += 3) {
        fill(&list, m);
        for (i = 0; i < 3; i++)
            refused(of(with_list[i], 7), 1);
    }
    refused(open_(0, 0, 0), 2);
    refused(open_(1, 0, 0), 3);
    refused(open_(4096, 1, 1), 3);
    refused(open_(4097, 0, 0), 2);
    refused(open_(TOP, 0, 0), 2);
    refused(append(1, 1, 0, 3), 1);
    refused(append(1, 1, 0, 257), 1);
    refused(subscribe(7, 0, 1, 1), 1);
    refused(subscribe(7, 1, 1, 1), 1);
    refused(flow(7, 1), 1);
    refused(seek(7, 0, 0, 0), 1);
    refused(seek(7, 1, 1, 0), 1);
    refused(of(CLOSE, 7), 1);
}

/* No list: an empty one, of a shared, a plain and no consumer, and of words that spell no state. */
static void null_lists(void)
{
    size_t i;
    opened(2, 0, 0);
    done(subscribe(7, 1, 1, 1));
    done(subscribe(8, 0, 1, 1));
    fill(&list, 0);
    for (i = 0; i < 2; i++) {
        expect(of(with_list[i], 7), 0, 0);
        expect(of(with_list[i], 8), 0, 0);
        refused(of(with_list[i], 9), 4);
    }
    /* Nothing is due, then three: to 7 and, twice, to 8. */
    expect(of(PUSH, 0), 0, 0);
    group(3, 4, 0, 0, 0);
    expect(of(ACK, 7), 0, 0);
    done(append(1, 3, 4, 0));
    done(append(1, 3, 5, 0));
    expect(flow(7, 1), 0, 1);
    expect(flow(8, 2), 0, 2);
    fill(&list, 0);
    expect(of(PUSH, 0), 15, 3);
    /* An empty ack advances: (3,4) was complete before it was appended. */
    expect(of(ACK, 7), 0, 3);
    expect(of(ACK, 7), 0, 2);
    store->words[0] ^= 1;
    for (i = 0; i < 3; i++)
        refused(of(with_list[i], 7), 1);
}

void null_slices(void)
{
    null_if_empty = 1;
    null_stores();
    null_lists();
    null_rows();
    null_if_empty = 0;
}
