/*
 * Every batch size from 0 to 256, bit by bit: what a first ack in part leaves, and which bits a mark may have.
 */
#include "faults.h"

#define E 32
#define COMPLETE MARK(E, 0, 0)
#define BITS (MARK(E, 0, 0) + 2)
#define WIDEST 256

/* Whether bit i of entry 0 is set. */
static int is_set(size_t i)
{
    return (int)(store->words[BITS + i / 64] >> (i % 64) & 1);
}

/* One entry of a batch size, and a consumer who may acknowledge it. */
static void one_entry(uint64_t batch)
{
    opened(E, 0, 0);
    done(append(1, 1, 0, batch));
    done(subscribe(7, 1, 1, 1));
}

/* An ack with every bit set acknowledges nothing: the fresh bits are left, one for each message. */
static void fresh_bits(uint64_t batch)
{
    size_t i;
    one_entry(batch);
    list.n = 0;
    group(1, 0, 4, 4, TOP);
    done(of(ACK, 7));
    check(store->words[COMPLETE] == 0, "an ack of no message made its entry complete");
    for (i = 0; i < WIDEST; i++)
        check(is_set(i) == (i < batch), "fresh bits are not the first ones, as many as the batch has");
}

/* An entry of no batch is complete, whatever the words. */
static void no_batch(uint64_t batch)
{
    size_t i;
    one_entry(batch);
    list.n = 0;
    group(1, 0, 4, 4, TOP);
    expect(of(ACK, 7), 0, 3);
    check(store->words[COMPLETE] == 1, "an ack with words did not make an entry of no batch complete");
    for (i = 0; i < WIDEST; i++)
        check(!is_set(i), "an entry of no batch has bits");
}

/* A mark with one bit: below the batch size it is a state's, else the words spell none. */
static void one_bit(uint64_t batch, size_t i)
{
    one_entry(batch);
    store->words[BITS + i / 64] = POWER(i % 64);
    if (batch > 1 && i < batch)
        expect(flow(7, 1), 0, 1);
    else
        refused(flow(7, 1), 1);
}

void batch_sizes(void)
{
    uint64_t batch;
    for (batch = 0; batch <= WIDEST; batch++) {
        if (batch > 1)
            fresh_bits(batch);
        else
            no_batch(batch);
        if (batch > 0)
            one_bit(batch, batch - 1);
        if (batch < WIDEST)
            one_bit(batch, batch);
        one_bit(batch, 0);
        one_bit(batch, WIDEST - 1);
    }
}
