/*
 * Faults: the exports for C at their limits and one past them, with lists and stores of every wrong
 * shape, and a long run of random calls with damaged stores among them. The refusal numbers here are
 * document 01's. Around every call all lent words are compared with what they were:
 *
 *  - a refused call has changed no word of store and list, and its value is 0, or with 15 the number due;
 *  - a call that was done has changed no word past the needed ones, none of a list that is only read, and
 *    none of push's list behind its records;
 *  - words before and behind what was lent are never changed.
 *
 * Commands as bytes have no store: 16 and 17 are request A2's, and what is lent is looked at in the same way.
 * Rows of calls are held against the same calls one by one; 18 and 64 are broker.h's.
 *
 *     faults [CALLS [SEED]]     CALLS random calls in the last part, 100,000 if not given
 *
 * One line for each part; ends with 1 and a message at the first thing that is not as it has to be.
 */
#include "faults.h"

#include <stdio.h>
#include <stdlib.h>

static void counts(void)
{
    int i;
    printf("faults: ");
    for (i = 0; i < OPERATIONS; i++)
        printf("%s %lu%s", names[i], made_of[i], i + 1 < OPERATIONS ? ", " : "\n");
    printf("faults: refusals:");
    for (i = 1; i < 16; i++) {
        printf(" %d (%lu)%s", i, given[i], i < 15 ? "," : "\n");
        check(given[i] > 0, "a refusal was never given");
    }
}

int main(int argc, char **argv)
{
    unsigned long wanted = argc > 1 ? strtoul(argv[1], NULL, 10) : 100000;
    char text[160];
    size_t k;
    if (argc > 3 || wanted == 0) {
        fprintf(stderr, "usage: faults [CALLS [SEED]]\n");
        return 2;
    }
    if (argc > 2)
        seed = strtoull(argv[2], NULL, 10);
    for (k = 0; k < 5; k++)
        stores[k] = make(k == 0 ? BROKER_NEEDED(4096) + 20 : BROKER_NEEDED(32) + 20);
    list = make((size_t)13 * 3 * 4096 + 100);
    kept = malloc((BROKER_NEEDED(4096) + 20) * sizeof *kept);
    if (kept == NULL)
        return 2;

    begin("limits");
    open_limits();
    append_limits();
    subscribe_limits();
    flow_limits();
    close_limits();
    ack_limits();
    seek_limits();
    records();
    count_limits();
    ended("each number at its limit and one past it");

    begin("batch sizes");
    batch_sizes();
    ended("every size from 0 to 256: its fresh bits, its last bit and one past it");

    begin("push lists");
    push_lists();
    ended("every length about the number due");

    begin("lists");
    list_lengths();
    snprintf(text, sizeof text, "lengths 0 to 1,300: %lu lists of the form, %lu not", formed_lists, cut_lists);
    ended(text);

    begin("no slices");
    null_slices();
    ended("NULL with length 0 for every slice of a call on a store");

    begin("short stores");
    short_stores();
    ended("every length below the needed one");

    begin("damaged words");
    damaged_words(4);
    snprintf(text, sizeof text, "each word in turn: %lu damaged stores, %lu refused by 1, %lu other states",
             damaged, unspelt, damaged - unspelt);
    ended(text);

    begin("outside ids");
    outside_order();
    ended("ids out of order, or one of them twice");

    begin("rows");
    row_records();
    row_scripts();
    row_short_stores();
    snprintf(text, sizeof text, "%lu rows done, %lu calls as one by one; %lu refused by 1, %lu by 18, %lu by 64",
             rows_done, row_calls, rows_1, rows_18, rows_64);
    ended(text);

    begin("rows, damaged words");
    row_damaged_words();
    snprintf(text, sizeof text, "each word in turn: %lu damaged stores, %lu refused by 1, %lu other states",
             damaged, unspelt, damaged - unspelt);
    ended(text);

    begin("commands as bytes");
    wire_limits();
    ended("each number at its limit and one past it");

    begin("damaged bytes");
    wire_damage();
    snprintf(text, sizeof text, "each cut and each byte changed to every other: %lu read, %lu refused by 16, %lu by 17",
             bytes_read, bytes_16, bytes_17);
    ended(text);

    begin("soak");
    soak(wanted);
    snprintf(text, sizeof text, "at random: %lu damaged stores, %lu refused by 1, %lu other states", damaged,
             unspelt, damaged - unspelt);
    ended(text);
    counts();
    printf("faults: %lu calls, all as document 01, request A2 and broker.h have them\n", calls);
    return 0;
}
