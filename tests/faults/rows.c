/*
 * How a row of calls is made and looked at. A row that is done is held against the same calls made one by one on a
 * copy of the store: all words of store, answers and list are the same. A row that is refused has changed none of
 * them. The script and the words around the four slices never change.
 */
#include "faults.h"

#include <stdio.h>
#include <stdlib.h>
#include <string.h>

unsigned long rows_done, row_calls, rows_1, rows_18, rows_64;

struct slice script, answers, sent;
/* Where the calls are made one by one; these have the list of lent.c. */
static struct slice copy;

void check_row(int holds, const char *what)
{
    size_t i;
    if (holds)
        return;
    printf("faults: FAILED: rows: %s\n", what);
    printf("  the row's answer: number %u, value %lld\n", BROKER_NUMBER(answer), (long long)BROKER_VALUE(answer));
    printf("  a store of %lu words, %lu answers, a list of %lu, a script of %lu:", (unsigned long)store->n,
           (unsigned long)answers.n, (unsigned long)sent.n, (unsigned long)script.n);
    for (i = 0; i < script.n && i < 60; i++)
        printf(" %llu", (unsigned long long)script.words[i]);
    printf("\n");
    exit(1);
}

void fresh(uint64_t entries)
{
    if (script.base == NULL) {
        script = make(MOST_SCRIPT);
        answers = make(MOST_ANSWERS);
        sent = make(MOST_SENT);
        copy = make(BROKER_NEEDED(32) + 20);
    }
    opened(entries, 0, 0);
    script.n = 0;
    answers.n = MOST_ANSWERS;
    sent.n = MOST_SENT;
}

void put_words(const uint64_t *words, size_t n)
{
    memcpy(script.words + script.n, words, n * sizeof *words);
    script.n += n;
}

void put_record(uint64_t kind, uint64_t count, const uint64_t *words, size_t n)
{
    put_words(&kind, 1);
    put_words(&count, 1);
    put_words(words, n);
}

/* Makes the call of a record by itself; a push has the m words at `rest`. */
static void single(const uint64_t *record, uint64_t *rest, size_t m)
{
    enum operation operation = (enum operation)record[0];
    size_t count = (size_t)record[1];
    uint64_t a[5] = {0};
    memcpy(a, record + 2, (count < 5 ? count : 5) * sizeof *a);
    list.n = operation == PUSH ? m : 0;
    memcpy(list.words, rest, list.n * sizeof *rest);
    if (operation == ACK || operation == REDELIVER) {
        list.n = count - 1;
        memcpy(list.words, record + 3, list.n * sizeof *a);
    }
    run(call(operation, a[0], a[1], a[2], a[3], a[4]));
    if (operation == PUSH)
        memcpy(rest, list.words, m * sizeof *rest);
}

/* Makes the calls of the script by themselves on a copy of the store: what they leave, the row has to leave. Gives
 * how many they are. */
static size_t one_by_one(void)
{
    struct slice *lent_to_row = store;
    uint64_t *records_due = sent.was + GUARD;
    size_t at, used = 0, made = 0;
    memcpy(copy.words, store->words, store->n * sizeof(uint64_t));
    copy.n = store->n;
    store = &copy;
    for (at = 0; at < script.n; at += 2 + (size_t)script.words[at + 1]) {
        single(script.words + at, records_due + used, sent.n - used);
        if (script.words[at] == PUSH && BROKER_NUMBER(answer) == 0)
            used += BROKER_RECORD_WORDS * (size_t)BROKER_VALUE(answer);
        answers.was[GUARD + made++] = answer;
    }
    store = lent_to_row;
    memcpy(store->was + GUARD, copy.words, store->n * sizeof(uint64_t));
    return made;
}

/* The pointer that is lent. */
static uint64_t *lent(const struct slice *s)
{
    return null_if_empty && s->n == 0 ? NULL : s->words;
}

static void count_row(unsigned number)
{
    calls++;
    part_calls++;
    *(number == 0 ? &rows_done : number == 1 ? &rows_1 : number == 18 ? &rows_18 : &rows_64) += 1;
}

void row(unsigned number, size_t value)
{
    static const char *const slice_names[] = {"the store", "the script", "the answers", "the list"};
    struct slice *const slices[] = {store, &script, &answers, &sent};
    char text[80];
    size_t i;
    fill(&answers, answers.n);
    fill(&sent, sent.n);
    for (i = 0; i < 4; i++)
        memcpy(slices[i]->was, slices[i]->base, (slices[i]->n + 2 * GUARD) * sizeof(uint64_t));
    if (number == 0)
        row_calls += one_by_one();
    answer = broker_calls(lent(store), store->n, lent(&script), script.n, lent(&answers), answers.n, lent(&sent),
                          sent.n);
    count_row(number);
    snprintf(text, sizeof text, "broker.h has number %u, value %lu", number, (unsigned long)value);
    check_row(answer == ANSWER(number, value), text);
    for (i = 0; i < 4; i++) {
        size_t bytes = (slices[i]->n + 2 * GUARD) * sizeof(uint64_t);
        snprintf(text, sizeof text, "%s, or words around: not as %s", slice_names[i],
                 number == 0 ? "calls one by one leave them" : "before");
        check_row(memcmp(slices[i]->base, slices[i]->was, bytes) == 0, text);
    }
}

void row_again(unsigned number, size_t value)
{
    restore();
    row(number, value);
}

void row_if(int is_row, size_t made)
{
    row_again(is_row ? BROKER_DONE : BROKER_NO_CALL, is_row ? made : 0);
}
