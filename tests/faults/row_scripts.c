/*
 * Rows as a whole: every cut of a script, answers and lists of every length about what is needed, the refusals in
 * their order and each of a call's own, stores that spell no state, slices that are not there. rows.c says what is
 * looked at around each row.
 */
#include "faults.h"

/* ---- scripts ---- */

/* Calls of every kind, some of them refused. */
static const uint64_t morning[] = {
    BROKER_CALL_SUBSCRIBE(7, BROKER_SHARED, 1, 1),
    BROKER_CALL_SUBSCRIBE(8, BROKER_SHARED, 1, 1),
    BROKER_CALL_SUBSCRIBE(TOP, BROKER_PLAIN, 1, 255),
    BROKER_CALL_APPEND(1, 1, 0, 500, 3),
    BROKER_CALL_APPEND(1, 1, 1, 501, 0),
    BROKER_CALL_APPEND(1, 1, 1, 501, 0), /* 7 */
    BROKER_CALL_FLOW(7, 1),
    BROKER_CALL_FLOW(9, 1), /* 4 */
    BROKER_CALL_PUSH,
    BROKER_CALL_ACK(7, 4), 1, 0, 1, 6,
    BROKER_CALL_ACK(7, 2), 1, 0, /* 10 */
    BROKER_CALL_REDELIVER(7, 3), 1, 0, 0,
    BROKER_CALL_FLOW(8, 9),
    BROKER_CALL_FLOW(TOP, 5),
    BROKER_CALL_PUSH,
    BROKER_CALL_SEEK_START(TOP),
    BROKER_CALL_CLOSE(8),
    BROKER_CALL_CLOSE(8),
    BROKER_CALL_FLOW(7, 9),
    BROKER_CALL_PUSH,
    BROKER_CALL_SEEK_ID(TOP, 1, 1),
    BROKER_CALL_REDELIVER(TOP, 6), 1, 1, 0, 1, 0, 0,
    BROKER_CALL_ACK(TOP, 0),
    BROKER_CALL_ACK(7, 6), 1, 1, 0, 6, 6, 0,
    BROKER_CALL_APPEND(2, 1, 0, 502, 257), /* 8 */
    BROKER_CALL_FLOW(TOP, POWER(32) - 1),
};
#define MORNING_CALLS ((size_t)26)

/* A store that is kept, just opened, and the morning as the script. */
static void begin_morning(void)
{
    size_t words = 4 * BROKER_CALL_APPEND_WORDS + 3 * BROKER_CALL_SUBSCRIBE_WORDS + 6 * BROKER_CALL_FLOW_WORDS +
                   BROKER_CALL_ACK_WORDS(4) + BROKER_CALL_ACK_WORDS(2) + BROKER_CALL_ACK_WORDS(0) +
                   BROKER_CALL_ACK_WORDS(6) + BROKER_CALL_SEEK_START_WORDS + BROKER_CALL_SEEK_ID_WORDS +
                   BROKER_CALL_REDELIVER_WORDS(3) + BROKER_CALL_REDELIVER_WORDS(6) + 2 * BROKER_CALL_CLOSE_WORDS +
                   3 * BROKER_CALL_PUSH_WORDS;
    check(words == LENGTH(morning), "a call takes other words in a script than broker.h says");
    fresh(2);
    keep();
    put_words(morning, LENGTH(morning));
}

/* The script cut at every word: done up to there where a record ends, else 18. */
static void cuts(void)
{
    size_t end = 0, made = 0;
    begin_morning();
    for (script.n = 0; script.n <= LENGTH(morning); script.n++) {
        row_if(script.n == end, made);
        if (script.n == end && end < LENGTH(morning)) {
            end += 2 + (size_t)morning[end + 1];
            made++;
        }
    }
    check(made == MORNING_CALLS, "the morning has other calls than its number says");
}

/* Answers of every length: 64 up to the last that is too short. */
static void lengths_of_answers(void)
{
    begin_morning();
    for (answers.n = 0; answers.n <= MORNING_CALLS + 2; answers.n++)
        row_again(answers.n < MORNING_CALLS ? BROKER_ANSWERS_SHORT : BROKER_DONE, MORNING_CALLS);
    /* No call and no answers; one of each. */
    answers.n = 0;
    script.n = 0;
    row_again(BROKER_DONE, 0);
    put_words(morning, BROKER_CALL_SUBSCRIBE_WORDS);
    row_again(BROKER_ANSWERS_SHORT, 1);
    answers.n = 1;
    row_again(BROKER_DONE, 1);
}

/* Four pushes, and which calls of the script they are. */
static const uint64_t pushes[] = {
    BROKER_CALL_FLOW(7, 1), BROKER_CALL_PUSH,                         /* one due */
    BROKER_CALL_FLOW(8, 1), BROKER_CALL_FLOW(9, 2), BROKER_CALL_PUSH, /* three */
    BROKER_CALL_CLOSE(9),   BROKER_CALL_PUSH,                         /* the one of 8, if it still waits */
    BROKER_CALL_FLOW(7, 1), BROKER_CALL_PUSH,                         /* one */
};
#define PUSHES_CALLS ((size_t)9)
static const size_t push_places[] = {1, 4, 6, 8};

/* What they answer, by the records that the list holds. */
static const uint64_t pushed[][4] = {
    {ANSWER(15, 1), ANSWER(15, 4), ANSWER(15, 2), ANSWER(15, 3)},
    {ANSWER(0, 1), ANSWER(15, 3), ANSWER(15, 1), ANSWER(15, 2)},
    {ANSWER(0, 1), ANSWER(15, 3), ANSWER(0, 1), ANSWER(15, 1)},
    {ANSWER(0, 1), ANSWER(15, 3), ANSWER(0, 1), ANSWER(0, 1)},
    {ANSWER(0, 1), ANSWER(0, 3), ANSWER(0, 0), ANSWER(15, 1)},
    {ANSWER(0, 1), ANSWER(0, 3), ANSWER(0, 0), ANSWER(0, 1)},
    {ANSWER(0, 1), ANSWER(0, 3), ANSWER(0, 0), ANSWER(0, 1)},
};

/* Lists of every length: a push has what the pushes before it left, and one that was refused leaves all. */
static void lengths_of_lists(void)
{
    uint64_t i;
    fresh(2);
    for (i = 0; i < 2; i++)
        done(append(1, 1, i, 0));
    for (i = 7; i < 10; i++)
        done(subscribe(i, 0, 1, 1));
    keep();
    put_words(pushes, LENGTH(pushes));
    for (sent.n = 0; sent.n < LENGTH(pushed) * BROKER_RECORD_WORDS; sent.n++) {
        row_again(BROKER_DONE, PUSHES_CALLS);
        for (i = 0; i < 4; i++)
            check_row(answers.words[push_places[i]] == pushed[sent.n / BROKER_RECORD_WORDS][i],
                      "a push of a row has another answer");
    }
}

/* The morning, twice, on stores of some sizes with the switches off and on. */
static void sizes_of_stores(void)
{
    static const uint64_t sizes[] = {1, 2, 5, 12, 32};
    uint64_t on;
    size_t i;
    begin_morning();
    for (i = 0; i < LENGTH(sizes); i++)
        for (on = 0; on < 2; on++) {
            opened(sizes[i], on, on);
            row(BROKER_DONE, MORNING_CALLS);
            row(BROKER_DONE, MORNING_CALLS);
        }
}

/* ---- refusals ---- */

/* A record that is no call behind good ones, also with too few answers, and on words that spell nothing. */
static void refusals_in_order(void)
{
    static const uint64_t bad[][3] = {{9, 0}, {0}, {8, 1, 7}, {3, 1, 7}, {3, 2, 7}, {8, 1218}, {4, TOP, 7}};
    static const size_t words[] = {2, 1, 3, 3, 3, 2, 3};
    size_t i;
    begin_morning();
    for (i = 0; i < LENGTH(words); i++) {
        script.n = LENGTH(morning);
        put_words(bad[i], words[i]);
        answers.n = MOST_ANSWERS;
        row_again(BROKER_NO_CALL, 0);
        answers.n = i;
        row_again(BROKER_NO_CALL, 0);
        store->words[0] ^= 1;
        row(BROKER_NO_STATE, 0);
        answers.n = MOST_ANSWERS;
        row(BROKER_NO_STATE, 0);
        script.n = LENGTH(morning);
        row(BROKER_NO_STATE, 0);
        answers.n = i;
        row(BROKER_NO_STATE, 0);
        script.n = 0;
        row(BROKER_NO_STATE, 0);
    }
}

/* These words at the end of the script. */
#define PUT(...) put_words((const uint64_t[]){__VA_ARGS__}, LENGTH(((const uint64_t[]){__VA_ARGS__})))

/* A script with every refusal that a call on an open store has but 1, each in its order. */
static size_t put_every_refusal(void)
{
    const size_t made = 257 + 6 + 8 + 2 + 65 + 8 + 32 + 4;
    uint64_t i;
    PUT(BROKER_CALL_SUBSCRIBE(7, BROKER_SHARED, 1, 1));
    PUT(BROKER_CALL_FLOW(8, 1)); /* 4 */
    for (i = 0; i < 3; i++)
        PUT(BROKER_CALL_APPEND(1, 1, i, 500, 0)); /* 6 at the last */
    PUT(BROKER_CALL_APPEND(1, 1, 0, 500, 0));     /* 7 */
    PUT(BROKER_CALL_APPEND(1, 1, 0, 500, 257));   /* 8 */
    for (i = 2; i <= 9; i++)
        PUT(BROKER_CALL_APPEND(i, 1, 0, 500, 0)); /* 5 at the last */
    for (i = 0; i < 257; i++)
        PUT(BROKER_CALL_FLOW(7, POWER(32) - 1)); /* 9 at the last */
    PUT(BROKER_CALL_PUSH);                       /* 15 */
    PUT(BROKER_CALL_ACK(7, 1), 9);               /* 10 */
    for (i = 0; i < 65; i++)
        PUT(BROKER_CALL_ACK(7, 3), 9, i, 0); /* 11 at the last */
    for (i = 2; i <= 9; i++)
        PUT(BROKER_CALL_SUBSCRIBE(100 + i, BROKER_SHARED, 1, i)); /* 13 at the last */
    for (i = 1; i <= 32; i++)
        PUT(BROKER_CALL_SUBSCRIBE(100 + i, BROKER_SHARED, 1, 1)); /* 12 at the last */
    PUT(BROKER_CALL_SUBSCRIBE(7, BROKER_PLAIN, 2, 2));
    PUT(BROKER_CALL_CLOSE(7));
    PUT(BROKER_CALL_SUBSCRIBE(132, BROKER_SHARED, 1, 1)); /* 14 */
    return made;
}

/* That script, with room for one of the two records due: each refused call has its number, and the row goes on. */
static void every_refusal(void)
{
    unsigned long times[16] = {0};
    size_t made, i;
    fresh(2);
    sent.n = BROKER_RECORD_WORDS;
    made = put_every_refusal();
    row(BROKER_DONE, made);
    for (i = 0; i < made; i++)
        times[BROKER_NUMBER(answers.words[i]) % 16]++;
    for (i = 4; i < 16; i++)
        check_row(times[i] == 1, "a refusal is not once in the row that has each");
    check_row(times[0] == made - 12, "a call of the row with each refusal has another answer");
}

void row_scripts(void)
{
    cuts();
    lengths_of_answers();
    lengths_of_lists();
    sizes_of_stores();
    refusals_in_order();
    every_refusal();
}

/* ---- stores ---- */

/* A script for the store that a morning leaves. */
static const uint64_t evening[] = {
    BROKER_CALL_FLOW(7, 3),
    BROKER_CALL_ACK(7, 3), 1, 0, 0,
    BROKER_CALL_REDELIVER(TOP, 3), 1, 0, 0,
    BROKER_CALL_SUBSCRIBE(8, BROKER_SHARED, 1, 1),
    BROKER_CALL_SEEK_START(TOP),
    BROKER_CALL_APPEND(3, 1, 0, 503, 2),
    BROKER_CALL_PUSH,
    BROKER_CALL_CLOSE(7),
    BROKER_CALL_PUSH,
};
#define EVENING_CALLS ((size_t)9)

static void begin_evening(void)
{
    begin_morning();
    row(BROKER_DONE, MORNING_CALLS);
    keep();
    script.n = 0;
    put_words(evening, LENGTH(evening));
}

/* A good store of every length below the needed one, with a good script, a cut one, none, and no answers. */
void row_short_stores(void)
{
    begin_evening();
    for (store->n = 0; store->n < BROKER_NEEDED(2); store->n++) {
        row(BROKER_NO_STATE, 0);
        script.n--;
        row(BROKER_NO_STATE, 0);
        script.n = 0;
        row(BROKER_NO_STATE, 0);
        script.n = LENGTH(evening);
        answers.n = 0;
        row(BROKER_NO_STATE, 0);
        answers.n = MOST_ANSWERS;
    }
    row(BROKER_DONE, EVENING_CALLS);
}

/* The row on the store with one word changed: refused by 1 where a single call is, else done. */
static void damaged_row(size_t i, uint64_t word)
{
    restore();
    if (store->words[i] == word)
        return;
    damaged++;
    store->words[i] = word;
    if (run(of(CLOSE, NOBODY)) == BROKER_NO_STATE) {
        unspelt++;
        row(BROKER_NO_STATE, 0);
    } else {
        row(BROKER_DONE, EVENING_CALLS);
    }
}

void row_damaged_words(void)
{
    size_t i;
    begin_evening();
    damaged = unspelt = 0;
    for (i = 0; i < BROKER_NEEDED(2) + 5; i++) {
        damaged_row(i, kept[i] + 1);
        damaged_row(i, kept[i] - 1);
        damaged_row(i, kept[i] == 0 ? POWER(8) : 0);
        damaged_row(i, ~kept[i]);
    }
}

/* Each of the four slices there or not. */
void null_rows(void)
{
    unsigned without;
    begin_morning();
    for (without = 0; without < 16; without++) {
        restore();
        store->n = without & 1 ? 0 : store->n;
        script.n = without & 2 ? 0 : LENGTH(morning);
        answers.n = without & 4 ? 0 : MOST_ANSWERS;
        sent.n = without & 8 ? 0 : MOST_SENT;
        if (without & 1)
            row(BROKER_NO_STATE, 0);
        else if (without & 2)
            row(BROKER_DONE, 0);
        else
            row(without & 4 ? BROKER_ANSWERS_SHORT : BROKER_DONE, MORNING_CALLS);
    }
}
