/*
 * Commands as bytes: the two readers and the writer at their limits and one past them, every cut of a good command, and
 * each of its bytes changed to every other. Around every call the input, the words, the list and the buffer are looked at:
 * a call that is refused changes nothing, one that is done nothing behind what it gives.
 */
#include "faults.h"

#include <stdio.h>
#include <stdlib.h>
#include <string.h>

#define MESSAGE 9
#define ROOM ((size_t)16384)
#define LIST_ROOM ((size_t)1300)

unsigned long bytes_read, bytes_16, bytes_17;

/* Bytes being put together. */
struct bytes {
    size_t n;
    uint8_t at[ROOM];
};

static struct bytes input, before, content, inner;
static uint64_t ids[LIST_ROOM + 2 * GUARD], words[BROKER_RECORD_WORDS + 2 * GUARD];
static uint8_t buffer[512];

static void wrong(const char *what)
{
    size_t i;
    printf("faults: FAILED: commands as bytes: %s\n  number %u, value %lld, input of %lu bytes ", what, BROKER_NUMBER(answer),
           (long long)BROKER_VALUE(answer), (unsigned long)input.n);
    for (i = 0; i < input.n && i < 400; i++)
        printf("%02x", input.at[i]);
    printf("\n");
    exit(1);
}

/* ---- bytes ---- */

static void varint(struct bytes *b, uint64_t v)
{
    for (; v > 127; v >>= 7)
        b->at[b->n++] = (uint8_t)((v & 127) | 128);
    b->at[b->n++] = (uint8_t)v;
}

static void number(struct bytes *b, uint64_t field, uint64_t v)
{
    varint(b, field * 8);
    varint(b, v);
}

static void part(struct bytes *b, uint64_t field, const void *bytes, size_t n)
{
    varint(b, field * 8 + 2);
    varint(b, n);
    memcpy(b->at + b->n, bytes, n);
    b->n += n;
}

/* The id (3,4), with ack-set words. */
static void an_id(size_t ack_words)
{
    inner.n = 0;
    number(&inner, 1, 3);
    number(&inner, 2, 4);
    while (ack_words-- > 0)
        number(&inner, 5, TOP);
}

/* A command of what the content has. */
static void command(uint64_t type)
{
    input.n = 0;
    number(&input, 1, type);
    part(&input, type, content.at, content.n);
}

static void a_flow(uint64_t permits)
{
    content.n = 0;
    number(&content, 1, 7);
    number(&content, 2, permits);
    command(BROKER_TYPE_FLOW);
}

/* An Ack or a Redeliver. */
static void with_ids(uint64_t type, size_t count, size_t ack_words)
{
    an_id(ack_words);
    content.n = 0;
    number(&content, 1, 7);
    if (type == BROKER_TYPE_ACK)
        number(&content, 2, 0);
    while (count-- > 0)
        part(&content, type == BROKER_TYPE_ACK ? 3 : 2, inner.at, inner.n);
    command(type);
}

static void a_message(uint64_t batch, uint64_t redelivery, size_t ack_words)
{
    an_id(0);
    number(&inner, 6, batch);
    content.n = 0;
    number(&content, 1, 7);
    part(&content, 2, inner.at, inner.n);
    number(&content, 3, redelivery);
    while (ack_words-- > 0)
        number(&content, 4, TOP);
    command(MESSAGE);
}

/* A good command of a type. */
static void good(uint64_t type)
{
    if (type == BROKER_TYPE_ACK || type == BROKER_TYPE_REDELIVER) {
        with_ids(type, 2, 1);
    } else if (type == BROKER_TYPE_FLOW) {
        a_flow(300);
    } else if (type == MESSAGE) {
        a_message(3, 1, 1);
    } else {
        content.n = 0;
        if (type == BROKER_TYPE_SUBSCRIBE) {
            part(&content, 1, "orders", 6);
            part(&content, 2, "market", 6);
            number(&content, 3, 1);
        }
        number(&content, type == BROKER_TYPE_SUBSCRIBE ? 4 : 1, 7);
        number(&content, type == BROKER_TYPE_SUBSCRIBE ? 5 : 2, 1000);
        an_id(0);
        if (type == BROKER_TYPE_SEEK)
            part(&content, 3, inner.at, inner.n);
        command(type);
    }
}

/* ---- calls ---- */

static void fill_words(uint64_t *at, size_t n)
{
    while (n-- > 0)
        at[n] = FILL;
}

static int filled(const uint64_t *at, size_t n)
{
    while (n > 0 && at[n - 1] == FILL)
        n--;
    return n == 0;
}

static void count_call(void)
{
    calls++;
    part_calls++;
    if (input.n != before.n || memcmp(input.at, before.at, input.n) != 0)
        wrong("the input is changed");
    *(BROKER_NUMBER(answer) == 0 ? &bytes_read : answer == 16 ? &bytes_16 : &bytes_17) += 1;
    if (BROKER_NUMBER(answer) != 0 && answer != 16 && answer != 17)
        wrong("an answer that it does not have");
}

/* Whether the words of a command that was read are as the header has them, with so many of the list. */
static int command_fits(const uint64_t *c, size_t listed)
{
    static const struct {
        int64_t type;
        size_t words;
    } types[] = {{BROKER_TYPE_SUBSCRIBE, 7}, {BROKER_TYPE_FLOW, 3}, {BROKER_TYPE_ACK, 3},
                 {BROKER_TYPE_REDELIVER, 3}, {BROKER_TYPE_SEEK, 5}, {BROKER_TYPE_CLOSE, 2}};
    size_t i, k;
    for (i = 0; i < 6 && types[i].type != BROKER_VALUE(answer); i++)
        ;
    if (i == 6)
        return 0;
    for (k = types[i].words; k < BROKER_COMMAND_WORDS; k++)
        if (c[k] != 0)
            return 0;
    if (types[i].type == BROKER_TYPE_SUBSCRIBE)
        return c[2] <= 1 && c[3] <= input.n && c[4] <= input.n - c[3] && c[5] <= input.n && c[6] <= input.n - c[5];
    return formed(ids + GUARD, listed);
}

/* Reads the input as a command with a list of m words; gives the number. */
static unsigned read_command(size_t m)
{
    uint64_t *c = words + GUARD, *l = ids + GUARD;
    size_t listed = 0;
    before = input;
    fill_words(words, sizeof words / sizeof *words);
    fill_words(ids, sizeof ids / sizeof *ids);
    answer = broker_read_command(input.n > 0 ? input.at : NULL, input.n, m > 0 ? l : NULL, m, c);
    count_call();
    if (BROKER_NUMBER(answer) == 0) {
        if (BROKER_VALUE(answer) == BROKER_TYPE_ACK || BROKER_VALUE(answer) == BROKER_TYPE_REDELIVER)
            listed = c[2] <= m ? (size_t)c[2] : m;
        if (!command_fits(c, listed))
            wrong("the words of a command are not of their form");
    } else if (!filled(c, BROKER_COMMAND_WORDS)) {
        wrong("a refused call changed the words");
    }
    if (!filled(words, GUARD) || !filled(c + BROKER_COMMAND_WORDS, BROKER_RECORD_WORDS - BROKER_COMMAND_WORDS + GUARD))
        wrong("words around the command changed");
    if (!filled(ids, GUARD) || !filled(l + listed, LIST_ROOM - listed + GUARD))
        wrong("the list behind the ids, or words around it, changed");
    return BROKER_NUMBER(answer);
}

/* Reads the input as a Message. */
static unsigned read_message(void)
{
    uint64_t *r = words + GUARD;
    before = input;
    fill_words(words, sizeof words / sizeof *words);
    answer = broker_read_message(input.n > 0 ? input.at : NULL, input.n, r);
    count_call();
    if (answer == 0 ? r[3] != 0 || r[4] >= POWER(31) || r[5] > 4 || r[10] >= POWER(32) || r[11] != 0 || r[12] != 0
                    : !filled(r, BROKER_RECORD_WORDS))
        wrong("the record is not of its form, or a refused call changed it");
    if (!filled(words, GUARD) || !filled(r + BROKER_RECORD_WORDS, GUARD))
        wrong("words around the record changed");
    return BROKER_NUMBER(answer);
}

/* Writes a record into a buffer of n bytes and reads what was written. */
static unsigned write_message(const uint64_t *record, size_t n)
{
    uint64_t kept_record[BROKER_RECORD_WORDS];
    size_t written, i;
    memcpy(kept_record, record, sizeof kept_record);
    memset(buffer, 0xa5, sizeof buffer);
    before = input;
    answer = broker_write_message(record, n > 0 ? buffer : NULL, n);
    count_call();
    written = BROKER_NUMBER(answer) == 0 ? (size_t)BROKER_VALUE(answer) : 0;
    if (written > n || written > 114 || answer == 17)
        wrong("more bytes than a Message has, or an answer that the writer does not have");
    for (i = written; i < sizeof buffer; i++)
        if (buffer[i] != 0xa5)
            wrong("the buffer behind a Message changed");
    if (memcmp(kept_record, record, sizeof kept_record) != 0)
        wrong("the record changed");
    if (answer == 16)
        return 16;
    memcpy(input.at, buffer, written);
    input.n = written;
    if (read_message() != 0 || memcmp(words + GUARD, record, 3 * sizeof *record) != 0 || words[GUARD + 4] != record[4] ||
        memcmp(words + GUARD + 5, record + 5, (1 + (size_t)record[5]) * sizeof *record) != 0 || words[GUARD + 10] != record[10])
        wrong("what was written does not read as the record");
    return 0;
}

static void expects(unsigned number_given, unsigned number_due, const char *what)
{
    if (number_given != number_due)
        wrong(what);
}

/* ---- limits ---- */

static void rooms(void)
{
    static const uint64_t largest[BROKER_RECORD_WORDS] = {TOP, TOP, TOP, 0, 256, 4, TOP, TOP, TOP, TOP, POWER(32) - 1, 0, 0};
    static const size_t lists[] = {0, 1, 19, 1214, 1215, 1216, 1217, 1300}, buffers[] = {0, 1, 114, 254, 255, 256, 257, 512};
    size_t i;
    for (i = 0; i < 8; i++) {
        with_ids(BROKER_TYPE_ACK, 1, 1);
        expects(read_command(lists[i]), lists[i] < BROKER_COMMAND_LIST ? 16 : 0, "a list and its 1,216 words");
        a_flow(5);
        expects(read_command(lists[i]), lists[i] < BROKER_COMMAND_LIST ? 16 : 0, "a list that is not needed has 1,216 words too");
        input.n = 0;
        number(&input, 1, 18);
        expects(read_command(lists[i]), lists[i] < BROKER_COMMAND_LIST ? 16 : 17, "a short list comes before the type");
        expects(write_message(largest, buffers[i]), buffers[i] < BROKER_MESSAGE_BYTES ? 16 : 0, "a buffer and its 256 bytes");
        if (buffers[i] >= BROKER_MESSAGE_BYTES && input.n != 114)
            wrong("the largest Message has 114 bytes");
    }
    input.n = 0;
    expects(read_command(BROKER_COMMAND_LIST), 16, "no bytes");
    expects(read_message(), 16, "no bytes");
}

static void lengths(void)
{
    static const uint64_t types[] = {BROKER_TYPE_ACK, BROKER_TYPE_REDELIVER};
    size_t t, k;
    for (t = 0; t < 2; t++) {
        for (k = 0; k <= 70; k++) {
            with_ids(types[t], k, 0);
            expects(read_command(BROKER_COMMAND_LIST), k > 64 ? 16 : 0, "64 ids");
            with_ids(types[t], 1, k);
            expects(read_command(BROKER_COMMAND_LIST), k > 16 ? 16 : 0, "16 words of an id");
        }
        with_ids(types[t], 64, 16);
        expects(read_command(BROKER_COMMAND_LIST), 0, "64 ids of 16 words");
        if (words[GUARD + BROKER_COMMAND_LIST_WORDS] != BROKER_COMMAND_LIST)
            wrong("64 ids of 16 words take 1,216 words");
    }
    for (k = 0; k <= 10; k++) {
        a_message(0, 0, k);
        expects(read_message(), k > 4 ? 16 : 0, "4 words of a Message");
    }
}

/* A list that was read goes to ack and redeliver as it stands. */
static void lists_go_on(void)
{
    opened(2, 0, 0);
    done(subscribe(7, 1, 1, 1));
    with_ids(BROKER_TYPE_ACK, 64, 16);
    expects(read_command(BROKER_COMMAND_LIST), 0, "64 ids of 16 words");
    list.n = BROKER_COMMAND_LIST;
    memcpy(list.words, ids + GUARD, list.n * sizeof *ids);
    does(of(ACK, 7));
    does(of(REDELIVER, 7));
}

static void numbers(void)
{
    static const uint64_t edges[] = {0, 1, 255, 256, 257, POWER(31) - 1, POWER(31), POWER(32) - 1, POWER(32), POWER(63), TOP};
    uint64_t record[BROKER_RECORD_WORDS] = {7, 1, 0, 500, 3, 1, 6, 0, 0, 0, 1, 2, 9};
    size_t i;
    for (i = 0; i < sizeof edges / sizeof *edges; i++) {
        a_flow(edges[i]);
        expects(read_command(BROKER_COMMAND_LIST), edges[i] >= POWER(32) ? 16 : 0, "permits of 32 bits");
        a_message(edges[i], 0, 0);
        expects(read_message(), edges[i] >= POWER(31) ? 16 : 0, "a batch size from 0 on");
        a_message(0, edges[i], 0);
        expects(read_message(), edges[i] >= POWER(32) ? 16 : 0, "a redelivery count of 32 bits");
        record[4] = edges[i];
        expects(write_message(record, BROKER_MESSAGE_BYTES), edges[i] > 256 ? 16 : 0, "a batch size of 256");
        record[4] = 3;
        record[10] = edges[i];
        expects(write_message(record, BROKER_MESSAGE_BYTES), edges[i] >= POWER(32) ? 16 : 0, "a redelivery count of 32 bits");
        record[10] = 1;
    }
    for (i = 0; i <= 6; i++) {
        record[5] = i < 6 ? i : TOP;
        expects(write_message(record, BROKER_MESSAGE_BYTES), i > 4 ? 16 : 0, "4 words of a record");
    }
}

/* ---- damage ---- */

/* Every cut of a good command, and each byte of it changed to every other. */
static void damage(uint64_t type)
{
    static struct bytes whole;
    size_t i;
    unsigned change;
    good(type);
    whole = input;
    expects(type == MESSAGE ? read_message() : read_command(BROKER_COMMAND_LIST), 0, "a good command");
    expects(type == MESSAGE ? read_command(BROKER_COMMAND_LIST) : read_message(), 17, "a good command of another type");
    for (i = 0; i < whole.n; i++) {
        input.n = i;
        expects(read_command(BROKER_COMMAND_LIST), type == MESSAGE && i == 2 ? 17 : 16, "a cut command");
        expects(read_message(), type != MESSAGE && i == 2 ? 17 : 16, "a cut command");
        input = whole;
        for (change = 1; change < 256; change++) {
            input.at[i] = (uint8_t)(whole.at[i] ^ change);
            read_command(LIST_ROOM);
            read_message();
        }
        input = whole;
    }
}

void wire_limits(void)
{
    rooms();
    lengths();
    lists_go_on();
    numbers();
}

void wire_damage(void)
{
    bytes_read = bytes_16 = bytes_17 = 0;
    damage(BROKER_TYPE_SUBSCRIBE);
    damage(BROKER_TYPE_FLOW);
    damage(BROKER_TYPE_ACK);
    damage(BROKER_TYPE_SEEK);
    damage(BROKER_TYPE_REDELIVER);
    damage(BROKER_TYPE_CLOSE);
    damage(MESSAGE);
}
