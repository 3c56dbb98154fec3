/*
 * Serves the three calls on bytes to compare.py: batches of cases on standard input, their results on standard output.
 * Numbers are little-endian.
 *
 *   a batch    its length in bytes (4), then cases: call (1: command 1, message 2, record 3), n (4), m (4), n bytes;
 *              m is the words of the list, or with a record, which is 104 bytes, the bytes of the buffer
 *   a result   fault (1: 0, or 1 where something changed that may not), answer (8), length (4), and so many bytes:
 *              if done the command's 8 words and the list's, the record's 13, or the bytes written
 *
 * A fault is told on standard error too. Ends with the input; a case that does not fit ends it with 2.
 */
#include "lent.h"

#include "broker.h"

#include <stdio.h>
#include <stdlib.h>
#include <string.h>

static uint8_t *batch, *out;
static size_t out_room, out_at;

static void bad(const char *what)
{
    fprintf(stderr, "serve: %s\n", what);
    exit(2);
}

static void *grown(void *at, size_t bytes)
{
    void *more = realloc(at, bytes);
    if (more == NULL)
        bad("no memory");
    return more;
}

static uint64_t number(const uint8_t *at, int bytes)
{
    uint64_t v = 0;
    while (bytes-- > 0)
        v = v << 8 | at[bytes];
    return v;
}

static void put(uint64_t v, int bytes)
{
    while (bytes-- > 0) {
        out[out_at++] = (uint8_t)(v & 255);
        v >>= 8;
    }
}

static void put_words(const uint64_t *words, size_t n)
{
    size_t i;
    for (i = 0; i < n; i++)
        put(words[i], 8);
}

/* The call of a case whose input or record is in its place. */
static struct result called(unsigned call, const uint8_t *bytes, size_t n, size_t m)
{
    uint64_t record[BROKER_RECORD_WORDS];
    size_t i;
    if (call == 3) {
        if (n != sizeof record || m > LENT_BYTES)
            bad("no record, or too long a buffer");
        for (i = 0; i < BROKER_RECORD_WORDS; i++)
            record[i] = number(bytes + 8 * i, 8);
        return write_message(record, m);
    }
    if (call < 1 || call > 3 || n > LENT_BYTES || m > LENT_WORDS)
        bad("no such call, or too much lent");
    if (n > 0)
        memcpy(input(n), bytes, n);
    return call == 1 ? read_command(n, m) : read_message(n);
}

static void answer(unsigned call, const struct result *r)
{
    int done = BROKER_NUMBER(r->answer) == BROKER_DONE;
    size_t words = !done || call == 3 ? 0 : call == 1 ? BROKER_COMMAND_WORDS : BROKER_RECORD_WORDS;
    size_t length = 8 * (words + r->listed) + r->written;
    if (out_at + 13 + length > out_room) {
        out_room = 2 * (out_at + 13 + length);
        out = grown(out, out_room);
    }
    put(r->fault != NULL, 1);
    put(r->answer, 8);
    put(length, 4);
    put_words(r->words, words);
    put_words(r->list, r->listed);
    if (r->written > 0)
        memcpy(out + out_at, r->bytes, r->written);
    out_at += r->written;
    if (r->fault != NULL)
        fprintf(stderr, "serve: call %u: %s\n", call, r->fault);
}

int main(void)
{
    uint8_t head[4];
    lend();
    while (fread(head, 1, sizeof head, stdin) == sizeof head) {
        size_t length = (size_t)number(head, 4), at = 0;
        batch = grown(batch, length + 1);
        if (fread(batch, 1, length, stdin) != length)
            bad("a batch is cut off");
        for (out_at = 0; at < length;) {
            unsigned call;
            size_t n;
            struct result r;
            if (length - at < 9 || length - at - 9 < number(batch + at + 1, 4))
                bad("a case is cut off");
            call = batch[at];
            n = (size_t)number(batch + at + 1, 4);
            r = called(call, batch + at + 9, n, (size_t)number(batch + at + 5, 4));
            answer(call, &r);
            at += 9 + n;
        }
        if (fwrite(out, 1, out_at, stdout) != out_at || fflush(stdout) != 0)
            bad("the results cannot be written");
    }
    return 0;
}
