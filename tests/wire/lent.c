/*
 * What is lent to the three calls on bytes, and what is looked at after each.
 */
#define _DEFAULT_SOURCE
#include "lent.h"

#include "broker.h"

#include <stdio.h>
#include <stdlib.h>
#include <string.h>
#include <sys/mman.h>
#include <unistd.h>

#define FILL UINT64_C(0xa5a55a5a0f0ff0f0)
#define FILL_BYTE 0xa5
/* Words looked at before those that are lent. */
#define BEFORE ((size_t)16)

static uint8_t *input_end, *copy, *buffer_end;
static uint64_t *list_end, *words_end;

/* The end of a room of so many bytes at least, behind which nothing can be read or written. */
static void *room(size_t bytes)
{
    size_t page = (size_t)sysconf(_SC_PAGESIZE);
    size_t whole = (bytes + page - 1) / page * page;
    uint8_t *at = mmap(NULL, whole + page, PROT_READ | PROT_WRITE, MAP_PRIVATE | MAP_ANONYMOUS, -1, 0);
    if (at == MAP_FAILED || mprotect(at + whole, page, PROT_NONE) != 0) {
        fprintf(stderr, "wire: no memory\n");
        exit(2);
    }
    return at + whole;
}

void lend(void)
{
    input_end = room(LENT_BYTES);
    list_end = room((LENT_WORDS + BEFORE) * sizeof(uint64_t));
    words_end = room((BROKER_RECORD_WORDS + BEFORE) * sizeof(uint64_t));
    buffer_end = room(LENT_BYTES + BEFORE);
    copy = malloc(LENT_BYTES);
    if (copy == NULL) {
        fprintf(stderr, "wire: no memory\n");
        exit(2);
    }
}

uint8_t *input(size_t n)
{
    return input_end - n;
}

static void fill(uint64_t *end, size_t n)
{
    uint64_t *w;
    for (w = end - n - BEFORE; w < end; w++)
        *w = FILL;
}

/* Whether words from one place to another are as they were filled. */
static int filled(const uint64_t *from, const uint64_t *to)
{
    for (; from < to; from++)
        if (*from != FILL)
            return 0;
    return 1;
}

/* An input of no bytes is lent as NULL. */
static const uint8_t *lent_input(size_t n)
{
    if (n > 0)
        memcpy(copy, input_end - n, n);
    return n > 0 ? input_end - n : NULL;
}

static int input_stays(size_t n)
{
    return n == 0 || memcmp(copy, input_end - n, n) == 0;
}

struct result read_command(size_t n, size_t list_words)
{
    struct result r = {0, NULL, NULL, NULL, 0, NULL, 0};
    uint64_t *list = list_end - list_words, *words = words_end - BROKER_COMMAND_WORDS;
    unsigned number;
    fill(list_end, list_words);
    fill(words_end, BROKER_COMMAND_WORDS);
    r.answer = broker_read_command(lent_input(n), n, list_words > 0 ? list : NULL, list_words, words);
    number = BROKER_NUMBER(r.answer);
    r.words = words;
    r.list = list;
    if (number == BROKER_DONE && (r.answer == BROKER_TYPE_ACK * 256 || r.answer == BROKER_TYPE_REDELIVER * 256))
        r.listed = words[BROKER_COMMAND_LIST_WORDS] < list_words ? (size_t)words[BROKER_COMMAND_LIST_WORDS] : list_words;
    if (!input_stays(n))
        r.fault = "the input is changed";
    else if (!filled(words - BEFORE, words) || (number != BROKER_DONE && !filled(words, words_end)))
        r.fault = "words are changed";
    else if (!filled(list - BEFORE, list) || !filled(list + r.listed, list_end))
        r.fault = "the list is changed";
    return r;
}

struct result read_message(size_t n)
{
    struct result r = {0, NULL, NULL, NULL, 0, NULL, 0};
    uint64_t *words = words_end - BROKER_RECORD_WORDS;
    fill(words_end, BROKER_RECORD_WORDS);
    r.answer = broker_read_message(lent_input(n), n, words);
    r.words = words;
    if (!input_stays(n))
        r.fault = "the input is changed";
    else if (!filled(words - BEFORE, words) || (r.answer != BROKER_DONE && !filled(words, words_end)))
        r.fault = "words are changed";
    return r;
}

struct result write_message(const uint64_t record[13], size_t buffer_bytes)
{
    struct result r = {0, NULL, NULL, NULL, 0, NULL, 0};
    uint64_t *words = words_end - BROKER_RECORD_WORDS;
    uint8_t *buffer = buffer_end - buffer_bytes;
    size_t i;
    memcpy(words, record, BROKER_RECORD_WORDS * sizeof *words);
    memset(buffer - BEFORE, FILL_BYTE, buffer_bytes + BEFORE);
    r.answer = broker_write_message(words, buffer_bytes > 0 ? buffer : NULL, buffer_bytes);
    r.bytes = buffer;
    if (BROKER_NUMBER(r.answer) == BROKER_DONE)
        r.written = (size_t)(r.answer >> 8) < buffer_bytes ? (size_t)(r.answer >> 8) : buffer_bytes;
    if (memcmp(words, record, BROKER_RECORD_WORDS * sizeof *words) != 0)
        r.fault = "the record is changed";
    for (i = 0; i < BEFORE; i++)
        if (buffer[(ptrdiff_t)i - (ptrdiff_t)BEFORE] != FILL_BYTE)
            r.fault = "bytes before the buffer are changed";
    for (i = r.written; i < buffer_bytes; i++)
        if (buffer[i] != FILL_BYTE)
            r.fault = "the buffer is changed";
    return r;
}
