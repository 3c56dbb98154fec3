/*
 * The three calls on bytes, with all that is lent to them looked at: the input, the list, the words and the buffer stand
 * against a page that must not be touched, and what a call may not change is compared with what it was.
 */
#ifndef LENT_H
#define LENT_H

#include <stddef.h>
#include <stdint.h>

/* Words before what is lent, and the most words and bytes that can be lent. */
#define LENT_WORDS ((size_t)4096)
#define LENT_BYTES ((size_t)1 << 20)

/* What a call answered and left; `fault` is NULL, or what it changed and may not have changed. */
struct result {
    uint64_t answer;
    const char *fault;
    const uint64_t *words; /* the command's words, or the record */
    const uint64_t *list;  /* the words of the ids */
    size_t listed;
    const uint8_t *bytes;  /* what was written */
    size_t written;
};

/* Makes the rooms; ends the program with 2 if there is no memory. */
void lend(void);
/* Where the n bytes of an input are to be put. */
uint8_t *input(size_t n);
struct result read_command(size_t n, size_t list_words);
struct result read_message(size_t n);
struct result write_message(const uint64_t record[13], size_t buffer_bytes);

#endif
