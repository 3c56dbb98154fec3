/*
 * A plain decoder and encoder of the commands that are timed: what a maker would write by hand.
 */
#ifndef PLAIN_H
#define PLAIN_H

#include <stddef.h>
#include <stdint.h>

/* Reads a Flow or an Ack: the type, or 0 where the bytes are none. The command's words are those of
 * broker_read_command, the ids go into the list in the same groups. */
uint64_t plain_read(const uint8_t *bytes, size_t n, uint64_t *list, size_t m, uint64_t *command);
/* Writes a record of push as a Message: the bytes written, or 0 where the buffer is too short for it. */
size_t plain_write(const uint64_t *record, uint8_t *buffer, size_t n);

#endif
