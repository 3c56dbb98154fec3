/*
 * A decoder as it is written by hand: one pass over the bytes, each field put where it belongs as it comes, bounds tested
 * at each step, required fields at the end. Of the library's rules it leaves out what such a decoder leaves out: a field
 * that comes twice keeps its last value, and a tenth byte of a varint is not looked at.
 */
#include "plain.h"

#include "broker.h"

/* Wire types. */
enum { VARINT = 0, EIGHT = 1, DELIMITED = 2, FOUR = 5 };

struct input {
    const uint8_t *at, *end;
};

static int read_varint(struct input *in, uint64_t *value)
{
    uint64_t v = 0;
    unsigned shift;
    for (shift = 0; shift < 70; shift += 7) {
        uint8_t byte;
        if (in->at == in->end)
            return 0;
        byte = *in->at++;
        v |= (uint64_t)(byte & 127) << shift;
        if (byte < 128) {
            *value = v;
            return 1;
        }
    }
    return 0;
}

/* The bytes of a length-delimited field, which are left behind. */
static int read_part(struct input *in, struct input *part)
{
    uint64_t size;
    if (!read_varint(in, &size) || size > (uint64_t)(in->end - in->at))
        return 0;
    part->at = in->at;
    part->end = in->at + size;
    in->at += size;
    return 1;
}

static int skip(struct input *in, unsigned wire)
{
    uint64_t value;
    struct input part;
    ptrdiff_t width = wire == EIGHT ? 8 : 4;
    switch (wire) {
    case VARINT:
        return read_varint(in, &value);
    case DELIMITED:
        return read_part(in, &part);
    case EIGHT:
    case FOUR:
        if (in->end - in->at < width)
            return 0;
        in->at += width;
        return 1;
    default:
        return 0;
    }
}

static int read_flow(struct input in, uint64_t *command)
{
    int has_consumer = 0, has_permits = 0;
    uint64_t tag;
    while (in.at < in.end) {
        if (!read_varint(&in, &tag))
            return 0;
        switch (tag) {
        case 1 << 3 | VARINT:
            if (!read_varint(&in, &command[BROKER_COMMAND_CONSUMER]))
                return 0;
            has_consumer = 1;
            break;
        case 2 << 3 | VARINT:
            if (!read_varint(&in, &command[BROKER_COMMAND_PERMITS]) || command[BROKER_COMMAND_PERMITS] > UINT32_MAX)
                return 0;
            has_permits = 1;
            break;
        default:
            if (!skip(&in, (unsigned)(tag & 7)))
                return 0;
        }
    }
    return has_consumer && has_permits;
}

/* An id into a group, whose words there are room for; gives the words of the group, or 0. */
static size_t read_id(struct input in, uint64_t *group, size_t room)
{
    int has_ledger = 0, has_entry = 0;
    size_t words = 0;
    uint64_t tag;
    if (room < 3)
        return 0;
    while (in.at < in.end) {
        if (!read_varint(&in, &tag))
            return 0;
        switch (tag) {
        case 1 << 3 | VARINT:
            if (!read_varint(&in, &group[0]))
                return 0;
            has_ledger = 1;
            break;
        case 2 << 3 | VARINT:
            if (!read_varint(&in, &group[1]))
                return 0;
            has_entry = 1;
            break;
        case 5 << 3 | VARINT:
            if (words == BROKER_MAX_GROUP_WORDS || 3 + words == room || !read_varint(&in, &group[3 + words]))
                return 0;
            words++;
            break;
        default:
            if (!skip(&in, (unsigned)(tag & 7)))
                return 0;
        }
    }
    group[2] = words;
    return has_ledger && has_entry ? 3 + words : 0;
}

static int read_ack(struct input in, uint64_t *list, size_t m, uint64_t *command)
{
    int has_consumer = 0, has_type = 0;
    size_t listed = 0, ids = 0, group;
    uint64_t tag, type;
    struct input id;
    while (in.at < in.end) {
        if (!read_varint(&in, &tag))
            return 0;
        switch (tag) {
        case 1 << 3 | VARINT:
            if (!read_varint(&in, &command[BROKER_COMMAND_CONSUMER]))
                return 0;
            has_consumer = 1;
            break;
        case 2 << 3 | VARINT:
            if (!read_varint(&in, &type))
                return 0;
            has_type = 1;
            break;
        case 3 << 3 | DELIMITED:
            if (ids == BROKER_MAX_GROUPS || !read_part(&in, &id))
                return 0;
            group = read_id(id, list + listed, m - listed);
            if (group == 0)
                return 0;
            listed += group;
            ids++;
            break;
        default:
            if (!skip(&in, (unsigned)(tag & 7)))
                return 0;
        }
    }
    command[BROKER_COMMAND_LIST_WORDS] = listed;
    return has_consumer && has_type;
}

uint64_t plain_read(const uint8_t *bytes, size_t n, uint64_t *list, size_t m, uint64_t *command)
{
    struct input in, part;
    uint64_t tag, type = 0, found = 0;
    size_t i;
    in.at = bytes;
    in.end = bytes + n;
    for (i = 0; i < BROKER_COMMAND_WORDS; i++)
        command[i] = 0;
    while (in.at < in.end) {
        if (!read_varint(&in, &tag))
            return 0;
        switch (tag) {
        case 1 << 3 | VARINT:
            if (!read_varint(&in, &type))
                return 0;
            break;
        case BROKER_TYPE_ACK << 3 | DELIMITED:
            if (!read_part(&in, &part) || !read_ack(part, list, m, command))
                return 0;
            found = BROKER_TYPE_ACK;
            break;
        case BROKER_TYPE_FLOW << 3 | DELIMITED:
            if (!read_part(&in, &part) || !read_flow(part, command))
                return 0;
            found = BROKER_TYPE_FLOW;
            break;
        default:
            if (!skip(&in, (unsigned)(tag & 7)))
                return 0;
        }
    }
    return type == found ? type : 0;
}

/* ---- the encoder ---- */

static size_t varint_size(uint64_t v)
{
    size_t size = 1;
    while (v > 127) {
        v >>= 7;
        size++;
    }
    return size;
}

static uint8_t *put_varint(uint8_t *at, uint64_t v)
{
    while (v > 127) {
        *at++ = (uint8_t)((v & 127) | 128);
        v >>= 7;
    }
    *at++ = (uint8_t)v;
    return at;
}

/* A field whose tag has one byte. */
static uint8_t *put_number(uint8_t *at, unsigned number, uint64_t v)
{
    *at++ = (uint8_t)(number << 3 | VARINT);
    return put_varint(at, v);
}

size_t plain_write(const uint64_t *record, uint8_t *buffer, size_t n)
{
    const uint64_t *words = record + BROKER_RECORD_ACK_SET, count = record[BROKER_RECORD_ACK_COUNT];
    size_t id_size = 25 + varint_size(record[BROKER_RECORD_LEDGER]) + varint_size(record[BROKER_RECORD_ENTRY]) +
                     varint_size(record[BROKER_RECORD_BATCH]);
    size_t size = 4 + varint_size(record[BROKER_RECORD_CONSUMER]) + id_size + varint_size(record[BROKER_RECORD_REDELIVERY]);
    uint8_t *at = buffer;
    uint64_t i;
    if (count > 4)
        return 0;
    for (i = 0; i < count; i++)
        size += 1 + varint_size(words[i]);
    if (n < 5 + size)
        return 0;
    at = put_number(at, 1, 9);
    *at++ = 9 << 3 | DELIMITED;
    at = put_varint(at, size);
    at = put_number(at, 1, record[BROKER_RECORD_CONSUMER]);
    *at++ = 2 << 3 | DELIMITED;
    at = put_varint(at, id_size);
    at = put_number(at, 1, record[BROKER_RECORD_LEDGER]);
    at = put_number(at, 2, record[BROKER_RECORD_ENTRY]);
    at = put_number(at, 3, UINT64_MAX);
    at = put_number(at, 4, UINT64_MAX);
    at = put_number(at, 6, record[BROKER_RECORD_BATCH]);
    at = put_number(at, 3, record[BROKER_RECORD_REDELIVERY]);
    for (i = 0; i < count; i++)
        at = put_number(at, 4, words[i]);
    return (size_t)(at - buffer);
}
