/*
 * Replays a list of fixed cases, with nothing else at hand: golden.txt says how it was made.
 *
 *   command M HEX = ANSWER [8 words, then the words of the list]     M words of list are lent
 *   message HEX = ANSWER [13 words]
 *   record M 13 words = ANSWER [HEX]                                 a buffer of M bytes is lent
 *
 * Numbers are decimal, HEX of no bytes is a dash, # begins a remark. Ends with 1 and the line at the first case that
 * comes out otherwise.
 */
#include "lent.h"

#include "broker.h"

#include <stdio.h>
#include <stdlib.h>
#include <string.h>

#define LINE ((size_t)1 << 16)

static char line[LINE], shown[LINE];
static char *rest;
static unsigned long line_number, commands, messages, records;

static void fail(const char *what)
{
    printf("golden: FAILED: line %lu: %s\n", line_number, what);
    exit(1);
}

/* The next word of the line. */
static char *word(void)
{
    char *at = rest;
    while (*rest != '\0' && *rest != ' ')
        rest++;
    if (at == rest)
        fail("the line is cut off");
    if (*rest == ' ')
        *rest++ = '\0';
    return at;
}

static uint64_t number(void)
{
    char *end, *at = word();
    uint64_t v = strtoull(at, &end, 10);
    if (*end != '\0')
        fail("no number");
    return v;
}

/* Puts bytes given as hexadecimal into their place; gives how many. */
static size_t put_input(void)
{
    const char *at = word();
    size_t n = strcmp(at, "-") == 0 ? 0 : strlen(at) / 2, i;
    unsigned byte;
    for (i = 0; i < n; i++) {
        if (sscanf(at + 2 * i, "%2x", &byte) != 1)
            fail("no bytes");
        input(n)[i] = (uint8_t)byte;
    }
    return n;
}

/* The result of a call as the line has it. */
static void show(const struct result *r, size_t words)
{
    size_t i;
    char *at = shown + sprintf(shown, "%llu", (unsigned long long)r->answer);
    if (BROKER_NUMBER(r->answer) == BROKER_DONE)
        for (i = 0; i < words + r->listed; i++)
            at += sprintf(at, " %llu", (unsigned long long)(i < words ? r->words[i] : r->list[i - words]));
    for (i = 0; i < r->written; i++)
        at += sprintf(at, i == 0 ? " %02x" : "%02x", r->bytes[i]);
}

/* Makes the call of a line. */
static void replay(void)
{
    struct result r;
    uint64_t given[BROKER_RECORD_WORDS];
    size_t words = 0, i, m;
    const char *kind = word();
    if (strcmp(kind, "command") == 0) {
        m = (size_t)number();
        r = read_command(put_input(), m);
        words = BROKER_COMMAND_WORDS;
        commands++;
    } else if (strcmp(kind, "message") == 0) {
        r = read_message(put_input());
        words = BROKER_RECORD_WORDS;
        messages++;
    } else {
        m = (size_t)number();
        for (i = 0; i < BROKER_RECORD_WORDS; i++)
            given[i] = number();
        r = write_message(given, m);
        records++;
    }
    if (r.fault != NULL)
        fail(r.fault);
    show(&r, words);
    if (strcmp(word(), "=") != 0 || strcmp(rest, shown) != 0) {
        printf("golden: it came out as: %s\n", shown);
        fail(rest);
    }
}

int main(int argc, char **argv)
{
    FILE *file = argc == 2 ? fopen(argv[1], "r") : NULL;
    if (file == NULL) {
        fprintf(stderr, "usage: golden FILE\n");
        return 2;
    }
    lend();
    while (fgets(line, sizeof line, file) != NULL) {
        line_number++;
        line[strcspn(line, "\n")] = '\0';
        rest = line;
        if (line[0] != '#' && line[0] != '\0')
            replay();
    }
    fclose(file);
    printf("golden: %lu commands, %lu Messages and %lu records come out as stored\n", commands, messages, records);
    return 0;
}
