/*
 * A flow as it is written by hand, with nothing checked: a live consumer looked for by its id, the grant added to it and,
 * if it is shared, to its subscription, each with its limit. The benchmark holds a flow in a row against it, beside the
 * check (src/speed_rows/counter.rs, which has the same structs).
 */
#include <stddef.h>
#include <stdint.h>

#define MOST_PERMITS ((int64_t)1 << 40)
#define MOST_TOTAL ((int64_t)1 << 60)

struct consumer {
    uint64_t id, topic, subscription, shared;
    int64_t permits;
    uint64_t cursor;
};

struct subscription {
    uint64_t topic, subscription;
    int64_t total;
};

struct counter {
    size_t consumers, subscriptions;
    struct consumer consumer[32];
    struct subscription subscription[8];
};

uint64_t plain_flow(struct counter *counter, uint64_t id, uint32_t grant);

uint64_t plain_flow(struct counter *counter, uint64_t id, uint32_t grant)
{
    struct consumer *c = counter->consumer;
    struct subscription *s = counter->subscription;
    size_t i = 0, d = 0;
    int64_t granted, total;
    while (i < counter->consumers && c[i].id != id)
        i++;
    if (i == counter->consumers)
        return 4;
    granted = c[i].permits + (int64_t)grant;
    if (granted > MOST_PERMITS)
        return 9;
    if (c[i].shared) {
        while (d < counter->subscriptions && (s[d].topic != c[i].topic || s[d].subscription != c[i].subscription))
            d++;
        total = s[d].total + (int64_t)grant;
        if (total > MOST_TOTAL)
            return 9;
        s[d].total = total;
    }
    c[i].permits = granted;
    return (uint64_t)granted * 256;
}
