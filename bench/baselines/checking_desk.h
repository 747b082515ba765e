/* The state of the checking gate, and question 5. Only checking*.c see it. Indices count from 0. */
#ifndef CHECKING_DESK_H
#define CHECKING_DESK_H

#include <stdbool.h>
#include <stdint.h>

#include "event.h"
#include "roster.h"

/* -1 throughout where not set. */
struct line {
    int64_t tci, tvi, lci, lvi;
};

struct group_line {
    int64_t lcc, lvc;
};

struct order {
    uint64_t id;
    uint16_t account;
    uint16_t instrument;
    uint8_t side;
    int64_t total;
    int64_t filled;
};

struct checking_desk {
    struct roster roster;
    bool trading[MAX_ACCOUNTS];
    bool account_blocked[MAX_ACCOUNTS];
    bool instrument_blocked[MAX_INSTRUMENTS];
    bool group_blocked[MAX_ACCOUNTS][MAX_GROUPS];
    int64_t balance[MAX_ACCOUNTS][MAX_INSTRUMENTS];
    struct line own_line[MAX_ACCOUNTS][MAX_INSTRUMENTS];
    struct line default_line[MAX_ACCOUNTS][MAX_CONTRACTS];
    struct group_line group_line[MAX_ACCOUNTS][MAX_GROUPS];
    /* the open orders, ids ascending */
    unsigned count;
    struct order orders[MAX_ORDERS];
};

/* B and V by account and instrument. */
struct sums {
    int64_t buys[MAX_ACCOUNTS][MAX_INSTRUMENTS];
    int64_t sells[MAX_ACCOUNTS][MAX_INSTRUMENTS];
};

static inline int64_t remaining(const struct order *order)
{
    return order->total - order->filled;
}

/* Is the line set, or else -1 throughout? */
bool line_in_range(const struct line *line);
bool group_line_in_range(const struct group_line *line);

/* Question 5. Where the desk is sound, its sums are written for the roster's accounts. */
bool desk_is_sound(const struct checking_desk *desk, struct sums *sums);

#endif
