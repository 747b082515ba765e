/* The state of the trusting gate. Only trusting*.c see it. */
#ifndef TRUSTING_DESK_H
#define TRUSTING_DESK_H

#include <stdbool.h>
#include <stdint.h>

#include "event.h"
#include "roster.h"

/* A buy moves its instrument long, a sell short. Every pair of figures below is indexed by the way. */
enum { LONG, SHORT };

/* Largest orders TCI and TVI, limits LCI and LVI; -1 throughout where not set. */
struct line {
    int32_t largest[2];
    int32_t limit[2];
};

/* An account's instrument: S, PCI and PVI, its own line. */
struct place {
    int64_t balance;
    int64_t potential[2];
    struct line own;
};

/* An account's group, in ten-thousandths: PCC and PVC, LCC and LVC (below 0 where not set). */
struct group {
    int64_t potential[2];
    int64_t limit[2];
    bool blocked;
};

struct account {
    struct place places[MAX_INSTRUMENTS];
    struct group groups[MAX_GROUPS];
    struct line defaults[MAX_CONTRACTS];
    bool blocked;
    bool trading;
};

struct instrument {
    /* the weight's magnitude; a negative weight swaps the ways of instrument and group */
    int32_t magnitude;
    bool swaps;
    bool blocked;
    uint8_t contract;
    uint8_t group;
};

struct order {
    uint8_t account;
    uint8_t instrument;
    uint8_t way;
    int32_t total;
    int32_t filled;
};

struct trusting_desk {
    unsigned count;
    unsigned accounts, groups, contracts, instruments;
    /* order k has the id ids[k]; they stand in no sequence, and one place is left for the search */
    uint64_t ids[MAX_ORDERS + 1];
    struct order orders[MAX_ORDERS];
    struct instrument instrument[MAX_INSTRUMENTS];
    struct account account[MAX_ACCOUNTS];
};

/* Moves a potential position of an instrument, and with it that of its group. */
static inline void move(struct trusting_desk *desk, unsigned a, unsigned i, unsigned way, int64_t quantity)
{
    const struct instrument *instrument = &desk->instrument[i];
    struct account *account = &desk->account[a];
    account->places[i].potential[way] += quantity;
    account->groups[instrument->group].potential[way ^ instrument->swaps] += instrument->magnitude * quantity;
}

/* LIMIT, BALANCE and BLOCK: questions 6 to 10, and the work. */
uint8_t trusting_limit(struct trusting_desk *desk, const struct event *event);
uint8_t trusting_balance(struct trusting_desk *desk, const struct event *event);
uint8_t trusting_block(struct trusting_desk *desk, const struct event *event);

#endif
