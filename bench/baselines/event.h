/* An event of document 01. The bytes are little-endian, as x86-64 is, so they are read in place. */
#ifndef EVENT_H
#define EVENT_H

#include <stdbool.h>
#include <stdint.h>

enum { LIMIT = 1, BALANCE, BLOCK, NEW, REPLACE, CANCEL, FILL };

enum { BUY = 1, SELL = 2 };

enum {
    MAX_LIMIT = 1000000000,
    MAX_POSITION = 1000000000,
    MAX_QUANTITY = 1000000,
    MAX_ORDERS = 256,
    TEN_THOUSANDTHS = 10000
};

/* Packed, since an event may begin at any byte. */
struct event {
    uint8_t kind;
    uint8_t side;
    uint16_t account;
    uint16_t item;
    uint8_t level;
    uint8_t zero;
    uint64_t id;
    int64_t figures[4];
} __attribute__((packed));

_Static_assert(sizeof(struct event) == 48, "an event is 48 bytes");

/* Figures two to four are zero. */
static inline bool only_first_figure(const struct event *event)
{
    return (event->figures[1] | event->figures[2] | event->figures[3]) == 0;
}

#endif
