/* A roster of document 01. Its bytes number groups and contracts from 1; the indices here count from 0. */
#ifndef ROSTER_H
#define ROSTER_H

#include <stddef.h>
#include <stdint.h>

enum { MAX_ACCOUNTS = 16, MAX_GROUPS = 4, MAX_CONTRACTS = 8, MAX_INSTRUMENTS = 32, MAX_WEIGHT = 1000000 };

enum { ROSTER_SIZES = 8, MAX_ROSTER = ROSTER_SIZES + MAX_CONTRACTS + 5 * MAX_INSTRUMENTS };

struct roster {
    uint16_t accounts;
    uint16_t groups;
    uint16_t contracts;
    uint16_t instruments;
    uint8_t group_of[MAX_CONTRACTS];
    uint8_t contract_of[MAX_INSTRUMENTS];
    int32_t weight[MAX_INSTRUMENTS];
};

/* How many bytes a roster has by its sizes, the first eight bytes; 8 where a size is out of range. */
size_t roster_length(const uint8_t sizes[ROSTER_SIZES]);

/* Questions 2 to 4; the roster is written where the answer is 0. */
uint8_t roster_read(struct roster *roster, const uint8_t *bytes, size_t length);

#endif
