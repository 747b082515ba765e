#include "roster.h"

#include <stdbool.h>
#include <string.h>

static bool sizes_in_range(const uint16_t sizes[4])
{
    static const uint16_t most[4] = {MAX_ACCOUNTS, MAX_GROUPS, MAX_CONTRACTS, MAX_INSTRUMENTS};
    for (int k = 0; k < 4; k++)
        if (sizes[k] < 1 || sizes[k] > most[k])
            return false;
    return true;
}

size_t roster_length(const uint8_t bytes[ROSTER_SIZES])
{
    uint16_t sizes[4];
    memcpy(sizes, bytes, sizeof sizes);
    return sizes_in_range(sizes) ? ROSTER_SIZES + sizes[2] + 5u * sizes[3] : ROSTER_SIZES;
}

uint8_t roster_read(struct roster *roster, const uint8_t *bytes, size_t length)
{
    if (length <= ROSTER_SIZES || length != roster_length(bytes))
        return 2;
    struct roster read;
    memcpy(&read, bytes, ROSTER_SIZES);
    const uint8_t *groups = bytes + ROSTER_SIZES;
    const uint8_t *contracts = groups + read.contracts;
    for (int c = 0; c < read.contracts; c++) {
        if (groups[c] < 1 || groups[c] > read.groups)
            return 3;
        read.group_of[c] = groups[c] - 1;
    }
    for (int i = 0; i < read.instruments; i++) {
        if (contracts[i] < 1 || contracts[i] > read.contracts)
            return 3;
        read.contract_of[i] = contracts[i] - 1;
    }
    memcpy(read.weight, contracts + read.instruments, sizeof *read.weight * read.instruments);
    for (int i = 0; i < read.instruments; i++)
        if (read.weight[i] < -MAX_WEIGHT || read.weight[i] > MAX_WEIGHT)
            return 4;
    *roster = read;
    return 0;
}
