/* Opens a desk, works the events of document 01's listing and prints its lines. */
#include <inttypes.h>
#include <stdio.h>

#include "desk.h"

static uint8_t memory[DESK_MEMORY];

/* The bytes of a number, least significant first. */
static void put(uint8_t *to, size_t bytes, uint64_t value)
{
    for (size_t k = 0; k < bytes; k++)
        to[k] = (uint8_t)(value >> (8 * k));
}

struct event {
    uint8_t kind, side;
    uint16_t account, item;
    uint8_t level;
    uint64_t id;
    int64_t figures[4];
};

static const struct event EVENTS[] = {
    {.kind = 1, .account = 1, .item = 1, .level = 2, .figures = {100, 100, 100, 100}}, /* default line */
    {.kind = 1, .account = 1, .item = 1, .level = 3, .figures = {60, 60}},             /* group line */
    {.kind = 2, .account = 1, .item = 1, .figures = {-2}},                             /* balance of instrument 1 */
    {.kind = 4, .side = 1, .account = 1, .item = 1, .id = 7, .figures = {62}},         /* buy 62 of 1 */
    {.kind = 4, .side = 2, .account = 1, .item = 2, .id = 8, .figures = {1}},          /* sell 1 of 2: refused by 23 */
    {.kind = 7, .id = 7, .figures = {12}},                                             /* fill 12 of order 7 */
    {.kind = 4, .side = 1, .account = 1, .item = 2, .id = 9, .figures = {4}},          /* buy 4 of 2 */
    {.kind = 6, .id = 7},                                                              /* cancel 7 */
};

static void write_event(uint8_t bytes[DESK_EVENT], const struct event *e)
{
    put(bytes, 1, e->kind);
    put(bytes + 1, 1, e->side);
    put(bytes + 2, 2, e->account);
    put(bytes + 4, 2, e->item);
    put(bytes + 6, 1, e->level);
    put(bytes + 7, 1, 0);
    put(bytes + 8, 8, e->id);
    for (int k = 0; k < 4; k++)
        put(bytes + 16 + 8 * k, 8, (uint64_t)e->figures[k]);
}

/* One account, group and contract; two instruments, of weight 10000 and -5000. */
static size_t write_roster(uint8_t *roster)
{
    const uint16_t sizes[4] = {1, 1, 1, 2};
    for (int k = 0; k < 4; k++)
        put(roster + 2 * k, 2, sizes[k]);
    roster[8] = 1;              /* the contract's group */
    roster[9] = roster[10] = 1; /* the instruments' contract */
    put(roster + 11, 4, (uint32_t)10000);
    put(roster + 15, 4, (uint32_t)-5000);
    return 19;
}

int main(void)
{
    uint8_t roster[32];
    size_t length = write_roster(roster);
    uint8_t opened = desk_open(memory, sizeof memory, roster, length);
    printf("R %u\n", opened);
    if (opened != DESK_ACCEPTED)
        return 1;
    for (size_t k = 0; k < sizeof EVENTS / sizeof EVENTS[0]; k++) {
        uint8_t bytes[DESK_EVENT];
        write_event(bytes, &EVENTS[k]);
        printf("E %zu %u\n", k + 1, desk_event(memory, sizeof memory, bytes, sizeof bytes));
    }
    for (uint16_t instrument = 1; instrument <= 2; instrument++) {
        int64_t report[3];
        if (desk_instrument_position(memory, sizeof memory, 1, instrument, report) != DESK_ACCEPTED)
            return 1;
        printf("I 1 %u %" PRId64 " %" PRId64 " %" PRId64 "\n", instrument, report[0], report[1], report[2]);
    }
    int64_t report[2];
    if (desk_group_position(memory, sizeof memory, 1, 1, report) != DESK_ACCEPTED)
        return 1;
    printf("G 1 1 %" PRId64 " %" PRId64 "\n", report[0], report[1]);
    return 0;
}
