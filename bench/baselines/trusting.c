#include "trusting.h"

#include <stdlib.h>
#include <string.h>

#include "trusting_desk.h"

struct trusting_desk *trusting_new(void)
{
    return calloc(1, sizeof(struct trusting_desk));
}

static void unset_lines(struct account *account)
{
    static const struct line unset = {{-1, -1}, {-1, -1}};
    for (int i = 0; i < MAX_INSTRUMENTS; i++)
        account->places[i].own = unset;
    for (int c = 0; c < MAX_CONTRACTS; c++)
        account->defaults[c] = unset;
    for (int g = 0; g < MAX_GROUPS; g++)
        account->groups[g].limit[LONG] = account->groups[g].limit[SHORT] = -1;
}

uint8_t trusting_open(struct trusting_desk *desk, const uint8_t *bytes, size_t length)
{
    struct roster roster;
    uint8_t answer = roster_read(&roster, bytes, length);
    if (answer != 0)
        return answer;
    memset(desk, 0, sizeof *desk);
    desk->accounts = roster.accounts;
    desk->groups = roster.groups;
    desk->contracts = roster.contracts;
    desk->instruments = roster.instruments;
    for (int i = 0; i < roster.instruments; i++) {
        struct instrument *instrument = &desk->instrument[i];
        instrument->magnitude = abs(roster.weight[i]);
        instrument->swaps = roster.weight[i] < 0;
        instrument->contract = roster.contract_of[i];
        instrument->group = roster.group_of[instrument->contract];
    }
    for (int a = 0; a < MAX_ACCOUNTS; a++)
        unset_lines(&desk->account[a]);
    return 0;
}

/* The place of an open id, or the count: the id stands there meanwhile, so that the scan needs no test for its end. */
static unsigned find(struct trusting_desk *desk, uint64_t id)
{
    uint64_t *at = desk->ids;
    at[desk->count] = id;
#pragma GCC unroll 8
    while (*at != id)
        at++;
    return at - desk->ids;
}

static void close_order(struct trusting_desk *desk, unsigned at)
{
    unsigned last = --desk->count;
    desk->ids[at] = desk->ids[last];
    desk->orders[at] = desk->orders[last];
}

/* Questions 14 to 24 of an order that comes to `total` and adds `added` to what remains; 18 of a NEW only. */
static inline uint8_t enter(const struct trusting_desk *desk, unsigned a, unsigned i, unsigned way, int64_t total,
                            int64_t added, bool is_new)
{
    const struct instrument *instrument = &desk->instrument[i];
    const struct account *account = &desk->account[a];
    const struct place *place = &account->places[i];
    const struct group *group = &account->groups[instrument->group];
    if (account->blocked)
        return 14;
    if (instrument->blocked)
        return 15;
    if (group->blocked)
        return 16;
    const struct line *line = place->own.limit[0] >= 0 ? &place->own : &account->defaults[instrument->contract];
    if (line->limit[0] < 0 || group->limit[0] < 0)
        return 17;
    if (is_new && desk->count == MAX_ORDERS)
        return 18;
    if (total > line->largest[way])
        return 19 + way;
    if (place->potential[way] + added > line->limit[way])
        return 21 + way;
    unsigned group_way = way ^ instrument->swaps;
    if (instrument->magnitude != 0 &&
        group->potential[group_way] + instrument->magnitude * added > group->limit[group_way])
        return 23 + group_way;
    return 0;
}

/* Kind to zero, the first eight bytes, as one word. */
static uint64_t header_of(const struct event *event)
{
    uint64_t header;
    memcpy(&header, event, sizeof header);
    return header;
}

static bool is_quantity(int64_t figure)
{
    return (uint64_t)figure - 1 < MAX_QUANTITY;
}

static uint8_t new_order(struct trusting_desk *desk, const struct event *event)
{
    const uint64_t unnamed = 0xffff000000000000; /* level and zero */
    unsigned way = event->side - 1u;
    unsigned a = event->account - 1u;
    unsigned i = event->item - 1u;
    int64_t quantity = event->figures[0];
    if ((header_of(event) & unnamed) != 0 || way > SHORT || event->id == 0 || !only_first_figure(event))
        return 6;
    if (a >= desk->accounts)
        return 7;
    if (i >= desk->instruments)
        return 8;
    if (!is_quantity(quantity))
        return 9;
    if (find(desk, event->id) != desk->count)
        return 13;
    uint8_t answer = enter(desk, a, i, way, quantity, quantity, true);
    if (answer != 0)
        return answer;
    desk->ids[desk->count] = event->id;
    desk->orders[desk->count] =
        (struct order){.account = a, .instrument = i, .way = way, .total = quantity, .filled = 0};
    desk->count++;
    desk->account[a].trading = true;
    move(desk, a, i, way, quantity);
    return 0;
}

/* Question 6 of a REPLACE, CANCEL or FILL: only kind, id and the first `figures` figures are named. */
static bool names_only_an_order(const struct event *event, int figures)
{
    bool rest_is_zero = only_first_figure(event) && (figures == 1 || event->figures[0] == 0);
    return header_of(event) == event->kind && event->id != 0 && rest_is_zero;
}

static uint8_t replace(struct trusting_desk *desk, const struct event *event)
{
    int64_t total = event->figures[0];
    if (!names_only_an_order(event, 1))
        return 6;
    if (!is_quantity(total))
        return 9;
    unsigned at = find(desk, event->id);
    if (at == desk->count)
        return 11;
    struct order *order = &desk->orders[at];
    if (total <= order->filled)
        return 12;
    int64_t added = total - order->total;
    if (added > 0) {
        uint8_t answer = enter(desk, order->account, order->instrument, order->way, total, added, false);
        if (answer != 0)
            return answer;
    }
    order->total = total;
    move(desk, order->account, order->instrument, order->way, added);
    return 0;
}

static uint8_t cancel(struct trusting_desk *desk, const struct event *event)
{
    if (!names_only_an_order(event, 0))
        return 6;
    unsigned at = find(desk, event->id);
    if (at == desk->count)
        return 11;
    const struct order *order = &desk->orders[at];
    move(desk, order->account, order->instrument, order->way, order->filled - order->total);
    close_order(desk, at);
    return 0;
}

/* A fill turns potential into balance: PCI of a buy stays, and PVI falls; a sell does the opposite. */
static uint8_t fill(struct trusting_desk *desk, const struct event *event)
{
    int64_t quantity = event->figures[0];
    if (!names_only_an_order(event, 1))
        return 6;
    if (!is_quantity(quantity))
        return 9;
    unsigned at = find(desk, event->id);
    if (at == desk->count)
        return 11;
    struct order *order = &desk->orders[at];
    if (quantity > order->total - order->filled)
        return 12;
    struct place *place = &desk->account[order->account].places[order->instrument];
    place->balance += order->way == LONG ? quantity : -quantity;
    move(desk, order->account, order->instrument, order->way ^ 1u, -quantity);
    order->filled += quantity;
    if (order->filled == order->total)
        close_order(desk, at);
    return 0;
}

static uint8_t answer(struct trusting_desk *desk, const struct event *event)
{
    switch (event->kind) {
    case LIMIT:
        return trusting_limit(desk, event);
    case BALANCE:
        return trusting_balance(desk, event);
    case BLOCK:
        return trusting_block(desk, event);
    case NEW:
        return new_order(desk, event);
    case REPLACE:
        return replace(desk, event);
    case CANCEL:
        return cancel(desk, event);
    case FILL:
        return fill(desk, event);
    default:
        return 6;
    }
}

size_t trusting_run(struct trusting_desk *desk, const uint8_t *events, size_t length, uint8_t *answers)
{
    size_t whole = length / sizeof(struct event);
    const struct event *event = (const struct event *)events;
    for (size_t k = 0; k < whole; k++)
        answers[k] = answer(desk, &event[k]);
    if (length % sizeof(struct event) == 0)
        return whole;
    answers[whole] = 6;
    return whole + 1;
}

void trusting_instrument_position(const struct trusting_desk *desk, unsigned account, unsigned instrument,
                                  int64_t report[3])
{
    const struct place *place = &desk->account[account].places[instrument];
    report[0] = place->balance;
    report[1] = place->potential[LONG];
    report[2] = place->potential[SHORT];
}

void trusting_group_position(const struct trusting_desk *desk, unsigned account, unsigned group, int64_t report[2])
{
    memcpy(report, desk->account[account].groups[group].potential, sizeof(int64_t[2]));
}
