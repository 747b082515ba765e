#include "checking.h"

#include <stdlib.h>
#include <string.h>

#include "checking_desk.h"

struct checking_desk *checking_new(void)
{
    return calloc(1, sizeof(struct checking_desk));
}

uint8_t checking_open(struct checking_desk *desk, const uint8_t *bytes, size_t length)
{
    struct roster roster;
    uint8_t answer = roster_read(&roster, bytes, length);
    if (answer != 0)
        return answer;
    memset(desk, 0, sizeof *desk);
    desk->roster = roster;
    /* every byte of -1 has all bits set */
    memset(desk->own_line, 0xff, sizeof desk->own_line);
    memset(desk->default_line, 0xff, sizeof desk->default_line);
    memset(desk->group_line, 0xff, sizeof desk->group_line);
    return 0;
}

/* The place of the first order whose id is at least this one. */
static unsigned find(const struct checking_desk *desk, uint64_t id)
{
    unsigned low = 0;
    unsigned high = desk->count;
    while (low < high) {
        unsigned middle = (low + high) / 2;
        if (desk->orders[middle].id < id)
            low = middle + 1;
        else
            high = middle;
    }
    return low;
}

static bool is_open(const struct checking_desk *desk, unsigned at, uint64_t id)
{
    return at < desk->count && desk->orders[at].id == id;
}

static void insert(struct checking_desk *desk, unsigned at, const struct order *order)
{
    memmove(&desk->orders[at + 1], &desk->orders[at], (desk->count - at) * sizeof *order);
    desk->orders[at] = *order;
    desk->count++;
}

static void erase(struct checking_desk *desk, unsigned at)
{
    desk->count--;
    memmove(&desk->orders[at], &desk->orders[at + 1], (desk->count - at) * sizeof *desk->orders);
}

/* PCC if `is_long`, else PVC: long potentials weigh by K > 0 in PCC and by K < 0 in PVC, short ones the other way round. */
static int64_t group_potential(const struct checking_desk *desk, const struct sums *sums, unsigned account,
                               unsigned group, bool is_long)
{
    const struct roster *roster = &desk->roster;
    int64_t sum = 0;
    for (int i = 0; i < roster->instruments; i++) {
        if (roster->group_of[roster->contract_of[i]] != group)
            continue;
        int64_t weight = roster->weight[i];
        int64_t s = desk->balance[account][i];
        if ((weight >= 0) == is_long)
            sum += llabs(weight) * (s + sums->buys[account][i]);
        else
            sum += llabs(weight) * (sums->sells[account][i] - s);
    }
    return sum;
}

/* Questions 23 and 24 of an order that adds `added` to what remains. */
static uint8_t group_answer(const struct checking_desk *desk, const struct sums *sums, const struct order *order,
                            int64_t added)
{
    const struct roster *roster = &desk->roster;
    int64_t weight = roster->weight[order->instrument];
    if (weight == 0)
        return 0;
    unsigned group = roster->group_of[roster->contract_of[order->instrument]];
    const struct group_line *line = &desk->group_line[order->account][group];
    bool is_long = (order->side == BUY) == (weight > 0);
    int64_t potential = group_potential(desk, sums, order->account, group, is_long) + llabs(weight) * added;
    if (is_long)
        return potential > line->lcc * TEN_THOUSANDTHS ? 23 : 0;
    return potential > line->lvc * TEN_THOUSANDTHS ? 24 : 0;
}

/* Questions 14 to 24 of an order as the event would have it; `added` is what it adds to what remains. */
static uint8_t enter(const struct checking_desk *desk, const struct sums *sums, const struct order *order,
                     int64_t added, bool is_new)
{
    unsigned a = order->account;
    unsigned i = order->instrument;
    unsigned contract = desk->roster.contract_of[i];
    unsigned group = desk->roster.group_of[contract];
    const struct line *own = &desk->own_line[a][i];
    const struct line *line = own->tci != -1 ? own : &desk->default_line[a][contract];
    if (desk->account_blocked[a])
        return 14;
    if (desk->instrument_blocked[i])
        return 15;
    if (desk->group_blocked[a][group])
        return 16;
    if (line->tci == -1 || desk->group_line[a][group].lcc == -1)
        return 17;
    if (is_new && desk->count == MAX_ORDERS)
        return 18;
    if (order->side == BUY && order->total > line->tci)
        return 19;
    if (order->side == SELL && order->total > line->tvi)
        return 20;
    if (order->side == BUY && desk->balance[a][i] + sums->buys[a][i] + added > line->lci)
        return 21;
    if (order->side == SELL && -desk->balance[a][i] + sums->sells[a][i] + added > line->lvi)
        return 22;
    return group_answer(desk, sums, order, added);
}

static bool has_account(const struct checking_desk *desk, const struct event *event)
{
    return event->account >= 1 && event->account <= desk->roster.accounts;
}

static bool has_item(unsigned items, const struct event *event)
{
    return event->item >= 1 && event->item <= items;
}

static bool is_quantity(int64_t figure)
{
    return figure >= 1 && figure <= MAX_QUANTITY;
}

static uint8_t new_order(struct checking_desk *desk, const struct sums *sums, const struct event *event)
{
    if (event->level != 0 || (event->side != BUY && event->side != SELL) || event->id == 0 || !only_first_figure(event))
        return 6;
    if (!has_account(desk, event))
        return 7;
    if (!has_item(desk->roster.instruments, event))
        return 8;
    if (!is_quantity(event->figures[0]))
        return 9;
    unsigned at = find(desk, event->id);
    if (is_open(desk, at, event->id))
        return 13;
    struct order order = {
        .id = event->id,
        .account = event->account - 1,
        .instrument = event->item - 1,
        .side = event->side,
        .total = event->figures[0],
    };
    uint8_t answer = enter(desk, sums, &order, order.total, true);
    if (answer != 0)
        return answer;
    insert(desk, at, &order);
    desk->trading[order.account] = true;
    return 0;
}

/* Question 6 of the kinds that name an order by its id and nothing else but a figure. */
static bool names_only_an_order(const struct event *event)
{
    return event->side == 0 && event->account == 0 && event->item == 0 && event->level == 0 && event->id != 0 &&
           only_first_figure(event);
}

static uint8_t replace(struct checking_desk *desk, const struct sums *sums, const struct event *event)
{
    if (!names_only_an_order(event))
        return 6;
    if (!is_quantity(event->figures[0]))
        return 9;
    unsigned at = find(desk, event->id);
    if (!is_open(desk, at, event->id))
        return 11;
    struct order replaced = desk->orders[at];
    replaced.total = event->figures[0];
    if (replaced.total <= replaced.filled)
        return 12;
    int64_t added = replaced.total - desk->orders[at].total;
    uint8_t answer = added > 0 ? enter(desk, sums, &replaced, added, false) : 0;
    if (answer == 0)
        desk->orders[at] = replaced;
    return answer;
}

static uint8_t cancel(struct checking_desk *desk, const struct event *event)
{
    if (!names_only_an_order(event) || event->figures[0] != 0)
        return 6;
    unsigned at = find(desk, event->id);
    if (!is_open(desk, at, event->id))
        return 11;
    erase(desk, at);
    return 0;
}

static uint8_t fill(struct checking_desk *desk, const struct event *event)
{
    int64_t quantity = event->figures[0];
    if (!names_only_an_order(event))
        return 6;
    if (!is_quantity(quantity))
        return 9;
    unsigned at = find(desk, event->id);
    if (!is_open(desk, at, event->id))
        return 11;
    struct order *order = &desk->orders[at];
    if (quantity > remaining(order))
        return 12;
    order->filled += quantity;
    desk->balance[order->account][order->instrument] += order->side == BUY ? quantity : -quantity;
    if (remaining(order) == 0)
        erase(desk, at);
    return 0;
}

/* Questions 8 and 9 of a line at the level's item, and the work. */
static uint8_t set_line(struct line *lines, unsigned items, const struct event *event)
{
    struct line line = {event->figures[0], event->figures[1], event->figures[2], event->figures[3]};
    if (!has_item(items, event))
        return 8;
    if (!line_in_range(&line))
        return 9;
    lines[event->item - 1] = line;
    return 0;
}

static uint8_t set_group_line(struct group_line *lines, unsigned groups, const struct event *event)
{
    struct group_line line = {event->figures[0], event->figures[1]};
    if (!has_item(groups, event))
        return 8;
    if (!group_line_in_range(&line))
        return 9;
    lines[event->item - 1] = line;
    return 0;
}

static uint8_t limit(struct checking_desk *desk, const struct event *event)
{
    const struct roster *roster = &desk->roster;
    if (event->level < 1 || event->level > 3 || event->side != 0 || event->id != 0)
        return 6;
    if (event->level == 3 && (event->figures[2] != 0 || event->figures[3] != 0))
        return 6;
    if (!has_account(desk, event))
        return 7;
    unsigned account = event->account - 1;
    if (event->level == 1)
        return set_line(desk->own_line[account], roster->instruments, event);
    if (event->level == 2)
        return set_line(desk->default_line[account], roster->contracts, event);
    return set_group_line(desk->group_line[account], roster->groups, event);
}

static uint8_t balance(struct checking_desk *desk, const struct event *event)
{
    int64_t figure = event->figures[0];
    if (event->side != 0 || event->level != 0 || event->id != 0 || !only_first_figure(event))
        return 6;
    if (!has_account(desk, event))
        return 7;
    if (!has_item(desk->roster.instruments, event))
        return 8;
    if (figure < -MAX_POSITION || figure > MAX_POSITION)
        return 9;
    if (desk->trading[event->account - 1])
        return 10;
    desk->balance[event->account - 1][event->item - 1] = figure;
    return 0;
}

static uint8_t block(struct checking_desk *desk, const struct event *event)
{
    if (event->level < 1 || event->level > 3 || event->side != 0 || event->id != 0 || !only_first_figure(event))
        return 6;
    if ((event->level == 1 && event->item != 0) || (event->level == 2 && event->account != 0))
        return 6;
    if (event->level != 2 && !has_account(desk, event))
        return 7;
    if (event->level == 2 && !has_item(desk->roster.instruments, event))
        return 8;
    if (event->level == 3 && !has_item(desk->roster.groups, event))
        return 8;
    if (event->figures[0] < 0 || event->figures[0] > 1)
        return 9;
    bool on = event->figures[0] == 1;
    if (event->level == 1)
        desk->account_blocked[event->account - 1] = on;
    else if (event->level == 2)
        desk->instrument_blocked[event->item - 1] = on;
    else
        desk->group_blocked[event->account - 1][event->item - 1] = on;
    return 0;
}

uint8_t checking_event(struct checking_desk *desk, const uint8_t *bytes, size_t length)
{
    struct sums sums;
    if (!desk_is_sound(desk, &sums))
        return 5;
    const struct event *event = (const struct event *)bytes;
    if (length != sizeof *event || event->zero != 0)
        return 6;
    switch (event->kind) {
    case LIMIT:
        return limit(desk, event);
    case BALANCE:
        return balance(desk, event);
    case BLOCK:
        return block(desk, event);
    case NEW:
        return new_order(desk, &sums, event);
    case REPLACE:
        return replace(desk, &sums, event);
    case CANCEL:
        return cancel(desk, event);
    case FILL:
        return fill(desk, event);
    default:
        return 6;
    }
}
