#include <string.h>

#include "checking_desk.h"

static bool between(int64_t least, int64_t most, int64_t figure)
{
    return least <= figure && figure <= most;
}

static bool roster_is_sound(const struct roster *roster)
{
    if (!between(1, MAX_ACCOUNTS, roster->accounts) || !between(1, MAX_GROUPS, roster->groups) ||
        !between(1, MAX_CONTRACTS, roster->contracts) || !between(1, MAX_INSTRUMENTS, roster->instruments))
        return false;
    for (int c = 0; c < roster->contracts; c++)
        if (roster->group_of[c] >= roster->groups)
            return false;
    for (int i = 0; i < roster->instruments; i++)
        if (roster->contract_of[i] >= roster->contracts || !between(-MAX_WEIGHT, MAX_WEIGHT, roster->weight[i]))
            return false;
    return true;
}

bool line_in_range(const struct line *line)
{
    if (line->tci == -1)
        return line->tvi == -1 && line->lci == -1 && line->lvi == -1;
    return between(0, MAX_LIMIT, line->tci) && between(0, MAX_LIMIT, line->tvi) && between(0, MAX_LIMIT, line->lci) &&
           between(0, MAX_LIMIT, line->lvi);
}

bool group_line_in_range(const struct group_line *line)
{
    if (line->lcc == -1)
        return line->lvc == -1;
    return between(0, MAX_LIMIT, line->lcc) && between(0, MAX_LIMIT, line->lvc);
}

static bool lines_are_sound(const struct checking_desk *desk)
{
    const struct roster *roster = &desk->roster;
    for (int a = 0; a < roster->accounts; a++) {
        for (int i = 0; i < roster->instruments; i++)
            if (!line_in_range(&desk->own_line[a][i]))
                return false;
        for (int c = 0; c < roster->contracts; c++)
            if (!line_in_range(&desk->default_line[a][c]))
                return false;
        for (int g = 0; g < roster->groups; g++)
            if (!group_line_in_range(&desk->group_line[a][g]))
                return false;
    }
    return true;
}

static bool order_is_sound(const struct checking_desk *desk, const struct order *order)
{
    return order->account < desk->roster.accounts && order->instrument < desk->roster.instruments &&
           (order->side == BUY || order->side == SELL) && between(1, MAX_QUANTITY, order->total) &&
           order->filled >= 0 && order->filled < order->total && desk->trading[order->account];
}

/* Checks the orders, and adds each to its sum. */
static bool orders_are_sound(const struct checking_desk *desk, struct sums *sums)
{
    if (desk->count > MAX_ORDERS)
        return false;
    memset(sums->buys, 0, desk->roster.accounts * sizeof *sums->buys);
    memset(sums->sells, 0, desk->roster.accounts * sizeof *sums->sells);
    uint64_t before = 0;
    for (unsigned k = 0; k < desk->count; k++) {
        const struct order *order = &desk->orders[k];
        if (order->id <= before || !order_is_sound(desk, order))
            return false;
        before = order->id;
        if (order->side == BUY)
            sums->buys[order->account][order->instrument] += remaining(order);
        else
            sums->sells[order->account][order->instrument] += remaining(order);
    }
    return true;
}

/* S + B and -S + V are at most the bound. No sum overflows: B and V are at most 256 orders of 1,000,000. */
static bool positions_are_sound(const struct checking_desk *desk, const struct sums *sums)
{
    for (int a = 0; a < desk->roster.accounts; a++)
        for (int i = 0; i < desk->roster.instruments; i++) {
            int64_t s = desk->balance[a][i];
            if (s > MAX_POSITION - sums->buys[a][i] || s < sums->sells[a][i] - MAX_POSITION)
                return false;
        }
    return true;
}

bool desk_is_sound(const struct checking_desk *desk, struct sums *sums)
{
    return roster_is_sound(&desk->roster) && lines_are_sound(desk) && orders_are_sound(desk, sums) &&
           positions_are_sound(desk, sums);
}
