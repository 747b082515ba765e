#include "trusting_desk.h"

/* Are the first figures a line that is set, or else -1 throughout? */
static bool are_limits(const struct event *event, int figures)
{
    bool set = true;
    bool unset = true;
    for (int k = 0; k < figures; k++) {
        set &= (uint64_t)event->figures[k] <= MAX_LIMIT;
        unset &= event->figures[k] == -1;
    }
    return set || unset;
}

static void set_line(struct line *line, const struct event *event)
{
    for (int way = LONG; way <= SHORT; way++) {
        line->largest[way] = event->figures[way];
        line->limit[way] = event->figures[2 + way];
    }
}

uint8_t trusting_limit(struct trusting_desk *desk, const struct event *event)
{
    unsigned level = event->level - 1u;
    unsigned a = event->account - 1u;
    unsigned item = event->item - 1u;
    bool is_group = level == 2;
    if (level > 2 || (event->side | event->zero) != 0 || event->id != 0 ||
        (is_group && (event->figures[2] | event->figures[3]) != 0))
        return 6;
    if (a >= desk->accounts)
        return 7;
    const unsigned items[3] = {desk->instruments, desk->contracts, desk->groups};
    if (item >= items[level])
        return 8;
    if (!are_limits(event, is_group ? 2 : 4))
        return 9;
    struct account *account = &desk->account[a];
    if (is_group)
        for (int way = LONG; way <= SHORT; way++)
            account->groups[item].limit[way] = event->figures[way] * TEN_THOUSANDTHS;
    else
        set_line(level == 0 ? &account->places[item].own : &account->defaults[item], event);
    return 0;
}

uint8_t trusting_balance(struct trusting_desk *desk, const struct event *event)
{
    if ((event->side | event->level | event->zero) != 0 || event->id != 0 ||
        !only_first_figure(event))
        return 6;
    unsigned a = event->account - 1u;
    unsigned i = event->item - 1u;
    int64_t figure = event->figures[0];
    if (a >= desk->accounts)
        return 7;
    if (i >= desk->instruments)
        return 8;
    if (figure < -MAX_POSITION || figure > MAX_POSITION)
        return 9;
    if (desk->account[a].trading)
        return 10;
    struct place *place = &desk->account[a].places[i];
    int64_t raised = figure - place->balance;
    place->balance = figure;
    move(desk, a, i, LONG, raised);
    move(desk, a, i, SHORT, -raised);
    return 0;
}

uint8_t trusting_block(struct trusting_desk *desk, const struct event *event)
{
    bool unnamed_is_zero = (event->level != 1 || event->item == 0) && (event->level != 2 || event->account == 0);
    if (event->level - 1u > 2 || (event->side | event->zero) != 0 || event->id != 0 || !unnamed_is_zero ||
        !only_first_figure(event))
        return 6;
    unsigned a = event->account - 1u;
    unsigned item = event->item - 1u;
    if (event->level != 2 && a >= desk->accounts)
        return 7;
    if ((event->level == 2 && item >= desk->instruments) || (event->level == 3 && item >= desk->groups))
        return 8;
    if ((uint64_t)event->figures[0] > 1)
        return 9;
    bool on = event->figures[0];
    if (event->level == 1)
        desk->account[a].blocked = on;
    else if (event->level == 2)
        desk->instrument[item].blocked = on;
    else
        desk->account[a].groups[item].blocked = on;
    return 0;
}
