/* The limit gate: a desk in lent memory.
 *
 * The caller owns every buffer; the functions keep no pointer and no state outside the lent memory, so calls on different
 * desks are independent, and two calls on one desk must not run at the same time. Every function answers every input: no
 * contents of a buffer and no length is wrong. A refusal leaves the lent memory as it was, every byte. Bytes of the lent
 * memory from 65,536 on are never touched.
 *
 * What the caller owes: no pointer is NULL, and each is valid for its length, a report for its figures; buffers passed to one
 * call do not overlap; nothing else writes them during the call; and the stack has room: desk_instrument_position takes
 * 22 KB, the others at most 18 KB, and what the linked memmove takes.
 *
 * Link with libdesk.a (.ci/build makes it), for x86-64. It calls memcpy, memmove and memset, and no other function. The
 * prototypes below are compared with the proved functions by .ci/exported. */
#ifndef DESK_H
#define DESK_H

#include <stddef.h>
#include <stdint.h>

#ifdef __cplusplus
extern "C" {
#endif

/* A lent memory of this many bytes is long enough. */
#define DESK_MEMORY 65536

/* An event is this many bytes: kind (1), side (1), account (2), item (2), level (1), zero (1), order id (8), four figures
 * (8 each); little-endian. */
#define DESK_EVENT 48

/* The answers: 0, or the number of the first question that is answered no; behind it document 01's own term, where it has one.
 * docs/RULES.md says what each question asks. */
enum desk_answer {
    DESK_ACCEPTED = 0,
    /* an opening */
    DESK_MEMORY_TOO_SHORT = 1,
    DESK_WRONG_SIZES = 2,
    DESK_UNKNOWN_NAME = 3,
    DESK_WEIGHT_OUT_OF_RANGE = 4,
    /* an event; the readers answer 5, 7 and 8 */
    DESK_NO_SOUND_DESK = 5,
    DESK_NO_EVENT = 6,
    DESK_UNKNOWN_ACCOUNT = 7, /* UNKNOWN MARKET PARTICIPANT */
    DESK_UNKNOWN_ITEM = 8, /* UNKNOWN INSTRUMENT */
    DESK_FIGURE_OUT_OF_RANGE = 9, /* INVALID QUANTITY */
    DESK_ALREADY_TRADING = 10,
    DESK_ORDER_NOT_FOUND = 11, /* ORDER NOT FOUND */
    DESK_QUANTITY_OUT_OF_RANGE = 12,
    DESK_DUPLICATE_ORDER = 13, /* DUPLICATE ORDER */
    DESK_ACCOUNT_BLOCKED = 14,
    DESK_INSTRUMENT_BLOCKED = 15,
    DESK_GROUP_BLOCKED = 16,
    DESK_NO_LIMITS_CONFIGURED = 17, /* NO LIMITS CONFIGURED */
    DESK_NO_PLACE_FREE = 18,
    DESK_BUY_TOO_LARGE = 19,
    DESK_SELL_TOO_LARGE = 20,
    DESK_INSTRUMENT_TOO_LONG = 21,
    DESK_INSTRUMENT_TOO_SHORT = 22,
    DESK_GROUP_TOO_LONG = 23,
    DESK_GROUP_TOO_SHORT = 24
};

/* Opens a desk in the memory from the bytes of a roster: questions 1 to 4. Accepted, it replaces whatever the memory held. */
uint8_t desk_open(uint8_t *memory, size_t memory_length, const uint8_t *roster, size_t roster_length);

/* Answers an event, any bytes of any length, and works it where the answer is 0: questions 5 to 24. */
uint8_t desk_event(uint8_t *memory, size_t memory_length, const uint8_t *event, size_t event_length);

/* Answers many events: the bytes are cut into events of 48, and a short last one is an event too. One answer byte for each event in
 * order, until the events or the room for answers end; the result is how many answers were written. Answers and memory are those
 * of the events passed to desk_event one after the other; bytes of the answers past the last one are as they were. Question 5 is
 * asked once: a memory that is short or holds no sound desk answers 5 to each. */
size_t desk_run(uint8_t *memory, size_t memory_length, const uint8_t *events, size_t events_length, uint8_t *answers,
                size_t answers_length);

/* Writes S, PCI and PVI of an account and instrument to the report: questions 5, 7 and 8. A refusal leaves the report as it
 * was; the memory is only read. */
uint8_t desk_instrument_position(const uint8_t *memory, size_t memory_length, uint16_t account, uint16_t instrument,
                                 int64_t report[3]);

/* Writes PCC and PVC of an account and group, in ten-thousandths, to the report: questions 5, 7 and 8. A refusal leaves the
 * report as it was; the memory is only read. */
uint8_t desk_group_position(const uint8_t *memory, size_t memory_length, uint16_t account, uint16_t group,
                            int64_t report[2]);

#ifdef __cplusplus
}
#endif

#endif
