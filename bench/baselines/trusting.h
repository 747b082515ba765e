/* A fast gate that trusts its state: questions 6 to 24 of document 01, and never 5. */
#ifndef TRUSTING_H
#define TRUSTING_H

#include <stddef.h>
#include <stdint.h>

struct trusting_desk;

/* A desk that is not open; NULL where there is no memory. Free it with free(). */
struct trusting_desk *trusting_new(void);

/* Opens the desk: questions 2 to 4. */
uint8_t trusting_open(struct trusting_desk *desk, const uint8_t *roster, size_t length);

/* Answers the events, 48 bytes each and a short last one, a byte for each; returns how many. The desk is open. */
size_t trusting_run(struct trusting_desk *desk, const uint8_t *events, size_t length, uint8_t *answers);

/* S, PCI and PVI; PCC and PVC. Accounts, instruments and groups are on the roster and count from 0. */
void trusting_instrument_position(const struct trusting_desk *desk, unsigned account, unsigned instrument,
                                  int64_t report[3]);
void trusting_group_position(const struct trusting_desk *desk, unsigned account, unsigned group, int64_t report[2]);

#endif
