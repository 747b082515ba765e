/* A careful gate: before every event it checks again that its desk is sound (question 5), then questions 6 to 24. */
#ifndef CHECKING_H
#define CHECKING_H

#include <stddef.h>
#include <stdint.h>

struct checking_desk;

/* A desk that is not open; NULL where there is no memory. Free it with free(). */
struct checking_desk *checking_new(void);

/* Opens the desk: questions 2 to 4. */
uint8_t checking_open(struct checking_desk *desk, const uint8_t *roster, size_t length);

/* Answers an event, any bytes of any length, and works it where the answer is 0: questions 5 to 24. */
uint8_t checking_event(struct checking_desk *desk, const uint8_t *event, size_t length);

#endif
