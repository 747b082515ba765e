/* The day program over the trusting gate: roster and events from standard input, answers and positions to standard output. */
#include <errno.h>
#include <stdbool.h>
#include <stdio.h>
#include <stdlib.h>
#include <string.h>
#include <unistd.h>

#include "event.h"
#include "roster.h"
#include "trusting.h"

enum { BLOCK_EVENTS = 4096, BLOCK_BYTES = BLOCK_EVENTS * sizeof(struct event) };

enum { OUTPUT_BYTES = 1 << 16, LONGEST_LINE = 128 };

static char output[OUTPUT_BYTES];
static size_t used;

static void fail(void)
{
    static const char message[] = "day: standard input or output failed\n";
    if (write(STDERR_FILENO, message, sizeof message - 1) < 0)
        _exit(2);
    _exit(1);
}

static void flush(void)
{
    size_t done = 0;
    while (done < used) {
        ssize_t written = write(STDOUT_FILENO, output + done, used - done);
        if (written < 0 && errno != EINTR)
            fail();
        if (written > 0)
            done += (size_t)written;
    }
    used = 0;
}

/* Makes room for a line. */
static void begin_line(char letter)
{
    if (used > OUTPUT_BYTES - LONGEST_LINE)
        flush();
    output[used++] = letter;
}

static void end_line(void)
{
    output[used++] = '\n';
}

/* A space and a number, two digits at a time from the last. */
static void put_number(uint64_t number, bool negative)
{
    static const char pairs[] = "00010203040506070809101112131415161718192021222324252627282930313233343536373839"
                                "40414243444546474849505152535455565758596061626364656667686970717273747576777879"
                                "8081828384858687888990919293949596979899";
    char digits[20];
    size_t at = sizeof digits;
    while (number >= 10) {
        at -= 2;
        memcpy(digits + at, pairs + 2 * (number % 100), 2);
        number /= 100;
    }
    if (number > 0 || at == sizeof digits)
        digits[--at] = (char)('0' + number);
    output[used++] = ' ';
    if (negative)
        output[used++] = '-';
    memcpy(output + used, digits + at, sizeof digits - at);
    used += sizeof digits - at;
}

static void put_signed(int64_t number)
{
    put_number(number < 0 ? -(uint64_t)number : (uint64_t)number, number < 0);
}

/* Reads `wanted` bytes, or fewer where the input ends. */
static size_t read_up_to(uint8_t *bytes, size_t wanted)
{
    size_t done = 0;
    while (done < wanted) {
        ssize_t got = read(STDIN_FILENO, bytes + done, wanted - done);
        if (got == 0)
            break;
        if (got < 0 && errno != EINTR)
            fail();
        if (got > 0)
            done += (size_t)got;
    }
    return done;
}

static uint8_t open_desk(struct trusting_desk *desk, uint8_t roster[MAX_ROSTER])
{
    size_t length = read_up_to(roster, ROSTER_SIZES);
    if (length == ROSTER_SIZES)
        length += read_up_to(roster + ROSTER_SIZES, roster_length(roster) - ROSTER_SIZES);
    return trusting_open(desk, roster, length);
}

static void work_events(struct trusting_desk *desk)
{
    static uint8_t block[BLOCK_BYTES];
    static uint8_t answers[BLOCK_EVENTS];
    uint64_t place = 0;
    size_t got;
    do {
        got = read_up_to(block, BLOCK_BYTES);
        size_t count = trusting_run(desk, block, got, answers);
        for (size_t k = 0; k < count; k++) {
            begin_line('E');
            put_number(++place, false);
            put_number(answers[k], false);
            end_line();
        }
    } while (got == BLOCK_BYTES);
}

static void put_position(char letter, unsigned account, unsigned item, const int64_t *report, int figures)
{
    begin_line(letter);
    put_number(account + 1, false);
    put_number(item + 1, false);
    for (int k = 0; k < figures; k++)
        put_signed(report[k]);
    end_line();
}

static void put_positions(const struct trusting_desk *desk, const struct roster *roster)
{
    int64_t report[3];
    for (unsigned a = 0; a < roster->accounts; a++)
        for (unsigned i = 0; i < roster->instruments; i++) {
            trusting_instrument_position(desk, a, i, report);
            put_position('I', a, i, report, 3);
        }
    for (unsigned a = 0; a < roster->accounts; a++)
        for (unsigned g = 0; g < roster->groups; g++) {
            trusting_group_position(desk, a, g, report);
            put_position('G', a, g, report, 2);
        }
}

int main(void)
{
    uint8_t bytes[MAX_ROSTER];
    struct roster roster;
    struct trusting_desk *desk = trusting_new();
    if (desk == NULL)
        fail();
    uint8_t answer = open_desk(desk, bytes);
    begin_line('R');
    put_number(answer, false);
    end_line();
    if (answer == 0) {
        work_events(desk);
        roster_read(&roster, bytes, roster_length(bytes));
        put_positions(desk, &roster);
    }
    flush();
    free(desk);
    return 0;
}
