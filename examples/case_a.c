/* Document 01's gateway in C (and C++): opens a table, registers three points, asks case a, and sees that the answer is the paper's.
 *
 *     cc -Iinclude examples/case_a.c target/staticlib/libkhuvelter.a -o case_a && ./case_a
 */
#include <stdio.h>
#include <string.h>

#include "khuvelter.h"

/* K = 8; station 7, reservation 2, ceiling 4. */
enum { CAPACITY = 8, STATIONS = 1 };
static const uint16_t plan[3 * STATIONS] = {7, 2, 4};

/* The memory is the caller's: a table, the last master clock, and room for any answer. */
static uint8_t table[KHUVELTER_TABLE_OCTETS(CAPACITY, STATIONS)];
static uint8_t last_clock[KHUVELTER_CLOCK_OCTETS];
static uint8_t answer[KHUVELTER_SYSTEM_ANSWER_OCTETS(CAPACITY)];

/* Three records: CA, IOA, type, group, counter group, spare, value. */
static const uint8_t points[3 * KHUVELTER_RECORD_OCTETS] = {
    /* IOA 10, type 1, octet 01, group 1 */
    7, 0, 10, 0, 0, 0, 1, 1, 1, 0, 0, 0, 0x01, 0, 0, 0, 0, 0, 0, 0, 0, 0, 0, 0,
    /* IOA 3, type 1, octet 00 */
    7, 0, 3, 0, 0, 0, 1, 0, 0, 0, 0, 0, 0x00, 0, 0, 0, 0, 0, 0, 0, 0, 0, 0, 0,
    /* IOA 5, type 15, octets 2A 00 00 00 03, counter group 1 */
    7, 0, 5, 0, 0, 0, 15, 0, 0, 1, 1, 0, 0x2A, 0, 0, 0, 0x03, 0, 0, 0, 0, 0, 0, 0};

/* Case a and its answer, typed in from the paper. */
static const uint8_t command[] = {0x64, 0x01, 0x06, 0x00, 0x07, 0x00, 0x00, 0x00, 0x00, 0x14};
static const uint8_t expected[] = {
    0x64, 0x01, 0x07, 0x00, 0x07, 0x00, 0x00, 0x00, 0x00, 0x14,
    0x01, 0x02, 0x14, 0x00, 0x07, 0x00, 0x03, 0x00, 0x00, 0x00, 0x0A, 0x00, 0x00, 0x01,
    0x0F, 0x01, 0x14, 0x00, 0x07, 0x00, 0x05, 0x00, 0x00, 0x2A, 0x00, 0x00, 0x00, 0x03,
    0x64, 0x01, 0x0A, 0x00, 0x07, 0x00, 0x00, 0x00, 0x00, 0x14};

static int failures = 0;

/* Says one line, and counts what is not as it should be. */
static void see(const char *what, int holds) {
    printf("%-58s %s\n", what, holds ? "yes" : "NO");
    failures += !holds;
}

int main(void) {
    khuvelter_reply reply = khuvelter_open(table, sizeof table, CAPACITY, plan, 3 * STATIONS);
    see("the table is open", reply.number == KHUVELTER_DONE);

    reply = khuvelter_register_points(table, sizeof table, points, sizeof points);
    see("three points are registered", reply.number == KHUVELTER_DONE);

    /* The memory starts with 47 octets, one too few: nothing is written, and asking again is safe. */
    memset(answer, 0xEE, sizeof answer);
    reply = khuvelter_system_command(table, sizeof table, last_clock, command, sizeof command, answer, 47);
    see("with 47 octets it is number 4, and nothing is written", reply.number == KHUVELTER_ANSWER_SHORT && answer[0] == 0xEE);

    reply = khuvelter_system_command(table, sizeof table, last_clock, command, sizeof command, answer, sizeof answer);
    see("case a is answered in 48 octets", reply.number == KHUVELTER_DONE && reply.octets == 48);
    see("the answer is the paper's", memcmp(answer, expected, sizeof expected) == 0);
    see("memory past the answer is as it was", answer[48] == 0xEE);

    khuvelter_station_share share = khuvelter_share(table, sizeof table, 7);
    see("station 7 holds 3 of 2 to 4, 5 are free, 0 unmet",
        share.number == KHUVELTER_DONE && share.held == 3 && share.reservation == 2 && share.ceiling == 4 && share.free == 5 &&
            share.unmet == 0);
    return failures != 0;
}
