/* Khuvelter: the proved point table and command answers of an IEC 60870-5-104 gateway, for C and C++.
 *
 * Link libkhuvelter.a (x86-64; `rust/library` writes it to target/staticlib/); it needs memcpy and memset, nothing else.
 * The library keeps nothing between calls: it allocates nothing, and all it knows lies in the memory that you lend it.
 *
 * What is proved of every function here (crates/khuvelter): for any octets, any lengths and any table it gives an answer and ends;
 * a number other than 0 reports no octets and has changed no memory; with 0, memory past the reported octets is as it was.
 *
 * What the proof takes for granted, and you must see to:
 *   - a pointer and its length name memory that is yours for the whole call; a length of 0 goes with any pointer that is not NULL;
 *   - a memory that a call may write (no const) overlaps no other memory of the same call;
 *   - a spontaneous memory has less than 4 GiB, and a batch less than 2^32 points: the reply's numbers have 32 bits;
 *   - two calls that run at the same time do not share a table that either of them may write. Take a lock for each table.
 *
 * Words: K is the capacity in points. CA is a station's common address, 1 to 65,534; 65,535 in a command means every station. IOA is
 * the address of a point in its station, 0 to 16,777,215. A station has a reservation and a ceiling; held is how many points it has.
 * Free is K minus all held; unmet is what stations below their reservation still have to come. Numbers lie low octet first.
 */
#ifndef KHUVELTER_H
#define KHUVELTER_H

#include <stddef.h>
#include <stdint.h>

#ifdef __cplusplus
extern "C" {
#endif

/* ---- numbers given back */

enum {
    /* Done. */
    KHUVELTER_DONE = 0,
    /* Silent: nothing is said, nothing changes. Send nothing. */
    KHUVELTER_SILENT = 1,
    /* ASDU malformed: its length is below 6, above 249 or not what its type and count ask for, or its sequence flag is set. */
    KHUVELTER_MALFORMED = 2,
    /* Table not well formed: the memory does not hold a table, or no longer. */
    KHUVELTER_TABLE_NOT_WELL_FORMED = 3,
    /* Answer memory shorter than the answer: lend more and ask again, nothing was changed. */
    KHUVELTER_ANSWER_SHORT = 4,
    /* Spontaneous memory shorter than what goes in it: lend more and ask again, nothing was changed. */
    KHUVELTER_SPONTANEOUS_SHORT = 5,
    /* Bad proposal: its type is no process type, or its reply octets are over 243 or not whole objects. */
    KHUVELTER_BAD_PROPOSAL = 6,
    /* Invalid plan or K, or table memory below 48 x K + 8 x stations + 64 octets. */
    KHUVELTER_INVALID_PLAN = 10,
    /* Unknown point type, or IOA too large. */
    KHUVELTER_UNKNOWN_TYPE_OR_ADDRESS = 11,
    /* CA not in the plan. */
    KHUVELTER_STATION_NOT_PLANNED = 12,
    /* Interrogation group not 1 to 16. */
    KHUVELTER_GROUP_OUT_OF_RANGE = 13,
    /* Counter group not 1 to 4. */
    KHUVELTER_COUNTER_GROUP_OUT_OF_RANGE = 14,
    /* Counter group on a point that is no counter. */
    KHUVELTER_NOT_COUNTER = 15,
    /* Address stands earlier in the batch. */
    KHUVELTER_ADDRESS_TWICE = 16,
    /* Already registered. */
    KHUVELTER_ALREADY_REGISTERED = 17,
    /* Not registered (removal). */
    KHUVELTER_NOT_REGISTERED = 18,
    /* Ceiling: the station holds as many points as its ceiling allows. */
    KHUVELTER_CEILING_REACHED = 19,
    /* Below its ceiling, not admitted: what is free is kept for stations below their reservation. */
    KHUVELTER_NOT_ADMITTED = 20
};

/* ---- sizes of memory */

/* Octets of a table of `capacity` points under a plan of `stations` stations. */
#define KHUVELTER_TABLE_OCTETS(capacity, stations) (48 * (size_t)(capacity) + 8 * (size_t)(stations) + 64)

/* Octets of the record of one point. */
#define KHUVELTER_RECORD_OCTETS 24

/* Octets of one update of a proposal. */
#define KHUVELTER_UPDATE_OCTETS 18

/* Octets of the last master clock: seven of time, then 1 if it is known, else 0. A fresh one is eight zeros. */
#define KHUVELTER_CLOCK_OCTETS 8

/* Octets of the longest ASDU: 253 less 4 control octets. */
#define KHUVELTER_ASDU_OCTETS 249

/* Octets of the answer to the start of a connection. */
#define KHUVELTER_START_OCTETS 10

/* Answer memory with which no system command to a table of `capacity` points gives number 4. A point takes at most 21 octets (header 6,
 * address 3, element 12), confirmation and termination 10 each; a read of 81 addresses is confirmed in 249 and answered in 81 x 21. */
#define KHUVELTER_SYSTEM_ANSWER_OCTETS(capacity) \
    (21 * (size_t)(capacity) + 20 > 1950 ? 21 * (size_t)(capacity) + 20 : (size_t)1950)

/* Answer memory with which no process command gives number 4. */
#define KHUVELTER_PROCESS_ANSWER_OCTETS KHUVELTER_ASDU_OCTETS

/* Spontaneous memory with which no proposal of `updates` updates gives number 5. */
#define KHUVELTER_SPONTANEOUS_OCTETS(updates) (21 * (size_t)(updates))

/* ---- what calls give back */

/* What every call but khuvelter_share gives back. */
typedef struct khuvelter_reply {
    /* One of the numbers above. */
    uint32_t number;
    /* The faulty point of a refused batch, counted from 0; the number of points removed by khuvelter_unregister_all; else 0. */
    uint32_t place;
    /* Octets written to the answer memory, 0 unless the number is 0: whole ASDUs, one after another. */
    uint32_t octets;
    /* Octets written to the spontaneous memory, 0 unless the number is 0: whole ASDUs, one after another. */
    uint32_t spontaneous;
} khuvelter_reply;

/* A station's share, all 0 but for the number where that is not 0. */
typedef struct khuvelter_station_share {
    /* 0, 3 or 12. */
    uint32_t number;
    /* The points that the station has paid for. */
    uint32_t reservation;
    /* The most points that it may hold. */
    uint32_t ceiling;
    /* The points that it holds. */
    uint32_t held;
    /* Free room in the whole table: K minus all held. */
    uint32_t free;
    /* Unmet in the whole table: the sum of reservation minus held over stations below their reservation. */
    uint32_t unmet;
} khuvelter_station_share;

/* ---- the table */

/* Opens a fresh table of `capacity` points (1 to 4,096) under a plan: for each of 1 to 64 stations CA, reservation and ceiling, CA
 * strictly ascending; `plan_length` counts these numbers, three for each station. Gives 10 or 0; 10 leaves what was in the memory. */
khuvelter_reply khuvelter_open(uint8_t *table, size_t table_octets, uint32_t capacity, const uint16_t *plan, size_t plan_length);

/* Registers one point, given as a record of 24 octets:
 *   0 CA, 2 octets; 2 IOA, 4 octets; 6 type; 7 has an interrogation group (0 no, else yes); 8 that group, 1 to 16;
 *   9 has a counter group (0 no, else yes); 10 that group, 1 to 4, types 15 and 37 only; 11 spare; 12 value, 12 octets.
 * Octets of the value past the type's element are ignored and kept as zero. Gives 3, then 11 to 15 and 17, then 19 or 20, or 0. */
khuvelter_reply khuvelter_register_point(uint8_t *table, size_t table_octets, const uint8_t record[KHUVELTER_RECORD_OCTETS]);

/* Registers a batch of records of 24 octets, all or none; octets after the last whole record are ignored. Gives 3, then for each point
 * 11 to 17, then 19 or 20 as if they were registered one by one, with the place of the first faulty point; or 0. */
khuvelter_reply khuvelter_register_points(uint8_t *table, size_t table_octets, const uint8_t *records, size_t records_octets);

/* Removes one point and frees its room. Gives 3, then 18, or 0. */
khuvelter_reply khuvelter_unregister_point(uint8_t *table, size_t table_octets, uint16_t ca, uint32_t ioa);

/* Removes all points and keeps the plan. Gives 3, or 0 with the number of points removed as the place. */
khuvelter_reply khuvelter_unregister_all(uint8_t *table, size_t table_octets);

/* Tells the share of a station, and what is free and unmet in the table. Gives 3, then 12, or 0. */
khuvelter_station_share khuvelter_share(const uint8_t *table, size_t table_octets, uint16_t ca);

/* ---- commands */

/* Says what goes to a connection when it has started: one ASDU, end of initialisation. Gives 3, then 4, or 0. */
khuvelter_reply khuvelter_connection_started(const uint8_t *table, size_t table_octets, uint8_t *answer, size_t answer_octets);

/* Answers a system command, types 100 to 105 and 107: interrogation, counters, read, clock, tests, reset process. The clock is eight
 * octets of your own, one for each table, changed by a clock command only. Gives 3, 2, 1 or 4, or 0. */
khuvelter_reply khuvelter_system_command(uint8_t *table, size_t table_octets, uint8_t clock[KHUVELTER_CLOCK_OCTETS],
                                         const uint8_t *asdu, size_t asdu_octets, uint8_t *answer, size_t answer_octets);

/* Answers a process command, types 45 to 51 and 58 to 64, as you propose: `negative` (0 no, else yes), the type and the objects of the
 * reply (usually the command's own), and updates of 18 octets each: 0 CA, 2 octets; 2 IOA, 3 octets; 5 type; 6 value, 12 octets; octets
 * after the last whole update are ignored. Unless negative, updates of a known address and its type are stored in order, each told as an
 * ASDU with cause 3 in the spontaneous memory, which goes to every connection; the answer goes to the one that asked.
 * Gives 3, 2, 1, 6, 5 or 4, or 0. */
khuvelter_reply khuvelter_process_command(uint8_t *table, size_t table_octets, const uint8_t *asdu, size_t asdu_octets, uint8_t negative,
                                          uint8_t reply_type, const uint8_t *reply, size_t reply_octets, const uint8_t *updates,
                                          size_t updates_octets, uint8_t *answer, size_t answer_octets, uint8_t *spontaneous,
                                          size_t spontaneous_octets);

#ifdef __cplusplus
}
#endif

#endif
