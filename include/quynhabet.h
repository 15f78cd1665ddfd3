/*
 * quynhabet: one station that hands run passes to others by records, for C and C++.
 *
 * The functions are proved in Rattle and come as the archive libquynhabet.a, for x86-64.
 * Beside them it needs only memcpy and memset, which the C library has. A call takes at most 10 KiB
 * of stack.
 * docs/FROM-C-AND-RUST.md has all of this at length.
 *
 * WHAT THE TRANSPORT OWES. A record arrives whole and unaltered, or not at all. A record has no
 * check sum, and nothing here can see that one was changed or cut short: such bytes may be taken
 * as another record, and then passes are made out of nothing or are gone. Use a transport that
 * checks and hands over whole messages; where stations may be hostile, one that authenticates.
 * A network that repeats, drops, delays and reorders whole records is what it is made for.
 *
 * SAVING. A station's numbers are saved before any record or drawn pass leaves it, and an older
 * save is never loaded again: the rule in full is in docs/FROM-C-AND-RUST.md.
 *
 * WHAT IS PROVED. Each function tells and leaves exactly what its definition says, for any numbers
 * and any bytes. That no pass is lost or doubled is proved of whole runs of a table of stations;
 * for stations that are linked by records, as here, no theorem says it yet.
 *
 * WHAT A STATION DOES. It evens out: the one with less asks for half of the difference. No call
 * moves a chosen amount, and 1 against 0 stays. A draw takes all that is asked or nothing. The
 * intake limit is for life. At a clock's end slots are opened, or tokens made, no more; the answer
 * is still 0.
 *
 * THE LAYOUT, version 1. A station is 134 numbers of 64 bits:
 *
 *     0          its number
 *     1          the count of stations, 2 to 16
 *     2          its value, at most 16,000,000,000
 *     3          its intake, all it ever added, at most 1,000,000,000
 *     4          its source clock, at most 4,294,967,295
 *     5          its destination clock, at most 4,294,967,295
 *     6 to 69    its slots for peers 0 to 15, four numbers each
 *     70 to 133  its tokens for peers 0 to 15, four numbers each
 *
 * A slot or token is: present (0 or 1), source clock, destination clock, quantity.
 * What is not held is four zeros.
 *
 * A message is 13 numbers: from, to, value, source clock, destination clock, slot (4), token (4).
 *
 * A number too wide for its field, or not 0 in what is not held, is not sound:
 * answer 1 for a station, 9 for a message.
 *
 * Later versions add numbers to a station. Keep QB_LAYOUT_VERSION in front of what is saved,
 * and load only numbers of the version that the program was built with.
 *
 * ON THE WAY. To audit a lab, add up all values and the passes on the way: those of a token of
 * station i for station j, as long as station j has a slot for station i with the same two clocks.
 * A stored token that fits no such slot counts for nothing.
 *
 * WHAT THE CALLER OWES. Any numbers and any bytes may be given: they are used, or refused by a
 * numbered answer that changes nothing lent. Not tested, and owed by the caller:
 *   - Pointers that are valid, not null (not even with a length of 0), and aligned for their type.
 *   - Arrays of 134 and 13 numbers that are really that long, and set: zeros will do for those
 *     that qb_station_fresh and qb_record_read fill, which a refusal leaves as they were.
 *   - Lengths that are true: record_len bytes can be read, out_len bytes can be written.
 *   - Buffers of one call that do not overlap.
 *   - No other thread that uses a buffer of the call while it runs.
 * The functions keep no state of their own and take no memory: different stations can be used from
 * different threads.
 */
#ifndef QUYNHABET_H
#define QUYNHABET_H

#include <stddef.h>
#include <stdint.h>

#ifdef __cplusplus
extern "C" {
#endif

#define QB_LAYOUT_VERSION 1

/* Sizes: numbers of a station, numbers of a message, bytes of the longest record. */
#define QB_STATION_NUMBERS 134
#define QB_MESSAGE_NUMBERS 13
#define QB_RECORD_MAX 68

/* Places in a station. A slot or token starts at its place, for a peer of 0 to 15. */
#define QB_STATION_NUMBER 0
#define QB_STATION_COUNT 1
#define QB_STATION_VALUE 2
#define QB_STATION_INTAKE 3
#define QB_STATION_SOURCE_CLOCK 4
#define QB_STATION_DESTINATION_CLOCK 5
#define QB_STATION_SLOT(peer) (6 + 4 * (peer))
#define QB_STATION_TOKEN(peer) (70 + 4 * (peer))

/* Places in a message. */
#define QB_MESSAGE_FROM 0
#define QB_MESSAGE_TO 1
#define QB_MESSAGE_VALUE 2
#define QB_MESSAGE_SOURCE_CLOCK 3
#define QB_MESSAGE_DESTINATION_CLOCK 4
#define QB_MESSAGE_SLOT 5
#define QB_MESSAGE_TOKEN 9

/* Places in a slot or token, counted from its start. */
#define QB_PRESENT 0
#define QB_SOURCE_CLOCK 1
#define QB_DESTINATION_CLOCK 2
#define QB_QUANTITY 3

/* The limits. */
#define QB_LEAST_STATIONS 2                  /* stations of a table */
#define QB_MOST_STATIONS 16                  /* stations of a table */
#define QB_MOST_AMOUNT UINT64_C(1000000000)  /* an amount, which is at least 1 */
#define QB_MOST_INTAKE UINT64_C(1000000000)  /* an intake, all that was ever added */
#define QB_MOST_VALUE UINT64_C(16000000000)  /* a value or a quantity */
#define QB_LAST_CLOCK UINT64_C(4294967295)   /* a clock at its end */

/* The answers. Nothing here gives those of a table or a script. */
#define QB_DONE 0             /* done */
#define QB_NOT_SOUND 1        /* the station lent is not sound, or a count is not 2 to 16 */
#define QB_NOT_BELOW_COUNT 2  /* a station number, or a record's from or to, not below the count */
#define QB_SAME_STATION 3     /* sender and receiver are the same */
#define QB_BAD_AMOUNT 4       /* an amount is 0 or above 1,000,000,000 */
#define QB_INTAKE_LIMIT 5     /* the intake would pass its limit */
#define QB_POOL_FULL 6        /* of a table: all 64 places are taken */
#define QB_NO_SUCH_PLACE 7    /* of a table: a place number is above 63 */
#define QB_EMPTY_PLACE 8      /* of a table: a place is empty */
#define QB_NO_RECORD 9        /* bytes are no record, or a message is not sound */
#define QB_VALUE_LIMIT 10     /* an add, or a fill by rule 1, would pass a value's limit */
#define QB_FOR_ANOTHER 11     /* a received record is for another station */
#define QB_BAD_LINE 12        /* of a script: a line can't be read */
#define QB_LONG_SCRIPT 13     /* of a script: it is longer than 65,536 bytes */
#define QB_SHORT_BUFFER 14    /* the output buffer is shorter than the record */
#define QB_TOO_FEW 15         /* fewer passes can be drawn than asked */

/* The rules of receiving, as they stand in `rules`. */
#define QB_RULE_FILL 1
#define QB_RULE_DROP_SLOT 2
#define QB_RULE_OPEN_SLOT 4
#define QB_RULE_DROP_TOKEN 8
#define QB_RULE_MAKE_TOKEN 16

/*
 * What a call tells. A refusal has an answer that is not 0 and all else 0; it changes nothing lent.
 * Only receiving has rules, the sum of those that acted, and the quantities of a slot opened and
 * of a token made.
 */
typedef struct {
    uint64_t answer, result, rules, opened, made;
} qb_told;

/* Makes a fresh station, every value and clock 0. Result 0. Refusals, in order: 1, 2. */
qb_told qb_station_fresh(uint64_t number, uint64_t count, uint64_t station[QB_STATION_NUMBERS]);

/* Tests whether the numbers are a sound station. Result 0. Refusal: 1. */
qb_told qb_station_check(const uint64_t station[QB_STATION_NUMBERS]);

/* Adds passes. Result: the new value. Refusals, in order: 1, 4, 5, 10. */
qb_told qb_station_add(uint64_t station[QB_STATION_NUMBERS], uint64_t amount);

/* Draws passes, all that are asked or none. Result: the amount. Refusals, in order: 1, 4, 15. */
qb_told qb_station_draw(uint64_t station[QB_STATION_NUMBERS], uint64_t amount);

/* Writes the record for station `to`. Result: its length; bytes past it stay.
 * Refusals, in order: 1, 2, 3, 14. */
qb_told qb_station_write(const uint64_t station[QB_STATION_NUMBERS], uint64_t to, uint8_t *out,
                         size_t out_len);

/* Takes a record by the five rules. Result: the amount filled, or 0.
 * Refusals, in order: 1, 9, 2, 11, 10. */
qb_told qb_station_receive(uint64_t station[QB_STATION_NUMBERS], const uint8_t *record,
                           size_t record_len);

/* Reads a record as a message. Result: the record's length. Refusal: 9. */
qb_told qb_record_read(const uint8_t *record, size_t record_len,
                       uint64_t message[QB_MESSAGE_NUMBERS]);

/* Writes a message as a record. Result: its length; bytes past it stay.
 * Refusals, in order: 9, 14. */
qb_told qb_record_write(const uint64_t message[QB_MESSAGE_NUMBERS], uint8_t *out,
                        size_t out_len);

#ifdef __cplusplus
}
#endif

#endif
