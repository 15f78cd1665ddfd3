/*
 * Two stations exchange records: station 0 adds 10 passes and hands 5 of them to station 1.
 * Each station is loaded before a call and saved after it, before anything leaves it.
 * Every answer and result is checked; the first surprise ends the program with exit status 1.
 */
#include <inttypes.h>
#include <stdio.h>
#include <stdlib.h>
#include <string.h>

#include "quynhabet.h"

_Static_assert(sizeof(qb_told) == 40, "five numbers of 64 bits");

/* What stands for the disk: for each station the layout version, then its numbers. */
static uint64_t disk[2][1 + QB_STATION_NUMBERS];

static uint8_t record[QB_RECORD_MAX];
static size_t record_len;

static void surprise(const char *what) {
    fprintf(stderr, "surprise: %s\n", what);
    exit(1);
}

static void save(const uint64_t station[QB_STATION_NUMBERS]) {
    uint64_t *place = disk[station[QB_STATION_NUMBER]];
    place[0] = QB_LAYOUT_VERSION;
    memcpy(place + 1, station, QB_STATION_NUMBERS * sizeof(uint64_t));
}

static void load(uint64_t number, uint64_t station[QB_STATION_NUMBERS]) {
    if (disk[number][0] != QB_LAYOUT_VERSION) surprise("a save of another layout version");
    memcpy(station, disk[number] + 1, QB_STATION_NUMBERS * sizeof(uint64_t));
}

/* Prints what was told, and ends the program where it is not what was wanted. */
static void check(const char *what, qb_told told, qb_told wanted) {
    printf("%-34s answer %2" PRIu64 "  result %2" PRIu64, what, told.answer, told.result);
    if (told.rules & QB_RULE_FILL) printf("  filled");
    if (told.rules & QB_RULE_DROP_SLOT) printf("  slot dropped");
    if (told.rules & QB_RULE_OPEN_SLOT) printf("  slot of %" PRIu64 " opened", told.opened);
    if (told.rules & QB_RULE_DROP_TOKEN) printf("  token dropped");
    if (told.rules & QB_RULE_MAKE_TOKEN) printf("  token of %" PRIu64 " made", told.made);
    printf("\n");
    if (memcmp(&told, &wanted, sizeof told) != 0) surprise(what);
}

static void fresh(const char *what, uint64_t number) {
    uint64_t station[QB_STATION_NUMBERS] = {0};
    check(what, qb_station_fresh(number, 2, station), (qb_told){0});
    save(station);
}

static void add(const char *what, uint64_t number, uint64_t amount, qb_told wanted) {
    uint64_t station[QB_STATION_NUMBERS];
    load(number, station);
    check(what, qb_station_add(station, amount), wanted);
    save(station);
}

static void draw(const char *what, uint64_t number, uint64_t amount, qb_told wanted) {
    uint64_t station[QB_STATION_NUMBERS];
    load(number, station);
    check(what, qb_station_draw(station, amount), wanted);
    save(station); /* before the passes are used */
}

/* What is written is what the saved state shows, so the record may leave at once. */
static void send_record(const char *what, uint64_t number, uint64_t to, qb_told wanted) {
    uint64_t station[QB_STATION_NUMBERS];
    load(number, station);
    check(what, qb_station_write(station, to, record, sizeof record), wanted);
    record_len = (size_t)wanted.result;
}

static void receive_record(const char *what, uint64_t number, qb_told wanted) {
    uint64_t station[QB_STATION_NUMBERS];
    load(number, station);
    check(what, qb_station_receive(station, record, record_len), wanted);
    save(station); /* before the next record leaves */
}

/* The first record, byte by byte: station 0 with value 10 and fresh clocks, to station 1. */
static void check_first_record(void) {
    static const uint8_t wanted[30] = {1, 0, 1, 0, 2, 0, 1, 1, 3, 0, 8,
                                       0, 0, 0, 0, 0, 0, 0, 10, 4, 0, 8};
    uint64_t message[QB_MESSAGE_NUMBERS] = {0};
    uint8_t again[QB_RECORD_MAX];
    if (record_len != sizeof wanted) surprise("the first record's length");
    if (memcmp(record, wanted, sizeof wanted) != 0) surprise("the first record's bytes");
    check("read that record", qb_record_read(record, record_len, message), (qb_told){.result = 30});
    if (message[QB_MESSAGE_TO] != 1 || message[QB_MESSAGE_VALUE] != 10)
        surprise("the message read");
    check("write that message again", qb_record_write(message, again, sizeof again),
          (qb_told){.result = 30});
    if (memcmp(again, wanted, sizeof wanted) != 0) surprise("the message written again");
}

static void refused(const char *what, qb_told told, uint64_t answer) {
    check(what, told, (qb_told){.answer = answer});
}

/* Refusals change nothing: not the station, not the buffer. */
static void check_refusals(void) {
    static const uint8_t untouched[29] = {0};
    uint64_t s[QB_STATION_NUMBERS], before[QB_STATION_NUMBERS];
    uint8_t out[29] = {0};
    size_t room = sizeof out;
    load(0, s);
    load(0, before);
    refused("0 writes a record for itself", qb_station_write(s, 0, out, room), QB_SAME_STATION);
    refused("0 writes for a station 2", qb_station_write(s, 2, out, room), QB_NOT_BELOW_COUNT);
    refused("0 writes for 1 into 29 bytes", qb_station_write(s, 1, out, room), QB_SHORT_BUFFER);
    refused("0 adds no passes", qb_station_add(s, 0), QB_BAD_AMOUNT);
    refused("0 adds a billion", qb_station_add(s, QB_MOST_AMOUNT), QB_INTAKE_LIMIT);
    refused("0 draws no passes", qb_station_draw(s, 0), QB_BAD_AMOUNT);
    refused("0 draws a billion", qb_station_draw(s, QB_MOST_AMOUNT), QB_TOO_FEW);
    refused("0 receives what is for 1", qb_station_receive(s, record, record_len), QB_FOR_ANOTHER);
    refused("0 receives it with a byte missing", qb_station_receive(s, record, record_len - 1),
            QB_NO_RECORD);
    if (memcmp(s, before, sizeof s) != 0) surprise("a refusal changed the station");
    if (memcmp(out, untouched, sizeof out) != 0) surprise("a refusal changed the buffer");
    check("0 is checked, and is sound", qb_station_check(s), (qb_told){0});
    s[QB_STATION_COUNT] = QB_MOST_STATIONS + 1;
    refused("0 is checked with a count of 17", qb_station_check(s), QB_NOT_SOUND);
    refused("a station that is not sound draws", qb_station_draw(s, 1), QB_NOT_SOUND);
}

static void check_station(uint64_t number, uint64_t value, uint64_t source, uint64_t destination) {
    uint64_t s[QB_STATION_NUMBERS];
    load(number, s);
    printf("station %" PRIu64 " value %" PRIu64, number, s[QB_STATION_VALUE]);
    printf(" source %" PRIu64, s[QB_STATION_SOURCE_CLOCK]);
    printf(" destination %" PRIu64 "\n", s[QB_STATION_DESTINATION_CLOCK]);
    if (s[QB_STATION_VALUE] != value) surprise("the value");
    if (s[QB_STATION_SOURCE_CLOCK] != source) surprise("the source clock");
    if (s[QB_STATION_DESTINATION_CLOCK] != destination) surprise("the destination clock");
}

/* Station 1 has filled its slot for 0. Station 0 still stores its token for 1, with clocks 0, 0. */
static void check_held(void) {
    static const uint64_t nothing[4] = {0}, token[4] = {1, 0, 0, 5};
    uint64_t s[QB_STATION_NUMBERS];
    load(1, s);
    if (memcmp(s + QB_STATION_SLOT(0), nothing, sizeof nothing) != 0) surprise("the slot for 0");
    load(0, s);
    if (memcmp(s + QB_STATION_TOKEN(1), token, sizeof token) != 0) surprise("the token for 1");
}

int main(void) {
    fresh("station 0 is made", 0);
    fresh("station 1 is made", 1);
    add("0 adds 10", 0, 10, (qb_told){.result = 10});
    send_record("0 writes a record for 1", 0, 1, (qb_told){.result = 30});
    check_first_record();
    receive_record("1 receives it", 1, (qb_told){.rules = QB_RULE_OPEN_SLOT, .opened = 5});
    send_record("1 writes a record for 0", 1, 0, (qb_told){.result = 49});
    receive_record("0 receives it", 0, (qb_told){.rules = QB_RULE_MAKE_TOKEN, .made = 5});
    receive_record("0 receives it again", 0, (qb_told){0});
    draw("0 draws 7, more than is there", 0, 7, (qb_told){.answer = QB_TOO_FEW});
    draw("0 draws 3", 0, 3, (qb_told){.result = 3});
    send_record("0 writes a record for 1", 0, 1, (qb_told){.result = 49});
    receive_record("1 receives it", 1, (qb_told){.result = 5, .rules = QB_RULE_FILL});
    receive_record("1 receives it again", 1, (qb_told){0});
    check_refusals();
    check_station(0, 2, 1, 0);
    check_station(1, 5, 0, 1);
    check_held();
    printf("10 added, 3 drawn, 2 at station 0 and 5 at station 1: nothing lost, nothing doubled\n");
    return 0;
}
