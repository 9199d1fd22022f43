/* Tries records of both forms, and moving from one to the other, by the functions that answer a struct and by rows: ends with 0 if each answer is as it
 * should be, else with 1 and the line that was not. */
#include <stdio.h>
#include <stdlib.h>
#include <string.h>

#include "mbrumzheg.h"

static void expect(bool holds, int line) {
    if (holds) return;
    fprintf(stderr, "c/records.c:%d is not so\n", line);
    exit(1);
}
#define EXPECT(test) expect((test), __LINE__)

/* An offer of 200 at $7 on root 0 at 10 ms, in the old form, and in the new one as the fields' widths lay it out. */
static const uint8_t old_offer[MBRUMZHEG_RECORD_BYTES] = {0x40, 0, 0, 0x50, 0, 1, 0x11, 0x70, 0, 0x0C, 0x80, 0};
static const uint8_t offer[MBRUMZHEG_RECORD16_BYTES] = {0x10, 0, 0, 0x13, 0x88, 0, 0, 0x11, 0x17, 0, 0, 0xC8, 0, 0, 0, 0};

static bool same(const struct mbrumzheg_event *one, const struct mbrumzheg_event *other) { return memcmp(one, other, sizeof *one) == 0; }

static void old_form(void) {
    const struct mbrumzheg_event order = {MBRUMZHEG_KIND_ORDER, 30, 0, 0, 0, 0, MBRUMZHEG_RESET_NONE, 0, 0, 0, 0};
    const struct mbrumzheg_reading reading = mbrumzheg_try_read_record(old_offer, sizeof old_offer);
    struct mbrumzheg_event event = reading.event;
    struct mbrumzheg_record record = mbrumzheg_try_write_record(event);
    EXPECT(reading.refusal == MBRUMZHEG_ACCEPTED && event.kind == MBRUMZHEG_KIND_OFFER && event.time == 10 && event.contracts == 200);
    EXPECT(record.refusal == MBRUMZHEG_ACCEPTED && memcmp(record.bytes, old_offer, sizeof old_offer) == 0);
    EXPECT(mbrumzheg_try_read_record(old_offer, 11).refusal == MBRUMZHEG_FAULTY_RECORD);
    event.reset = MBRUMZHEG_RESET_SYMBOL;
    EXPECT(mbrumzheg_try_write_record(event).refusal == MBRUMZHEG_FAULTY_RECORD);
    event = order;
    for (event.reset = 0; event.reset < 8; event.reset++)
        EXPECT(mbrumzheg_try_write_record(event).refusal == (event.reset > MBRUMZHEG_RESET_BOTH ? MBRUMZHEG_FAULTY_RECORD : MBRUMZHEG_ACCEPTED));
    event = order;
    event.micros = 1;
    EXPECT(mbrumzheg_try_write_record(event).refusal == MBRUMZHEG_FAULTY_RECORD);
}

/* Every kind is written and read again, its microseconds with it. */
static void new_form(void) {
    const struct mbrumzheg_event events[] = {
        {MBRUMZHEG_KIND_ORDER, 0, 63, 0, 0, 0, MBRUMZHEG_RESET_TE, 0, 0, 0, 1},
        {MBRUMZHEG_KIND_OFFER, MBRUMZHEG_LAST_TIME, 1, MBRUMZHEG_PUTS_TRAILING, MBRUMZHEG_MOST_PREMIUM, MBRUMZHEG_MOST_CONTRACTS, 0, 0, 0, 0, 999},
        {MBRUMZHEG_KIND_LOCKOUT, 7, 5, 0, 0, 0, 0, MBRUMZHEG_LEVEL_ROOT, 0, 0, 0},
        {MBRUMZHEG_KIND_LOCKOUT, 7, 0, 0, 0, 0, 0, MBRUMZHEG_LEVEL_FIRM, 0, 0, 500},
        {MBRUMZHEG_KIND_SEND, 8, 2, MBRUMZHEG_PUTS_FRONT, 70000, 20, 0, 0, MBRUMZHEG_LAST_IDENTITY, MBRUMZHEG_MOST_REPORTS, 250},
        {MBRUMZHEG_KIND_REPORT, 9, 0, 0, 0, 20, 0, 0, 5, 0, 3},
        {MBRUMZHEG_KIND_CLOSE, 10, 0, 0, 0, 0, 0, 0, 0, 0, 4},
    };
    size_t i;
    for (i = 0; i < sizeof events / sizeof events[0]; i++) {
        const struct mbrumzheg_record16 record = mbrumzheg_try_write_record16(events[i]);
        const struct mbrumzheg_reading reading = mbrumzheg_try_read_record16(record.bytes, sizeof record.bytes);
        EXPECT(record.refusal == MBRUMZHEG_ACCEPTED && reading.refusal == MBRUMZHEG_ACCEPTED && same(&reading.event, &events[i]));
        EXPECT(mbrumzheg_try_read_record16(record.bytes, 15).refusal == MBRUMZHEG_FAULTY_RECORD);
    }
}

/* What no record of 16 bytes has. */
static void faulty(void) {
    const struct mbrumzheg_event order = {MBRUMZHEG_KIND_ORDER, MBRUMZHEG_LAST_TIME, 0, 0, 0, 0, 0, 0, 0, 0, 999};
    const struct mbrumzheg_event send = {MBRUMZHEG_KIND_SEND, 8, 2, 0, 70000, 20, 0, 0, 7, 16, 0};
    struct mbrumzheg_event event = order;
    EXPECT(mbrumzheg_try_write_record16(event).refusal == MBRUMZHEG_ACCEPTED);
    event.micros = 1000;
    EXPECT(mbrumzheg_try_write_record16(event).refusal == MBRUMZHEG_FAULTY_RECORD);
    event.micros = 0;
    event.time = MBRUMZHEG_LAST_TIME + 1;
    EXPECT(mbrumzheg_try_write_record16(event).refusal == MBRUMZHEG_FAULTY_RECORD);
    event.time = UINT64_MAX / 1000 + 1; /* a time that wraps around */
    EXPECT(mbrumzheg_try_write_record16(event).refusal == MBRUMZHEG_FAULTY_RECORD);
    event = order;
    event.reset = MBRUMZHEG_RESET_TE + 1;
    EXPECT(mbrumzheg_try_write_record16(event).refusal == MBRUMZHEG_FAULTY_RECORD);
    event = order;
    event.kind = 6;
    EXPECT(mbrumzheg_try_write_record16(event).refusal == MBRUMZHEG_FAULTY_RECORD);
    event = send;
    event.reports = 17;
    EXPECT(mbrumzheg_try_write_record16(event).refusal == MBRUMZHEG_FAULTY_RECORD);
    event.reports = 0;
    EXPECT(mbrumzheg_try_write_record16(event).refusal == MBRUMZHEG_FAULTY_RECORD);
    event.reports = 16;
    EXPECT(mbrumzheg_try_write_record16(event).refusal == MBRUMZHEG_ACCEPTED);
    event.identity = MBRUMZHEG_LAST_IDENTITY + 1;
    EXPECT(mbrumzheg_try_write_record16(event).refusal == MBRUMZHEG_FAULTY_RECORD);
}

/* There and back gives the same bytes; what the old form has no place for stays. */
static void moves(void) {
    const struct mbrumzheg_record16 wide = mbrumzheg_try_widen(old_offer, sizeof old_offer);
    const struct mbrumzheg_record back = mbrumzheg_try_narrow(wide.bytes, sizeof wide.bytes);
    struct mbrumzheg_event event = mbrumzheg_try_read_record16(offer, sizeof offer).event;
    struct mbrumzheg_record16 record;
    EXPECT(wide.refusal == MBRUMZHEG_ACCEPTED && memcmp(wide.bytes, offer, sizeof offer) == 0);
    EXPECT(back.refusal == MBRUMZHEG_ACCEPTED && memcmp(back.bytes, old_offer, sizeof old_offer) == 0);
    EXPECT(mbrumzheg_try_widen(old_offer, 11).refusal == MBRUMZHEG_FAULTY_RECORD && mbrumzheg_try_narrow(offer, 12).refusal == MBRUMZHEG_FAULTY_RECORD);
    event.micros = 1;
    record = mbrumzheg_try_write_record16(event);
    EXPECT(mbrumzheg_try_narrow(record.bytes, sizeof record.bytes).refusal == MBRUMZHEG_UNFIT);
    memset(&event, 0, sizeof event);
    for (event.reset = 0; event.reset <= MBRUMZHEG_RESET_TE; event.reset++) {
        record = mbrumzheg_try_write_record16(event);
        EXPECT(mbrumzheg_try_narrow(record.bytes, sizeof record.bytes).refusal == (event.reset > 3 ? MBRUMZHEG_UNFIT : MBRUMZHEG_ACCEPTED));
    }
    memset(&event, 0, sizeof event);
    event.kind = MBRUMZHEG_KIND_CLOSE;
    record = mbrumzheg_try_write_record16(event);
    EXPECT(mbrumzheg_try_narrow(record.bytes, sizeof record.bytes).refusal == MBRUMZHEG_UNFIT);
    EXPECT(strncmp(mbrumzheg_refusal_text(MBRUMZHEG_UNFIT), "the record does not fit the old form", 36) == 0);
}

/* The same by rows: the places, what lies beyond a record, and rooms that are short. */
static void rows(void) {
    uint64_t row[MBRUMZHEG_ROW], event[MBRUMZHEG_EVENT16_ROW];
    uint8_t room[18] = {9, 9, 9, 9, 9, 9, 9, 9, 9, 9, 9, 9, 9, 9, 9, 9, 9, 9}, before[18];
    memcpy(before, room, sizeof room);
    mbrumzheg_read_record16(offer, sizeof offer, event);
    EXPECT(event[MBRUMZHEG_ROW_REFUSAL] == 0 && event[MBRUMZHEG_ROW_KIND] == 1 && event[MBRUMZHEG_ROW_TIME] == 10000);
    EXPECT(event[MBRUMZHEG_ROW_CONTRACTS] == 200 && event[MBRUMZHEG_ROW_IDENTITY] == 0 && event[MBRUMZHEG_ROW_REPORTS] == 0 && event[11] + event[12] == 0);
    mbrumzheg_write_record16(4, MBRUMZHEG_LAST_STAMP, 0, 0, 0, 7, 0, 0, 65535, 0, room, 15, row);
    EXPECT(row[0] == MBRUMZHEG_NO_ROOM && memcmp(room, before, sizeof room) == 0);
    mbrumzheg_write_record16(4, MBRUMZHEG_LAST_STAMP + 1, 0, 0, 0, 7, 0, 0, 65535, 0, room, 15, row);
    EXPECT(row[0] == MBRUMZHEG_FAULTY_RECORD);
    mbrumzheg_write_record16(4, MBRUMZHEG_LAST_STAMP, 0, 0, 0, 7, 0, 0, 65535, 0, room, sizeof room, row);
    EXPECT(row[0] == 0 && room[0] >> 4 == 4 && room[16] == 9 && room[17] == 9);
    mbrumzheg_read_record16(room, 16, event);
    EXPECT(event[0] == 0 && event[MBRUMZHEG_ROW_TIME] == MBRUMZHEG_LAST_STAMP && event[MBRUMZHEG_ROW_IDENTITY] == 65535);
    mbrumzheg_narrow(room, 16, room + 16, 2, row); /* 20 comes before 1 */
    EXPECT(row[0] == MBRUMZHEG_UNFIT && room[16] == 9);
    memcpy(room, before, sizeof room);
    mbrumzheg_narrow(offer, sizeof offer, room, 11, row);
    EXPECT(row[0] == MBRUMZHEG_NO_ROOM && memcmp(room, before, sizeof room) == 0);
    mbrumzheg_widen(old_offer, sizeof old_offer, room, 15, row);
    EXPECT(row[0] == MBRUMZHEG_NO_ROOM && memcmp(room, before, sizeof room) == 0);
    mbrumzheg_narrow(offer, sizeof offer, room, sizeof room, row);
    EXPECT(row[0] == 0 && memcmp(room, old_offer, sizeof old_offer) == 0 && room[12] == 9);
    mbrumzheg_widen(old_offer, sizeof old_offer, room, sizeof room, row);
    EXPECT(row[0] == 0 && memcmp(room, offer, sizeof offer) == 0 && room[16] == 9);
}

/* A record's milliseconds are what its call goes by: 1,999 us and then 1,001 us is one millisecond. */
static void at_a_millisecond(void) {
    static uint64_t memory[MBRUMZHEG_SIZE];
    const struct mbrumzheg_event late = {MBRUMZHEG_KIND_ORDER, 1, 0, 0, 0, 0, 0, 0, 0, 0, 999};
    const struct mbrumzheg_event early = {MBRUMZHEG_KIND_ORDER, 1, 0, 0, 0, 0, 0, 0, 0, 0, 1};
    EXPECT(mbrumzheg_try_arm(memory, MBRUMZHEG_SIZE, "ABCD,abs_vol,XYZ,1000", 21).refusal == MBRUMZHEG_ACCEPTED);
    EXPECT(mbrumzheg_passes(mbrumzheg_try_event(memory, MBRUMZHEG_SIZE, late)) && mbrumzheg_passes(mbrumzheg_try_event(memory, MBRUMZHEG_SIZE, early)));
}

int main(void) {
    old_form();
    new_form();
    faulty();
    moves();
    rows();
    at_a_millisecond();
    return 0;
}
