/* The example of c/example.c by rows, and a record: ends with 0 if every answer is as it should be, else with the line that was not. */
#include "mbrumzheg.h"

static uint64_t row[5];

static int is(uint64_t a, uint64_t b, uint64_t c, uint64_t d, uint64_t e) {
    return row[0] == a && row[1] == b && row[2] == c && row[3] == d && row[4] == e;
}

#define EXPECT(test) do { if (!(test)) return __LINE__ % 256; } while (0)

int main(void) {
    static const char profile[] = "ABCD,abs_vol,XYZ,1000,0";
    static const uint8_t offer[MBRUMZHEG_RECORD_BYTES] = {0x40, 0, 0, 0x50, 0, 1, 0x11, 0x70, 0, 0x0C, 0x80, 0};
    uint64_t memory[MBRUMZHEG_SIZE] = {0}, event[9], rule[6];
    uint8_t bytes[MBRUMZHEG_RECORD_BYTES] = {0}, text[MBRUMZHEG_TEXT_BYTES], written[22] = {0};

    mbrumzheg_status(memory, MBRUMZHEG_SIZE, row);
    EXPECT(is(MBRUMZHEG_NOT_ARMED, 0, 0, 0, 0));
    mbrumzheg_arm(memory, MBRUMZHEG_SIZE, (const uint8_t *)profile, sizeof profile - 1, row);
    EXPECT(is(MBRUMZHEG_ACCEPTED, 0, 0x41424344, 1, 1));
    mbrumzheg_root_named(memory, MBRUMZHEG_SIZE, (const uint8_t *)profile + 13, 3, row);
    EXPECT(is(0, 0, 0, 0, 0));
    mbrumzheg_root_name(memory, MBRUMZHEG_SIZE, 0, text, sizeof text, row);
    EXPECT(is(0, 3, 0, 0, 0) && text[0] == 'X' && text[1] == 'Y' && text[2] == 'Z');
    mbrumzheg_rule(memory, MBRUMZHEG_SIZE, 0, rule);
    EXPECT(rule[0] == 0 && rule[1] == MBRUMZHEG_ABS_VOL && rule[2] == 1000 && rule[3] == 0 && rule[4] == 0 && rule[5] == MBRUMZHEG_ALL_UNITS);
    mbrumzheg_profile(memory, MBRUMZHEG_SIZE, written, 21, row);
    EXPECT(is(MBRUMZHEG_NO_ROOM, 22, 0, 0, 0) && written[0] == 0);
    mbrumzheg_profile(memory, MBRUMZHEG_SIZE, written, sizeof written, row);
    EXPECT(is(0, 22, 0, 0, 0) && written[21] == '\n');
    for (int i = 0; i < 21; i++) EXPECT(written[i] == (uint8_t)profile[i]);
    mbrumzheg_offer(memory, MBRUMZHEG_SIZE, 0, 0, MBRUMZHEG_CALLS_FRONT, 70000, 950, row);
    EXPECT(is(0, MBRUMZHEG_FREE, 950, 0, 0));
    mbrumzheg_remaining(memory, MBRUMZHEG_SIZE, 0, 0, MBRUMZHEG_CALLS_FRONT, row);
    EXPECT(is(0, 50, 0, 0, 0));
    mbrumzheg_remaining(memory, MBRUMZHEG_SIZE, 0, 0, MBRUMZHEG_PUTS_TRAILING, row);
    EXPECT(is(0, 1000, 0, 0, 0));
    mbrumzheg_read_record(offer, sizeof offer, event);
    EXPECT(event[0] == 0 && event[1] == MBRUMZHEG_KIND_OFFER && event[2] == 10 && event[5] == 70000 && event[6] == 200);
    mbrumzheg_write_record(event[1], event[2], event[3], event[4], event[5], event[6], event[7], event[8], bytes, sizeof bytes, row);
    EXPECT(is(0, 0, 0, 0, 0));
    for (int i = 0; i < MBRUMZHEG_RECORD_BYTES; i++) EXPECT(bytes[i] == offer[i]);
    mbrumzheg_offer(memory, MBRUMZHEG_SIZE, event[2], event[3], event[4], event[5], event[6], row);
    EXPECT(is(0, MBRUMZHEG_FREE, 50, 1, 0));
    mbrumzheg_order(memory, MBRUMZHEG_SIZE, 20, 0, MBRUMZHEG_RESET_NONE, row);
    EXPECT(is(0, MBRUMZHEG_ROOT_LOCKED, 0, 0, 0));
    mbrumzheg_text(row[1], text, sizeof text, row);
    EXPECT(is(0, 19, 0, 0, 0) && text[0] == 's' && text[18] == 'l');
    mbrumzheg_order(memory, MBRUMZHEG_SIZE, 20, 0, MBRUMZHEG_RESET_T, row);
    EXPECT(is(0, MBRUMZHEG_FREE, 0, 0, 0));
    mbrumzheg_send(memory, MBRUMZHEG_SIZE, 20, 0, MBRUMZHEG_CALLS_FRONT, 70000, 5, 9, 2, row);
    EXPECT(is(0, MBRUMZHEG_FREE, 0, 0, 0));
    mbrumzheg_report(memory, MBRUMZHEG_SIZE, 20, 9, 3, row);
    EXPECT(is(0, MBRUMZHEG_FREE, 3, 1, 0));
    mbrumzheg_close(memory, MBRUMZHEG_SIZE, 20, 9, row);
    EXPECT(is(0, MBRUMZHEG_FREE, 0, 0, 0));
    mbrumzheg_lockout(memory, MBRUMZHEG_SIZE, 20, MBRUMZHEG_LEVEL_FIRM, 0, row);
    EXPECT(is(0, 0, 0, 0, 0));
    mbrumzheg_status(memory, MBRUMZHEG_SIZE, row);
    EXPECT(is(0, 1, 0, 1, 0));
    mbrumzheg_clear(memory, MBRUMZHEG_SIZE, row);
    EXPECT(is(0, 0, 0, 0, 0));
    mbrumzheg_status(memory, MBRUMZHEG_SIZE, row);
    EXPECT(is(MBRUMZHEG_NOT_ARMED, 0, 0, 0, 0));
    return 0;
}
