/* Tries every call of mbrumzheg.h but sendings, reports and closings (c/away.c), records (c/records.c) and those that keep an account (c/account.c), by the
 * functions that answer a struct and by its row: ends with 0 if each answer is as it should be, else with 1 and the line that was not. */
#include <stdio.h>
#include <stdlib.h>
#include <string.h>

#include "mbrumzheg.h"

static void expect(bool holds, int line) {
    if (holds) return;
    fprintf(stderr, "c/answers.c:%d is not so\n", line);
    exit(1);
}
#define EXPECT(test) expect((test), __LINE__)

static uint64_t memory[MBRUMZHEG_SIZE];

/* An order, a lockout or an offer was answered so. */
static bool is(struct mbrumzheg_judged judged, int refusal, int verdict, uint64_t grant, bool root_trip, bool firm_trip) {
    return (int)judged.refusal == refusal && (int)judged.verdict == verdict && judged.grant == grant && judged.root_trip == root_trip &&
           judged.firm_trip == firm_trip;
}

static struct mbrumzheg_judged offer(uint64_t time, uint64_t contracts) {
    return mbrumzheg_try_offer(memory, MBRUMZHEG_SIZE, time, 0, MBRUMZHEG_CALLS_FRONT, 70000, contracts);
}

static struct mbrumzheg_armed arm(const char *profile) { return mbrumzheg_try_arm(memory, MBRUMZHEG_SIZE, profile, strlen(profile)); }

static void arms(void) {
    char name[9];
    struct mbrumzheg_armed armed = arm("ABCD,abs_vol,XYZ,1000\nABCD,abs_vol,XYZ,0\n");
    EXPECT(armed.refusal == MBRUMZHEG_OUT_OF_RANGE && armed.line == 2 && armed.firm == 0 && armed.rules == 0 && armed.roots == 0);
    armed = arm("ABCD,abs_vol,XYZ,1000,0\nABCD,abs_vol,Q,5\n");
    EXPECT(armed.refusal == MBRUMZHEG_ACCEPTED && armed.line == 0 && armed.rules == 2 && armed.roots == 2);
    EXPECT(mbrumzheg_name_text(armed.firm, name) == 4 && strcmp(name, "ABCD") == 0);
    EXPECT(arm("ABCD,abs_vol,XYZ,1000").refusal == MBRUMZHEG_ARMED_ALREADY);
}

static void cuts_and_locks(void) {
    struct mbrumzheg_remains remains;
    struct mbrumzheg_standing standing;
    EXPECT(is(offer(0, 950), 0, MBRUMZHEG_FREE, 950, false, false));
    remains = mbrumzheg_try_remaining(memory, MBRUMZHEG_SIZE, 0, 0, MBRUMZHEG_CALLS_FRONT);
    EXPECT(remains.refusal == MBRUMZHEG_ACCEPTED && remains.amount == 50);
    EXPECT(mbrumzheg_try_remaining(memory, MBRUMZHEG_SIZE, 0, 2, 0).refusal == MBRUMZHEG_UNKNOWN);
    EXPECT(is(offer(10, 200), 0, MBRUMZHEG_FREE, 50, true, false));
    EXPECT(is(mbrumzheg_try_order(memory, MBRUMZHEG_SIZE, 20, 0, MBRUMZHEG_RESET_NONE), 0, MBRUMZHEG_ROOT_LOCKED, 0, false, false));
    EXPECT(is(mbrumzheg_try_lockout(memory, MBRUMZHEG_SIZE, 20, MBRUMZHEG_LEVEL_ROOT, 1), 0, MBRUMZHEG_FREE, 0, false, false));
    standing = mbrumzheg_try_status(memory, MBRUMZHEG_SIZE);
    EXPECT(standing.refusal == MBRUMZHEG_ACCEPTED && standing.tripped == 1 && standing.locked_by_user == 1 && standing.locked == 2);
    EXPECT(standing.lowest_locked == 0);
    EXPECT(is(offer(19, 1), MBRUMZHEG_BAD_TIME, 0, 0, false, false));
    EXPECT(is(mbrumzheg_try_lockout(memory, MBRUMZHEG_SIZE, 20, MBRUMZHEG_LEVEL_FIRM, 1), MBRUMZHEG_UNKNOWN, 0, 0, false, false));
}

static struct mbrumzheg_judged offer_on(uint64_t unit, uint64_t contracts) {
    return mbrumzheg_try_offer(memory, MBRUMZHEG_SIZE, 0, 0, unit, 10000, contracts);
}

/* What remains of a rule on a unit, or that it is not known. */
static bool left(uint64_t rule, uint64_t unit, uint64_t amount) {
    const struct mbrumzheg_remains remains = mbrumzheg_try_remaining(memory, MBRUMZHEG_SIZE, 0, rule, unit);
    return remains.refusal == MBRUMZHEG_ACCEPTED && remains.amount == amount;
}
static bool unknown(uint64_t rule, uint64_t unit) {
    const struct mbrumzheg_remains remains = mbrumzheg_try_remaining(memory, MBRUMZHEG_SIZE, 0, rule, unit);
    return remains.refusal == MBRUMZHEG_UNKNOWN && remains.amount == 0;
}

/* A rule that names no unit counts each for itself and trips the root; a reset of the root zeroes all four. */
static void units(void) {
    uint64_t unit;
    EXPECT(arm("ABCD,abs_vol,XYZ,100\nABCD,abs_vol,XYZ,90,,,P,F\nABCD,abs_vol,,500,,T").refusal == MBRUMZHEG_ACCEPTED);
    EXPECT(is(offer_on(MBRUMZHEG_CALLS_FRONT, 60), 0, MBRUMZHEG_FREE, 60, false, false));
    EXPECT(is(offer_on(MBRUMZHEG_PUTS_FRONT, 70), 0, MBRUMZHEG_FREE, 70, false, false));
    EXPECT(is(offer_on(MBRUMZHEG_PUTS_TRAILING, 60), 0, MBRUMZHEG_FREE, 60, false, false));
    EXPECT(left(0, 0, 40) && left(0, 1, 100) && left(0, 2, 30) && left(0, 3, 40) && unknown(0, 4));
    EXPECT(left(1, MBRUMZHEG_PUTS_FRONT, 20) && unknown(1, 0) && unknown(1, 1) && unknown(1, 3) && unknown(1, 4));
    EXPECT(left(2, 0, 310) && unknown(2, 1) && unknown(2, 2) && unknown(2, 3) && unknown(2, UINT64_MAX) && unknown(3, 0));
    EXPECT(is(offer_on(MBRUMZHEG_PUTS_TRAILING, 60), 0, MBRUMZHEG_FREE, 40, true, false));
    for (unit = 0; unit < 4; unit++) EXPECT(is(offer_on(unit, 1), 0, MBRUMZHEG_ROOT_LOCKED, 0, false, false));
    EXPECT(is(mbrumzheg_try_order(memory, MBRUMZHEG_SIZE, 0, 0, MBRUMZHEG_RESET_SYMBOL), 0, MBRUMZHEG_FREE, 0, false, false));
    for (unit = 0; unit < 4; unit++) EXPECT(left(0, unit, 100));
    EXPECT(left(1, MBRUMZHEG_PUTS_FRONT, 90) && left(2, 0, 270));
    EXPECT(mbrumzheg_try_clear(memory, MBRUMZHEG_SIZE) == MBRUMZHEG_ACCEPTED);
}

static struct mbrumzheg_found root_named(const char *name) { return mbrumzheg_try_root_named(memory, MBRUMZHEG_SIZE, name, strlen(name)); }

static bool rule_is(uint64_t rule, int type, uint64_t limit, uint64_t window, uint64_t root, uint64_t unit) {
    const struct mbrumzheg_rule_terms terms = mbrumzheg_try_rule(memory, MBRUMZHEG_SIZE, rule);
    return terms.refusal == MBRUMZHEG_ACCEPTED && (int)terms.type == type && terms.limit == limit && terms.window == window &&
           terms.root == root && terms.unit == unit;
}

/* Names and rules, of a profile with a rule of each type; on memory that is not armed nothing is known. */
static void profiles(void) {
    uint8_t room[MBRUMZHEG_NAME_BYTES] = {9, 9, 9, 9, 9, 9};
    uint64_t row[MBRUMZHEG_ROW];
    struct mbrumzheg_name name;
    EXPECT(root_named("XYZ").refusal == MBRUMZHEG_NOT_ARMED);
    EXPECT(mbrumzheg_try_root_name(memory, MBRUMZHEG_SIZE, 0).refusal == MBRUMZHEG_NOT_ARMED);
    EXPECT(mbrumzheg_try_rule(memory, MBRUMZHEG_SIZE - 1, 0).refusal == MBRUMZHEG_NO_ROOM);
    EXPECT(arm("ABCD,rate_ntnl,Q,100000000000\nABCD,rate_vol,XYZ123,7,86400000,,P,T\nABCD,rate_count,,2,101,T\n"
               "ABCD,abs_ntnl,Q,1,,,C,F\nABCD,abs_vol,XYZ123,1000000000,5\nABCD,abs_count,,3,,T").refusal == MBRUMZHEG_ACCEPTED);
    EXPECT(root_named("Q").refusal == MBRUMZHEG_ACCEPTED && root_named("Q").root == 0 && root_named("XYZ123").root == 1);
    EXPECT(root_named("XYZ").refusal == MBRUMZHEG_UNKNOWN && root_named("").refusal == MBRUMZHEG_UNKNOWN);
    EXPECT(root_named("q").refusal == MBRUMZHEG_UNKNOWN && root_named("XYZ1234").refusal == MBRUMZHEG_UNKNOWN);
    EXPECT(mbrumzheg_try_root_named(memory, MBRUMZHEG_SIZE, "\0Q", 2).refusal == MBRUMZHEG_UNKNOWN);
    name = mbrumzheg_try_root_name(memory, MBRUMZHEG_SIZE, 1);
    EXPECT(name.refusal == MBRUMZHEG_ACCEPTED && name.length == 6 && strcmp(name.text, "XYZ123") == 0);
    name = mbrumzheg_try_root_name(memory, MBRUMZHEG_SIZE, 2);
    EXPECT(name.refusal == MBRUMZHEG_UNKNOWN && name.length == 0 && name.text[0] == 0);
    mbrumzheg_root_name(memory, MBRUMZHEG_SIZE, 0, room, 5, row);
    EXPECT(row[MBRUMZHEG_ROW_REFUSAL] == MBRUMZHEG_NO_ROOM && room[0] == 9);
    mbrumzheg_root_name(memory, MBRUMZHEG_SIZE, 2, room, 5, row);
    EXPECT(row[MBRUMZHEG_ROW_REFUSAL] == MBRUMZHEG_UNKNOWN);
    mbrumzheg_root_name(memory, MBRUMZHEG_SIZE, 0, room, 6, row);
    EXPECT(row[MBRUMZHEG_ROW_REFUSAL] == 0 && row[MBRUMZHEG_ROW_BYTES] == 1 && room[0] == 'Q' && room[1] == 9);
    EXPECT(rule_is(0, MBRUMZHEG_RATE_NTNL, 100000000000, 100, 0, MBRUMZHEG_ALL_UNITS));
    EXPECT(rule_is(1, MBRUMZHEG_RATE_VOL, 7, 86400000, 1, MBRUMZHEG_PUTS_TRAILING));
    EXPECT(rule_is(2, MBRUMZHEG_RATE_COUNT, 2, 101, MBRUMZHEG_NO_ROOT, MBRUMZHEG_ALL_UNITS));
    EXPECT(rule_is(3, MBRUMZHEG_ABS_NTNL, 1, 0, 0, MBRUMZHEG_CALLS_FRONT));
    EXPECT(rule_is(4, MBRUMZHEG_ABS_VOL, 1000000000, 0, 1, MBRUMZHEG_ALL_UNITS));
    EXPECT(rule_is(5, MBRUMZHEG_ABS_COUNT, 3, 0, MBRUMZHEG_NO_ROOT, MBRUMZHEG_ALL_UNITS));
    EXPECT(mbrumzheg_try_rule(memory, MBRUMZHEG_SIZE, 6).refusal == MBRUMZHEG_UNKNOWN);
}

/* A unit's profile is this text; with too little room its size is answered, and nothing is written. */
static void profile_is(const uint64_t *unit, const char *text) {
    static char room[MBRUMZHEG_PROFILE_MOST + 1];
    const size_t size = strlen(text);
    struct mbrumzheg_written written;
    memset(room, 9, sizeof room);
    written = mbrumzheg_try_profile(unit, MBRUMZHEG_SIZE, room, size - 1);
    EXPECT(written.refusal == MBRUMZHEG_NO_ROOM && written.size == size && room[0] == 9 && room[size - 2] == 9);
    written = mbrumzheg_try_profile(unit, MBRUMZHEG_SIZE, room, size);
    EXPECT(written.refusal == MBRUMZHEG_ACCEPTED && written.size == size && memcmp(room, text, size) == 0 && room[size] == 9);
    memset(room, 9, sizeof room);
    written = mbrumzheg_try_profile(unit, MBRUMZHEG_SIZE, room, sizeof room);
    EXPECT(written.refusal == MBRUMZHEG_ACCEPTED && written.size == size && memcmp(room, text, size) == 0 && room[size] == 9);
}

/* The rules of the unit armed last, written back; what was written arms another unit with the same numbers, which then writes the same. */
static void profiles_out(void) {
    static const char text[] = "ABCD,rate_ntnl,Q,100000000000,100\nABCD,rate_vol,XYZ123,7,86400000,,P,T\nABCD,rate_count,,2,101,T\n"
                               "ABCD,abs_ntnl,Q,1,,,C,F\nABCD,abs_vol,XYZ123,1000000000\nABCD,abs_count,,3,,T\n";
    static uint64_t other[MBRUMZHEG_SIZE], before[MBRUMZHEG_SIZE];
    char room[1] = {9};
    struct mbrumzheg_written written = mbrumzheg_try_profile(other, MBRUMZHEG_SIZE, room, 0);
    EXPECT(written.refusal == MBRUMZHEG_NOT_ARMED && written.size == 0);
    written = mbrumzheg_try_profile(memory, MBRUMZHEG_SIZE - 1, room, sizeof room);
    EXPECT(written.refusal == MBRUMZHEG_NO_ROOM && written.size == 0 && room[0] == 9);
    memcpy(before, memory, sizeof before);
    profile_is(memory, text);
    EXPECT(memcmp(before, memory, sizeof before) == 0);
    EXPECT(mbrumzheg_try_arm(other, MBRUMZHEG_SIZE, text, sizeof text - 1).refusal == MBRUMZHEG_ACCEPTED);
    EXPECT(memcmp(other, memory, sizeof other) == 0);
    profile_is(other, text);
    other[MBRUMZHEG_SIZE - 1] = 600; /* a place that is not used */
    written = mbrumzheg_try_profile(other, MBRUMZHEG_SIZE, room, 0);
    EXPECT(written.refusal == MBRUMZHEG_UNSOUND && written.size == 0);
}

/* The longest lines that there are, as many as there may be. */
static void longest_profile(void) {
    static char text[MBRUMZHEG_PROFILE_MOST + 1];
    size_t size = 0;
    int n;
    for (n = 0; n < MBRUMZHEG_MOST_RULES; n++)
        size += (size_t)snprintf(text + size, sizeof text - size, "ABCD,rate_ntnl,LONG%02d,100000000000,86400000,,C,T\n", n / 6);
    EXPECT(size == MBRUMZHEG_PROFILE_MOST && mbrumzheg_try_clear(memory, MBRUMZHEG_SIZE) == MBRUMZHEG_ACCEPTED);
    EXPECT(arm(text).refusal == MBRUMZHEG_ACCEPTED);
    profile_is(memory, text);
}

static void words(void) {
    struct mbrumzheg_wording wording = mbrumzheg_try_text(MBRUMZHEG_ROOT_LOCKED);
    EXPECT(wording.refusal == MBRUMZHEG_ACCEPTED && wording.length == 19 && strcmp(wording.text, "s: RiskMgmtSymLevel") == 0);
    wording = mbrumzheg_try_text(MBRUMZHEG_FIRM_LOCKED);
    EXPECT(wording.length == 20 && strcmp(wording.text, "f: RiskMgmtFirmLevel") == 0);
    wording = mbrumzheg_try_text(MBRUMZHEG_FREE);
    EXPECT(wording.refusal == MBRUMZHEG_UNKNOWN && wording.length == 0 && wording.text[0] == 0);
    EXPECT(strcmp(mbrumzheg_refusal_text(MBRUMZHEG_OTHER_FIRM), "the line names another firm than the first line does") == 0);
    EXPECT(strcmp(mbrumzheg_refusal_text(1000), "this is no refusal of this library") == 0);
}

/* Each kind of event comes to its call. */
static void events(void) {
    struct mbrumzheg_event order = {MBRUMZHEG_KIND_ORDER, 30, 0, 0, 0, 0, MBRUMZHEG_RESET_SYMBOL, 0, 0, 0, 999};
    struct mbrumzheg_event fill = {MBRUMZHEG_KIND_OFFER, 40, 0, MBRUMZHEG_PUTS_FRONT, 30000, 5, 0, 0, 0, 0, 0};
    struct mbrumzheg_event lockout = {MBRUMZHEG_KIND_LOCKOUT, 50, 0, 0, 0, 0, 0, MBRUMZHEG_LEVEL_FIRM, 0, 0, 0};
    struct mbrumzheg_event none = {6, 60, 0, 0, 0, 0, 0, 0, 0, 0, 0};
    EXPECT(is(mbrumzheg_try_event(memory, MBRUMZHEG_SIZE, order), 0, MBRUMZHEG_FREE, 0, false, false));
    EXPECT(mbrumzheg_passes(mbrumzheg_try_event(memory, MBRUMZHEG_SIZE, order)) && !mbrumzheg_passes(offer(0, 1)));
    EXPECT(is(mbrumzheg_try_event(memory, MBRUMZHEG_SIZE, fill), 0, MBRUMZHEG_FREE, 5, false, false));
    EXPECT(is(mbrumzheg_try_event(memory, MBRUMZHEG_SIZE, lockout), 0, MBRUMZHEG_FREE, 0, false, false));
    EXPECT(is(offer(60, 1), 0, MBRUMZHEG_FIRM_LOCKED, 0, false, false) && !mbrumzheg_passes(offer(60, 1)));
    EXPECT(is(mbrumzheg_try_event(memory, MBRUMZHEG_SIZE, none), MBRUMZHEG_FAULTY_RECORD, 0, 0, false, false));
}

/* The places in a row are those that the structs have. */
static void rows(void) {
    uint64_t row[MBRUMZHEG_ROW], event[MBRUMZHEG_EVENT_ROW];
    static const uint8_t bytes[MBRUMZHEG_RECORD_BYTES] = {0x40, 0, 0, 0x50, 0, 1, 0x11, 0x70, 0, 0x0C, 0x80, 0};
    mbrumzheg_read_record(bytes, sizeof bytes, event);
    EXPECT(event[MBRUMZHEG_ROW_REFUSAL] == 0 && event[MBRUMZHEG_ROW_KIND] == 1 && event[MBRUMZHEG_ROW_TIME] == 10);
    EXPECT(event[MBRUMZHEG_ROW_PREMIUM] == 70000 && event[MBRUMZHEG_ROW_CONTRACTS] == 200 && event[MBRUMZHEG_ROW_LEVEL] == 0);
    mbrumzheg_status(memory, MBRUMZHEG_SIZE, row);
    EXPECT(row[MBRUMZHEG_ROW_REFUSAL] == 0 && row[MBRUMZHEG_ROW_LOCKED_BY_USER] == 1 && row[MBRUMZHEG_ROW_LOWEST_LOCKED] == 1);
}

int main(void) {
    EXPECT(is(offer(0, 1), MBRUMZHEG_NOT_ARMED, 0, 0, false, false));
    arms();
    cuts_and_locks();
    words();
    events();
    rows();
    EXPECT(mbrumzheg_try_clear(memory, MBRUMZHEG_SIZE - 1) == MBRUMZHEG_NO_ROOM);
    EXPECT(mbrumzheg_try_status(memory, MBRUMZHEG_SIZE).refusal == MBRUMZHEG_ACCEPTED);
    EXPECT(mbrumzheg_try_clear(memory, MBRUMZHEG_SIZE) == MBRUMZHEG_ACCEPTED);
    EXPECT(mbrumzheg_try_status(memory, MBRUMZHEG_SIZE).refusal == MBRUMZHEG_NOT_ARMED);
    units();
    profiles();
    profiles_out();
    longest_profile();
    return 0;
}
