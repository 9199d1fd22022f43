/* Tries sendings, reports and closings by the functions that answer a struct and by events: ends with 0 if each answer is as it should be, else with 1 and
 * the line that was not. */
#include <stdio.h>
#include <stdlib.h>
#include <string.h>

#include "mbrumzheg.h"

static void expect(bool holds, int line) {
    if (holds) return;
    fprintf(stderr, "c/away.c:%d is not so\n", line);
    exit(1);
}
#define EXPECT(test) expect((test), __LINE__)

static uint64_t memory[MBRUMZHEG_SIZE];

/* An event was answered so. */
static bool is(struct mbrumzheg_judged judged, int refusal, int verdict, uint64_t grant, bool root_trip, bool firm_trip) {
    return (int)judged.refusal == refusal && (int)judged.verdict == verdict && judged.grant == grant && judged.root_trip == root_trip &&
           judged.firm_trip == firm_trip;
}
static bool refused(struct mbrumzheg_judged judged, int refusal) { return is(judged, refusal, 0, 0, false, false); }
static bool passes(struct mbrumzheg_judged judged) { return is(judged, 0, MBRUMZHEG_FREE, 0, false, false); }

static void arm(const char *profile) {
    EXPECT(mbrumzheg_try_clear(memory, MBRUMZHEG_SIZE) == MBRUMZHEG_ACCEPTED);
    EXPECT(mbrumzheg_try_arm(memory, MBRUMZHEG_SIZE, profile, strlen(profile)).refusal == MBRUMZHEG_ACCEPTED);
}

/* At $1 on calls of the front months of root 0. */
static struct mbrumzheg_judged sent(uint64_t time, uint64_t contracts, uint64_t identity, uint64_t reports) {
    return mbrumzheg_try_send(memory, MBRUMZHEG_SIZE, time, 0, MBRUMZHEG_CALLS_FRONT, 10000, contracts, identity, reports);
}
static struct mbrumzheg_judged reported(uint64_t time, uint64_t identity, uint64_t contracts) {
    return mbrumzheg_try_report(memory, MBRUMZHEG_SIZE, time, identity, contracts);
}
static struct mbrumzheg_judged closed(uint64_t time, uint64_t identity) { return mbrumzheg_try_close(memory, MBRUMZHEG_SIZE, time, identity); }
static struct mbrumzheg_judged filled(uint64_t time) {
    return mbrumzheg_try_offer(memory, MBRUMZHEG_SIZE, time, 0, MBRUMZHEG_CALLS_FRONT, 10000, 1);
}

/* Reports are counted past limits and under locks, an absolute rule trips at its limit and a rate rule above. */
static void reports_count(void) {
    arm("ABCD,abs_vol,XYZ,100\nABCD,rate_vol,,100,1000,T");
    EXPECT(passes(sent(0, 250, MBRUMZHEG_LAST_IDENTITY, 3)));
    EXPECT(is(reported(1, MBRUMZHEG_LAST_IDENTITY, 99), 0, MBRUMZHEG_FREE, 99, false, false));
    EXPECT(is(reported(2, MBRUMZHEG_LAST_IDENTITY, 1), 0, MBRUMZHEG_FREE, 1, true, false));
    EXPECT(is(sent(2, 1, 7, 1), 0, MBRUMZHEG_ROOT_LOCKED, 0, false, false) && refused(reported(2, 7, 1), MBRUMZHEG_IDENTITY_CLASH));
    EXPECT(is(reported(3, MBRUMZHEG_LAST_IDENTITY, 150), 0, MBRUMZHEG_FREE, 150, true, true));
    EXPECT(refused(reported(3, MBRUMZHEG_LAST_IDENTITY, 1), MBRUMZHEG_OVER_REPORTED));
    EXPECT(is(sent(3, 1, 7, 1), 0, MBRUMZHEG_FIRM_LOCKED, 0, false, false));
    EXPECT(passes(closed(4, MBRUMZHEG_LAST_IDENTITY)) && refused(closed(4, MBRUMZHEG_LAST_IDENTITY), MBRUMZHEG_IDENTITY_CLASH));
}

/* The register and the log's places, with the refusals in their order. */
static void places_are_kept(void) {
    uint64_t identity;
    arm("ABCD,rate_vol,XYZ,1000000,1000");
    for (identity = 0; identity < MBRUMZHEG_REGISTER_PLACES; identity++) EXPECT(passes(sent(5, 2, identity, 8)));
    EXPECT(refused(filled(5), MBRUMZHEG_LOG_FULL));
    EXPECT(refused(sent(4, 0, 65536, 0), MBRUMZHEG_BAD_TIME) && refused(sent(5, 0, 65536, 0), MBRUMZHEG_UNKNOWN));
    EXPECT(refused(sent(5, 0, 0, 1), MBRUMZHEG_BAD_AMOUNT) && refused(sent(5, 1, 0, 0), MBRUMZHEG_BAD_AMOUNT));
    EXPECT(refused(sent(5, 1, 0, 17), MBRUMZHEG_BAD_AMOUNT) && refused(sent(5, 1, 0, 16), MBRUMZHEG_REGISTER_FULL));
    EXPECT(passes(closed(5, 63)) && refused(sent(5, 1, 0, 16), MBRUMZHEG_IDENTITY_CLASH) && refused(sent(5, 1, 63, 9), MBRUMZHEG_LOG_FULL));
    EXPECT(is(filled(5), 0, MBRUMZHEG_FREE, 1, false, false) && passes(sent(5, 1, 63, 7)) && refused(filled(5), MBRUMZHEG_LOG_FULL));
    EXPECT(refused(reported(4, 65536, 0), MBRUMZHEG_BAD_TIME) && refused(reported(5, 65536, 0), MBRUMZHEG_UNKNOWN));
    EXPECT(refused(reported(5, 64, 0), MBRUMZHEG_BAD_AMOUNT) && refused(reported(5, 64, 1), MBRUMZHEG_IDENTITY_CLASH));
    EXPECT(refused(reported(5, 0, 3), MBRUMZHEG_OVER_REPORTED) && is(reported(5, 0, 2), 0, MBRUMZHEG_FREE, 2, false, false));
    EXPECT(refused(closed(4, 65536), MBRUMZHEG_BAD_TIME) && refused(closed(5, 65536), MBRUMZHEG_UNKNOWN));
}

/* Each kind of event comes to its call, and none of these has a record of the old form. */
static void events(void) {
    struct mbrumzheg_event send = {MBRUMZHEG_KIND_SEND, 1, 0, MBRUMZHEG_PUTS_TRAILING, 10000, 20, 0, 0, 5, 1, 0};
    struct mbrumzheg_event report = {MBRUMZHEG_KIND_REPORT, 2, 0, 0, 0, 20, 0, 0, 5, 0, 0};
    struct mbrumzheg_event close = {MBRUMZHEG_KIND_CLOSE, 3, 0, 0, 0, 0, 0, 0, 5, 0, 0};
    struct mbrumzheg_event order = {MBRUMZHEG_KIND_ORDER, 4, 0, 0, 0, 0, 0, 0, 0, 0, 0};
    arm("ABCD,abs_vol,XYZ,10");
    EXPECT(passes(mbrumzheg_try_event(memory, MBRUMZHEG_SIZE, send)));
    EXPECT(is(mbrumzheg_try_event(memory, MBRUMZHEG_SIZE, report), 0, MBRUMZHEG_FREE, 20, true, false));
    EXPECT(passes(mbrumzheg_try_event(memory, MBRUMZHEG_SIZE, close)));
    EXPECT(mbrumzheg_try_write_record(send).refusal == MBRUMZHEG_FAULTY_RECORD);
    EXPECT(mbrumzheg_try_write_record(report).refusal == MBRUMZHEG_FAULTY_RECORD);
    close.identity = 0;
    EXPECT(mbrumzheg_try_write_record(close).refusal == MBRUMZHEG_FAULTY_RECORD);
    EXPECT(mbrumzheg_try_write_record(order).refusal == MBRUMZHEG_ACCEPTED);
    order.reports = 1;
    EXPECT(mbrumzheg_try_write_record(order).refusal == MBRUMZHEG_FAULTY_RECORD);
}

int main(void) {
    EXPECT(refused(sent(0, 1, 1, 1), MBRUMZHEG_NOT_ARMED) && refused(reported(0, 1, 1), MBRUMZHEG_NOT_ARMED));
    EXPECT(refused(closed(0, 1), MBRUMZHEG_NOT_ARMED));
    reports_count();
    places_are_kept();
    events();
    EXPECT(refused(mbrumzheg_try_close(memory, MBRUMZHEG_SIZE - 1, 0, 1), MBRUMZHEG_NO_ROOM));
    memory[MBRUMZHEG_SIZE - 1] = 600; /* a place that is not used */
    EXPECT(refused(sent(4, 0, 65536, 0), MBRUMZHEG_UNSOUND) && refused(reported(4, 5, 1), MBRUMZHEG_UNSOUND));
    return 0;
}
