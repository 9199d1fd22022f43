/* Tries the calls that keep the day's account, by the functions that answer a struct and by rows: ends with 0 if each answer, the account and the memory are
 * as they should be, else with 1 and the line that was not. */
#include <stdio.h>
#include <stdlib.h>
#include <string.h>

#include "mbrumzheg.h"

static void expect(bool holds, int line) {
    if (holds) return;
    fprintf(stderr, "c/account.c:%d is not so\n", line);
    exit(1);
}
#define EXPECT(test) expect((test), __LINE__)

#define LENT memory, MBRUMZHEG_SIZE, account, MBRUMZHEG_ACCOUNT_SIZE
static uint64_t memory[MBRUMZHEG_SIZE], plain[MBRUMZHEG_SIZE];
static uint64_t account[MBRUMZHEG_ACCOUNT_SIZE + 1];

static bool is(struct mbrumzheg_judged judged, int refusal, int verdict, uint64_t grant, bool root_trip, bool firm_trip) {
    return (int)judged.refusal == refusal && (int)judged.verdict == verdict && judged.grant == grant && judged.root_trip == root_trip &&
           judged.firm_trip == firm_trip;
}
static bool refused(struct mbrumzheg_judged judged, int refusal) { return is(judged, refusal, 0, 0, false, false); }

/* The row of a root, or of the firm, has just these figures. */
static bool row_is(uint64_t row, uint64_t accepted, uint64_t rejected, uint64_t fills, uint64_t contracts, uint64_t notional, uint64_t cuts, uint64_t trips,
                   uint64_t away_reports) {
    const struct mbrumzheg_figures f = mbrumzheg_figures_of(account, row);
    return f.accepted == accepted && f.rejected == rejected && f.fills == fills && f.contracts == contracts && f.notional == notional &&
           f.cuts == cuts && f.trips == trips && f.away_reports == away_reports;
}

static void arm(const char *profile) {
    EXPECT(mbrumzheg_try_clear(memory, MBRUMZHEG_SIZE) == MBRUMZHEG_ACCEPTED);
    EXPECT(mbrumzheg_try_arm(memory, MBRUMZHEG_SIZE, profile, strlen(profile)).refusal == MBRUMZHEG_ACCEPTED);
    memset(account, 0, sizeof account);
    account[MBRUMZHEG_ACCOUNT_SIZE] = 9;
}

/* A day by events: each answer is the plain call's, and the evening's table has it. */
static void a_day(void) {
    const struct mbrumzheg_event events[] = {
        {MBRUMZHEG_KIND_OFFER, 0, 0, 0, 70000, 60, 0, 0, 0, 0, 0},    /* a fill */
        {MBRUMZHEG_KIND_OFFER, 1, 0, 0, 70000, 60, 0, 0, 0, 0, 0},    /* cut to 40, and the root trips */
        {MBRUMZHEG_KIND_OFFER, 2, 0, 0, 70000, 1, 0, 0, 0, 0, 0},     /* locked out: nowhere */
        {MBRUMZHEG_KIND_ORDER, 3, 0, 0, 0, 0, 0, 0, 0, 0, 0},         /* rejected */
        {MBRUMZHEG_KIND_ORDER, 4, 0, 0, 0, 0, 4, 0, 0, 0, 0},         /* T: accepted */
        {MBRUMZHEG_KIND_OFFER, 5, 0, 0, 70000, 1, 0, 0, 0, 0, 0},     /* granted 0: a cut and no fill, a trip */
        {MBRUMZHEG_KIND_ORDER, 4, 0, 0, 0, 0, 0, 0, 0, 0, 0},         /* refused with 12: nowhere */
        {MBRUMZHEG_KIND_SEND, 6, 1, 0, 10000, 90, 0, 0, 7, 2, 0},     /* accepted */
        {MBRUMZHEG_KIND_SEND, 6, 0, 0, 10000, 90, 0, 0, 8, 2, 0},     /* rejected, its root is locked */
        {MBRUMZHEG_KIND_REPORT, 7, 0, 0, 0, 80, 0, 0, 7, 0, 0},       /* of root 1: 180 of the firm's 150, which trips */
        {MBRUMZHEG_KIND_CLOSE, 8, 0, 0, 0, 0, 0, 0, 7, 0, 0},         /* nowhere */
        {MBRUMZHEG_KIND_LOCKOUT, 9, 1, 0, 0, 0, 0, 0, 0, 0, 0},       /* nowhere */
        {6, 9, 0, 0, 0, 0, 0, 0, 0, 0, 0},                            /* no kind */
    };
    size_t i;
    arm("ABCD,abs_vol,XYZ,100\nABCD,abs_vol,Q,1000\nABCD,abs_vol,,150,,T");
    memcpy(plain, memory, sizeof plain);
    for (i = 0; i < sizeof events / sizeof events[0]; i++) {
        const struct mbrumzheg_judged own = mbrumzheg_try_event(plain, MBRUMZHEG_SIZE, events[i]);
        EXPECT(is(mbrumzheg_try_accounted_event(LENT, events[i]), (int)own.refusal, (int)own.verdict, own.grant, own.root_trip, own.firm_trip));
        EXPECT(memcmp(plain, memory, sizeof plain) == 0);
    }
    EXPECT(row_is(0, 1, 2, 2, 100, 7000000, 2, 2, 0));
    EXPECT(row_is(1, 1, 0, 0, 0, 0, 0, 0, 1));
    EXPECT(row_is(MBRUMZHEG_FIRM_ROW, 2, 2, 2, 100, 7000000, 2, 1, 1));
    EXPECT(row_is(2, 0, 0, 0, 0, 0, 0, 0, 0) && account[MBRUMZHEG_ACCOUNT_SIZE] == 9);
    EXPECT(mbrumzheg_figure(account, 0, MBRUMZHEG_COLUMN_CUTS) == 2 && mbrumzheg_figure(account, MBRUMZHEG_FIRM_ROW, MBRUMZHEG_COLUMN_AWAY_REPORTS) == 1);
    EXPECT(mbrumzheg_figure(account, MBRUMZHEG_FIRM_ROW + 1, 0) == 0 && mbrumzheg_figure(account, 0, MBRUMZHEG_COLUMNS) == 0);
}

/* Each call by its own function, with what it refuses in its order. */
static void refusals(void) {
    static uint64_t before[MBRUMZHEG_SIZE], figures[MBRUMZHEG_ACCOUNT_SIZE];
    uint64_t row[MBRUMZHEG_ROW];
    arm("ABCD,abs_vol,XYZ,100");
    EXPECT(refused(mbrumzheg_try_accounted_order(memory, MBRUMZHEG_SIZE, account, MBRUMZHEG_ACCOUNT_SIZE - 1, 0, 0, 0), MBRUMZHEG_NO_ROOM));
    EXPECT(refused(mbrumzheg_try_accounted_order(memory, MBRUMZHEG_SIZE - 1, account, MBRUMZHEG_ACCOUNT_SIZE, 0, 0, 0), MBRUMZHEG_NO_ROOM));
    account[63 * MBRUMZHEG_COLUMNS] = MBRUMZHEG_MOST_FIGURE + 1u; /* of a row that no root has */
    EXPECT(refused(mbrumzheg_try_accounted_lockout(LENT, 86400000, 7, 99), MBRUMZHEG_UNSOUND));
    account[63 * MBRUMZHEG_COLUMNS] = MBRUMZHEG_MOST_FIGURE;
    EXPECT(refused(mbrumzheg_try_accounted_lockout(LENT, 86400000, 7, 99), MBRUMZHEG_BAD_TIME));
    EXPECT(refused(mbrumzheg_try_accounted_close(LENT, 0, 5), MBRUMZHEG_IDENTITY_CLASH) && refused(mbrumzheg_try_accounted_report(LENT, 0, 5, 1), MBRUMZHEG_IDENTITY_CLASH));
    /* a figure at its end: the last event that fits, and the first that does not */
    account[MBRUMZHEG_FIRM_ROW * MBRUMZHEG_COLUMNS + MBRUMZHEG_COLUMN_ACCEPTED] = MBRUMZHEG_MOST_FIGURE - 1u;
    EXPECT(is(mbrumzheg_try_accounted_order(LENT, 1, 0, 0), 0, MBRUMZHEG_FREE, 0, false, false));
    memcpy(before, memory, sizeof before);
    memcpy(figures, account, sizeof figures);
    EXPECT(refused(mbrumzheg_try_accounted_order(LENT, 2, 0, MBRUMZHEG_RESET_BOTH), MBRUMZHEG_ACCOUNT_FULL));
    EXPECT(refused(mbrumzheg_try_accounted_send(LENT, 2, 0, 0, 10000, 1, 1, 1), MBRUMZHEG_ACCOUNT_FULL));
    EXPECT(memcmp(before, memory, sizeof before) == 0 && memcmp(figures, account, sizeof figures) == 0);
    account[MBRUMZHEG_COLUMN_NOTIONAL] = MBRUMZHEG_MOST_FIGURE - 69999u;
    EXPECT(refused(mbrumzheg_try_accounted_offer(LENT, 2, 0, 0, 70000, 1), MBRUMZHEG_ACCOUNT_FULL));
    EXPECT(is(mbrumzheg_try_accounted_offer(LENT, 2, 0, 0, 69999, 1), 0, MBRUMZHEG_FREE, 1, false, false));
    EXPECT(is(mbrumzheg_try_accounted_lockout(LENT, 3, MBRUMZHEG_LEVEL_FIRM, 0), 0, MBRUMZHEG_FREE, 0, false, false));
    EXPECT(is(mbrumzheg_try_accounted_offer(LENT, 3, 0, 0, 70000, 1), 0, MBRUMZHEG_FIRM_LOCKED, 0, false, false));
    mbrumzheg_accounted_order(LENT, 3, 0, MBRUMZHEG_RESET_NONE, row);
    EXPECT(row[0] == 0 && row[MBRUMZHEG_ROW_VERDICT] == MBRUMZHEG_FIRM_LOCKED && row_is(0, 1, 1, 1, 1, MBRUMZHEG_MOST_FIGURE, 0, 0, 0));
    memory[0] = 0;
    account[0] = MBRUMZHEG_MOST_FIGURE + 1u;
    EXPECT(refused(mbrumzheg_try_accounted_order(LENT, 0, 0, 0), MBRUMZHEG_NOT_ARMED));
}

static void words(void) {
    uint64_t column;
    EXPECT(strcmp(mbrumzheg_column_text(MBRUMZHEG_COLUMN_ACCEPTED), "accepted orders") == 0);
    EXPECT(strcmp(mbrumzheg_column_text(MBRUMZHEG_COLUMN_AWAY_REPORTS), "away reports") == 0);
    for (column = 0; column < MBRUMZHEG_COLUMNS; column++) EXPECT(strcmp(mbrumzheg_column_text(column), mbrumzheg_column_text(MBRUMZHEG_COLUMNS)) != 0);
    EXPECT(strncmp(mbrumzheg_refusal_text(MBRUMZHEG_ACCOUNT_FULL), "a figure of the account would pass 10^18", 40) == 0);
}

int main(void) {
    EXPECT(refused(mbrumzheg_try_accounted_order(LENT, 0, 0, 0), MBRUMZHEG_NOT_ARMED));
    a_day();
    refusals();
    words();
    return 0;
}
