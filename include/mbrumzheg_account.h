/* The calls that keep the day's account with a struct as the answer, and the rows of an account. Included by mbrumzheg.h. */
#include "mbrumzheg.h"

#ifndef MBRUMZHEG_ACCOUNT_H
#define MBRUMZHEG_ACCOUNT_H

/* A row of an account by its columns; notional in ten-thousandths of a dollar. */
struct mbrumzheg_figures {
    uint64_t accepted;
    uint64_t rejected;
    uint64_t fills;
    uint64_t contracts;
    uint64_t notional;
    uint64_t cuts;
    uint64_t trips;
    uint64_t away_reports;
};

/* The figure of an account of MBRUMZHEG_ACCOUNT_SIZE numbers in a row, 0 to 63 of a root and MBRUMZHEG_FIRM_ROW of the firm, and a column; 0 for any other. */
static inline uint64_t mbrumzheg_figure(const uint64_t *account, uint64_t row, uint64_t column) {
    if (row > MBRUMZHEG_FIRM_ROW || column >= MBRUMZHEG_COLUMNS) return 0;
    return account[row * MBRUMZHEG_COLUMNS + column];
}

/* A row of it: of a root, or MBRUMZHEG_FIRM_ROW of the firm. */
static inline struct mbrumzheg_figures mbrumzheg_figures_of(const uint64_t *account, uint64_t row) {
    struct mbrumzheg_figures figures;
    figures.accepted = mbrumzheg_figure(account, row, MBRUMZHEG_COLUMN_ACCEPTED);
    figures.rejected = mbrumzheg_figure(account, row, MBRUMZHEG_COLUMN_REJECTED);
    figures.fills = mbrumzheg_figure(account, row, MBRUMZHEG_COLUMN_FILLS);
    figures.contracts = mbrumzheg_figure(account, row, MBRUMZHEG_COLUMN_CONTRACTS);
    figures.notional = mbrumzheg_figure(account, row, MBRUMZHEG_COLUMN_NOTIONAL);
    figures.cuts = mbrumzheg_figure(account, row, MBRUMZHEG_COLUMN_CUTS);
    figures.trips = mbrumzheg_figure(account, row, MBRUMZHEG_COLUMN_TRIPS);
    figures.away_reports = mbrumzheg_figure(account, row, MBRUMZHEG_COLUMN_AWAY_REPORTS);
    return figures;
}

/* mbrumzheg_accounted_order */
static inline struct mbrumzheg_judged mbrumzheg_try_accounted_order(uint64_t *memory, size_t memory_len, uint64_t *account, size_t account_len,
                                                                    uint64_t time, uint64_t root, uint64_t reset) {
    uint64_t row[MBRUMZHEG_ROW];
    mbrumzheg_accounted_order(memory, memory_len, account, account_len, time, root, reset, row);
    return mbrumzheg_judged_in(row);
}

/* mbrumzheg_accounted_lockout */
static inline struct mbrumzheg_judged mbrumzheg_try_accounted_lockout(uint64_t *memory, size_t memory_len, uint64_t *account,
                                                                      size_t account_len, uint64_t time, uint64_t level, uint64_t root) {
    uint64_t row[MBRUMZHEG_ROW];
    mbrumzheg_accounted_lockout(memory, memory_len, account, account_len, time, level, root, row);
    return mbrumzheg_judged_in(row);
}

/* mbrumzheg_accounted_offer */
static inline struct mbrumzheg_judged mbrumzheg_try_accounted_offer(uint64_t *memory, size_t memory_len, uint64_t *account, size_t account_len,
                                                                    uint64_t time, uint64_t root, uint64_t unit, uint64_t premium,
                                                                    uint64_t contracts) {
    uint64_t row[MBRUMZHEG_ROW];
    mbrumzheg_accounted_offer(memory, memory_len, account, account_len, time, root, unit, premium, contracts, row);
    return mbrumzheg_judged_in(row);
}

/* mbrumzheg_accounted_send */
static inline struct mbrumzheg_judged mbrumzheg_try_accounted_send(uint64_t *memory, size_t memory_len, uint64_t *account, size_t account_len,
                                                                   uint64_t time, uint64_t root, uint64_t unit, uint64_t premium,
                                                                   uint64_t contracts, uint64_t identity, uint64_t reports) {
    uint64_t row[MBRUMZHEG_ROW];
    mbrumzheg_accounted_send(memory, memory_len, account, account_len, time, root, unit, premium, contracts, identity, reports, row);
    return mbrumzheg_judged_in(row);
}

/* mbrumzheg_accounted_report */
static inline struct mbrumzheg_judged mbrumzheg_try_accounted_report(uint64_t *memory, size_t memory_len, uint64_t *account, size_t account_len,
                                                                     uint64_t time, uint64_t identity, uint64_t contracts) {
    uint64_t row[MBRUMZHEG_ROW];
    mbrumzheg_accounted_report(memory, memory_len, account, account_len, time, identity, contracts, row);
    return mbrumzheg_judged_in(row);
}

/* mbrumzheg_accounted_close */
static inline struct mbrumzheg_judged mbrumzheg_try_accounted_close(uint64_t *memory, size_t memory_len, uint64_t *account, size_t account_len,
                                                                    uint64_t time, uint64_t identity) {
    uint64_t row[MBRUMZHEG_ROW];
    mbrumzheg_accounted_close(memory, memory_len, account, account_len, time, identity, row);
    return mbrumzheg_judged_in(row);
}

/* The accounted call of an event's kind, at its milliseconds; a kind that is none of the six is refused with 16, as its record would be. */
static inline struct mbrumzheg_judged mbrumzheg_try_accounted_event(uint64_t *memory, size_t memory_len, uint64_t *account, size_t account_len,
                                                                    struct mbrumzheg_event e) {
    uint64_t refused[MBRUMZHEG_ROW] = {MBRUMZHEG_FAULTY_RECORD, 0, 0, 0, 0};
    switch (e.kind) {
    case MBRUMZHEG_KIND_ORDER: return mbrumzheg_try_accounted_order(memory, memory_len, account, account_len, e.time, e.root, e.reset);
    case MBRUMZHEG_KIND_OFFER:
        return mbrumzheg_try_accounted_offer(memory, memory_len, account, account_len, e.time, e.root, e.unit, e.premium, e.contracts);
    case MBRUMZHEG_KIND_LOCKOUT: return mbrumzheg_try_accounted_lockout(memory, memory_len, account, account_len, e.time, e.level, e.root);
    case MBRUMZHEG_KIND_SEND:
        return mbrumzheg_try_accounted_send(memory, memory_len, account, account_len, e.time, e.root, e.unit, e.premium, e.contracts, e.identity,
                                            e.reports);
    case MBRUMZHEG_KIND_REPORT:
        return mbrumzheg_try_accounted_report(memory, memory_len, account, account_len, e.time, e.identity, e.contracts);
    case MBRUMZHEG_KIND_CLOSE: return mbrumzheg_try_accounted_close(memory, memory_len, account, account_len, e.time, e.identity);
    default: return mbrumzheg_judged_in(refused);
    }
}

#endif
