/* Events as structs: the call of each, and its record. Included by mbrumzheg.h. */
#include "mbrumzheg.h"

#ifndef MBRUMZHEG_EVENTS_H
#define MBRUMZHEG_EVENTS_H

/* The call of an event's kind, at its milliseconds; a kind that is none of the six is refused with 16, as its record would be. */
static inline struct mbrumzheg_judged mbrumzheg_try_event(uint64_t *memory, size_t memory_len, struct mbrumzheg_event event) {
    uint64_t refused[MBRUMZHEG_ROW] = {MBRUMZHEG_FAULTY_RECORD, 0, 0, 0, 0};
    switch (event.kind) {
    case MBRUMZHEG_KIND_ORDER: return mbrumzheg_try_order(memory, memory_len, event.time, event.root, event.reset);
    case MBRUMZHEG_KIND_OFFER:
        return mbrumzheg_try_offer(memory, memory_len, event.time, event.root, event.unit, event.premium, event.contracts);
    case MBRUMZHEG_KIND_LOCKOUT: return mbrumzheg_try_lockout(memory, memory_len, event.time, event.level, event.root);
    case MBRUMZHEG_KIND_SEND:
        return mbrumzheg_try_send(memory, memory_len, event.time, event.root, event.unit, event.premium, event.contracts, event.identity,
                                  event.reports);
    case MBRUMZHEG_KIND_REPORT: return mbrumzheg_try_report(memory, memory_len, event.time, event.identity, event.contracts);
    case MBRUMZHEG_KIND_CLOSE: return mbrumzheg_try_close(memory, memory_len, event.time, event.identity);
    default: return mbrumzheg_judged_in(refused);
    }
}

/* The row of a record of either form, its time in milliseconds and the microseconds beyond them. */
static inline struct mbrumzheg_reading mbrumzheg_reading_in(const uint64_t *row) {
    struct mbrumzheg_reading reading;
    reading.refusal = mbrumzheg_refusal_in(row);
    reading.event.kind = row[MBRUMZHEG_ROW_KIND];
    reading.event.time = row[MBRUMZHEG_ROW_TIME];
    reading.event.root = row[MBRUMZHEG_ROW_ROOT];
    reading.event.unit = row[MBRUMZHEG_ROW_UNIT];
    reading.event.premium = row[MBRUMZHEG_ROW_PREMIUM];
    reading.event.contracts = row[MBRUMZHEG_ROW_CONTRACTS];
    reading.event.reset = row[MBRUMZHEG_ROW_RESET];
    reading.event.level = row[MBRUMZHEG_ROW_LEVEL];
    reading.event.identity = 0;
    reading.event.reports = 0;
    reading.event.micros = 0;
    return reading;
}

/* mbrumzheg_read_record16 */
static inline struct mbrumzheg_reading mbrumzheg_try_read_record16(const uint8_t *bytes, size_t bytes_len) {
    uint64_t row[MBRUMZHEG_EVENT16_ROW];
    struct mbrumzheg_reading reading;
    mbrumzheg_read_record16(bytes, bytes_len, row);
    reading = mbrumzheg_reading_in(row);
    reading.event.time = row[MBRUMZHEG_ROW_TIME] / 1000;
    reading.event.identity = row[MBRUMZHEG_ROW_IDENTITY];
    reading.event.reports = row[MBRUMZHEG_ROW_REPORTS];
    reading.event.micros = row[MBRUMZHEG_ROW_TIME] % 1000;
    return reading;
}

/* mbrumzheg_read_record */
static inline struct mbrumzheg_reading mbrumzheg_try_read_record(const uint8_t *bytes, size_t bytes_len) {
    uint64_t row[MBRUMZHEG_EVENT_ROW];
    mbrumzheg_read_record(bytes, bytes_len, row);
    return mbrumzheg_reading_in(row);
}

/* mbrumzheg_write_record16, into the answer itself; a time or microseconds out of their range have no record [16] */
static inline struct mbrumzheg_record16 mbrumzheg_try_write_record16(struct mbrumzheg_event event) {
    uint64_t row[MBRUMZHEG_ROW];
    struct mbrumzheg_record16 record = {MBRUMZHEG_FAULTY_RECORD, {0}};
    if (event.time > MBRUMZHEG_LAST_TIME || event.micros > 999) return record;
    mbrumzheg_write_record16(event.kind, event.time * 1000 + event.micros, event.root, event.unit, event.premium, event.contracts, event.reset,
                             event.level, event.identity, event.reports, record.bytes, sizeof record.bytes, row);
    record.refusal = mbrumzheg_refusal_in(row);
    return record;
}

/* mbrumzheg_write_record, into the answer itself; 12 bytes have no place for an identity, reports or microseconds [16] */
static inline struct mbrumzheg_record mbrumzheg_try_write_record(struct mbrumzheg_event event) {
    uint64_t row[MBRUMZHEG_ROW];
    struct mbrumzheg_record record = {MBRUMZHEG_FAULTY_RECORD, {0}};
    if ((event.identity | event.reports | event.micros) != 0) return record;
    mbrumzheg_write_record(event.kind, event.time, event.root, event.unit, event.premium, event.contracts, event.reset, event.level,
                           record.bytes, sizeof record.bytes, row);
    record.refusal = mbrumzheg_refusal_in(row);
    return record;
}

/* mbrumzheg_widen, into the answer itself */
static inline struct mbrumzheg_record16 mbrumzheg_try_widen(const uint8_t *bytes, size_t bytes_len) {
    uint64_t row[MBRUMZHEG_ROW];
    struct mbrumzheg_record16 record = {MBRUMZHEG_FAULTY_RECORD, {0}};
    mbrumzheg_widen(bytes, bytes_len, record.bytes, sizeof record.bytes, row);
    record.refusal = mbrumzheg_refusal_in(row);
    return record;
}

/* mbrumzheg_narrow, into the answer itself */
static inline struct mbrumzheg_record mbrumzheg_try_narrow(const uint8_t *bytes, size_t bytes_len) {
    uint64_t row[MBRUMZHEG_ROW];
    struct mbrumzheg_record record = {MBRUMZHEG_FAULTY_RECORD, {0}};
    mbrumzheg_narrow(bytes, bytes_len, record.bytes, sizeof record.bytes, row);
    record.refusal = mbrumzheg_refusal_in(row);
    return record;
}

#endif
