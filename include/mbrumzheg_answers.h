/* The calls of mbrumzheg.h with a struct as the answer, so that no row can be too short. Included by mbrumzheg.h.
 *
 * Each function here makes one call and gives its row names. After a refusal all other members are 0 (but for Arm's line and the
 * size that a profile takes). */
#include "mbrumzheg.h"

#ifndef MBRUMZHEG_ANSWERS_H
#define MBRUMZHEG_ANSWERS_H

#if defined(__cplusplus)
#define MBRUMZHEG_AS(type, value) static_cast<type>(value)
#else
#define MBRUMZHEG_AS(type, value) ((type)(value))
#endif

/* A row's refusal. */
static inline enum mbrumzheg_refusal mbrumzheg_refusal_in(const uint64_t *row) {
    return MBRUMZHEG_AS(enum mbrumzheg_refusal, row[MBRUMZHEG_ROW_REFUSAL]);
}

/* The row of an event by its names. */
static inline struct mbrumzheg_judged mbrumzheg_judged_in(const uint64_t *row) {
    struct mbrumzheg_judged judged;
    judged.refusal = mbrumzheg_refusal_in(row);
    judged.verdict = MBRUMZHEG_AS(enum mbrumzheg_verdict, row[MBRUMZHEG_ROW_VERDICT]);
    judged.grant = row[MBRUMZHEG_ROW_GRANT];
    judged.root_trip = row[MBRUMZHEG_ROW_ROOT_TRIP] == 1;
    judged.firm_trip = row[MBRUMZHEG_ROW_FIRM_TRIP] == 1;
    return judged;
}

/* Whether an order or an offer may pass: it was not refused, and nothing is locked. */
static inline bool mbrumzheg_passes(struct mbrumzheg_judged judged) {
    return judged.refusal == MBRUMZHEG_ACCEPTED && judged.verdict == MBRUMZHEG_FREE;
}

/* mbrumzheg_arm; the text may be any bytes, as those of a string. */
static inline struct mbrumzheg_armed mbrumzheg_try_arm(uint64_t *memory, size_t memory_len, const void *text, size_t text_len) {
    uint64_t row[MBRUMZHEG_ROW];
    struct mbrumzheg_armed armed;
    mbrumzheg_arm(memory, memory_len, MBRUMZHEG_AS(const uint8_t *, text), text_len, row);
    armed.refusal = mbrumzheg_refusal_in(row);
    armed.line = row[MBRUMZHEG_ROW_LINE];
    armed.firm = row[MBRUMZHEG_ROW_FIRM];
    armed.rules = row[MBRUMZHEG_ROW_RULES];
    armed.roots = row[MBRUMZHEG_ROW_ROOTS];
    return armed;
}

/* mbrumzheg_clear */
static inline enum mbrumzheg_refusal mbrumzheg_try_clear(uint64_t *memory, size_t memory_len) {
    uint64_t row[MBRUMZHEG_ROW];
    mbrumzheg_clear(memory, memory_len, row);
    return mbrumzheg_refusal_in(row);
}

/* mbrumzheg_order */
static inline struct mbrumzheg_judged mbrumzheg_try_order(uint64_t *memory, size_t memory_len, uint64_t time, uint64_t root,
                                                          uint64_t reset) {
    uint64_t row[MBRUMZHEG_ROW];
    mbrumzheg_order(memory, memory_len, time, root, reset, row);
    return mbrumzheg_judged_in(row);
}

/* mbrumzheg_lockout */
static inline struct mbrumzheg_judged mbrumzheg_try_lockout(uint64_t *memory, size_t memory_len, uint64_t time, uint64_t level,
                                                            uint64_t root) {
    uint64_t row[MBRUMZHEG_ROW];
    mbrumzheg_lockout(memory, memory_len, time, level, root, row);
    return mbrumzheg_judged_in(row);
}

/* mbrumzheg_offer */
static inline struct mbrumzheg_judged mbrumzheg_try_offer(uint64_t *memory, size_t memory_len, uint64_t time, uint64_t root, uint64_t unit,
                                                          uint64_t premium, uint64_t contracts) {
    uint64_t row[MBRUMZHEG_ROW];
    mbrumzheg_offer(memory, memory_len, time, root, unit, premium, contracts, row);
    return mbrumzheg_judged_in(row);
}

/* mbrumzheg_send */
static inline struct mbrumzheg_judged mbrumzheg_try_send(uint64_t *memory, size_t memory_len, uint64_t time, uint64_t root, uint64_t unit,
                                                         uint64_t premium, uint64_t contracts, uint64_t identity, uint64_t reports) {
    uint64_t row[MBRUMZHEG_ROW];
    mbrumzheg_send(memory, memory_len, time, root, unit, premium, contracts, identity, reports, row);
    return mbrumzheg_judged_in(row);
}

/* mbrumzheg_report */
static inline struct mbrumzheg_judged mbrumzheg_try_report(uint64_t *memory, size_t memory_len, uint64_t time, uint64_t identity,
                                                           uint64_t contracts) {
    uint64_t row[MBRUMZHEG_ROW];
    mbrumzheg_report(memory, memory_len, time, identity, contracts, row);
    return mbrumzheg_judged_in(row);
}

/* mbrumzheg_close */
static inline struct mbrumzheg_judged mbrumzheg_try_close(uint64_t *memory, size_t memory_len, uint64_t time, uint64_t identity) {
    uint64_t row[MBRUMZHEG_ROW];
    mbrumzheg_close(memory, memory_len, time, identity, row);
    return mbrumzheg_judged_in(row);
}

/* mbrumzheg_remaining */
static inline struct mbrumzheg_remains mbrumzheg_try_remaining(const uint64_t *memory, size_t memory_len, uint64_t time, uint64_t rule,
                                                               uint64_t unit) {
    uint64_t row[MBRUMZHEG_ROW];
    struct mbrumzheg_remains remains;
    mbrumzheg_remaining(memory, memory_len, time, rule, unit, row);
    remains.refusal = mbrumzheg_refusal_in(row);
    remains.amount = row[MBRUMZHEG_ROW_REMAINS];
    return remains;
}

/* mbrumzheg_status */
static inline struct mbrumzheg_standing mbrumzheg_try_status(const uint64_t *memory, size_t memory_len) {
    uint64_t row[MBRUMZHEG_ROW];
    struct mbrumzheg_standing standing;
    mbrumzheg_status(memory, memory_len, row);
    standing.refusal = mbrumzheg_refusal_in(row);
    standing.tripped = row[MBRUMZHEG_ROW_TRIPPED];
    standing.locked_by_user = row[MBRUMZHEG_ROW_LOCKED_BY_USER];
    standing.locked = row[MBRUMZHEG_ROW_LOCKED];
    standing.lowest_locked = row[MBRUMZHEG_ROW_LOWEST_LOCKED];
    return standing;
}

/* mbrumzheg_root_named; the name may be any bytes, as those of a string */
static inline struct mbrumzheg_found mbrumzheg_try_root_named(const uint64_t *memory, size_t memory_len, const void *name, size_t name_len) {
    uint64_t row[MBRUMZHEG_ROW];
    struct mbrumzheg_found found;
    mbrumzheg_root_named(memory, memory_len, MBRUMZHEG_AS(const uint8_t *, name), name_len, row);
    found.refusal = mbrumzheg_refusal_in(row);
    found.root = row[MBRUMZHEG_ROW_ROOT_NAMED];
    return found;
}

/* mbrumzheg_root_name, into the answer itself */
static inline struct mbrumzheg_name mbrumzheg_try_root_name(const uint64_t *memory, size_t memory_len, uint64_t root) {
    uint8_t room[MBRUMZHEG_NAME_BYTES] = {0};
    uint64_t row[MBRUMZHEG_ROW];
    struct mbrumzheg_name name;
    size_t i;
    mbrumzheg_root_name(memory, memory_len, root, room, sizeof room, row);
    name.refusal = mbrumzheg_refusal_in(row);
    name.length = MBRUMZHEG_AS(size_t, row[MBRUMZHEG_ROW_BYTES]);
    for (i = 0; i < MBRUMZHEG_NAME_BYTES; i++) name.text[i] = MBRUMZHEG_AS(char, room[i]);
    name.text[MBRUMZHEG_NAME_BYTES] = 0;
    return name;
}

/* mbrumzheg_rule */
static inline struct mbrumzheg_rule_terms mbrumzheg_try_rule(const uint64_t *memory, size_t memory_len, uint64_t rule) {
    uint64_t row[MBRUMZHEG_RULE_ROW];
    struct mbrumzheg_rule_terms terms;
    mbrumzheg_rule(memory, memory_len, rule, row);
    terms.refusal = mbrumzheg_refusal_in(row);
    terms.type = MBRUMZHEG_AS(enum mbrumzheg_rule_type, row[MBRUMZHEG_ROW_RULE_TYPE]);
    terms.limit = row[MBRUMZHEG_ROW_RULE_LIMIT];
    terms.window = row[MBRUMZHEG_ROW_RULE_WINDOW];
    terms.root = row[MBRUMZHEG_ROW_RULE_ROOT];
    terms.unit = row[MBRUMZHEG_ROW_RULE_UNIT];
    return terms;
}

/* mbrumzheg_profile; the room may be any bytes, as those of a string */
static inline struct mbrumzheg_written mbrumzheg_try_profile(const uint64_t *memory, size_t memory_len, void *room, size_t room_len) {
    uint64_t row[MBRUMZHEG_ROW];
    struct mbrumzheg_written written;
    mbrumzheg_profile(memory, memory_len, MBRUMZHEG_AS(uint8_t *, room), room_len, row);
    written.refusal = mbrumzheg_refusal_in(row);
    written.size = MBRUMZHEG_AS(size_t, row[MBRUMZHEG_ROW_BYTES]);
    return written;
}

/* mbrumzheg_text, into the answer itself */
static inline struct mbrumzheg_wording mbrumzheg_try_text(uint64_t verdict) {
    uint8_t room[MBRUMZHEG_TEXT_BYTES] = {0};
    uint64_t row[MBRUMZHEG_ROW];
    struct mbrumzheg_wording wording;
    size_t i;
    mbrumzheg_text(verdict, room, sizeof room, row);
    wording.refusal = mbrumzheg_refusal_in(row);
    wording.length = MBRUMZHEG_AS(size_t, row[MBRUMZHEG_ROW_BYTES]);
    for (i = 0; i < MBRUMZHEG_TEXT_BYTES; i++) wording.text[i] = MBRUMZHEG_AS(char, room[i]);
    wording.text[MBRUMZHEG_TEXT_BYTES] = 0;
    return wording;
}

/* Writes a name that came as one number, its bytes in base 256, as a string of at most 8 characters; answers its length. */
static inline size_t mbrumzheg_name_text(uint64_t name, char text[MBRUMZHEG_AT_LEAST(9)]) {
    size_t length = 0;
    int shift;
    for (shift = 56; shift >= 0; shift -= 8) {
        const char byte = MBRUMZHEG_AS(char, name >> shift & 0xFF);
        if (byte != 0) text[length++] = byte;
    }
    text[length] = 0;
    return length;
}

#endif
