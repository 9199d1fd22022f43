/* What the calls of mbrumzheg.h answer, and events, as structs. Included by mbrumzheg.h. */
#include "mbrumzheg.h"

#ifndef MBRUMZHEG_STRUCTS_H
#define MBRUMZHEG_STRUCTS_H

/* What Arm answers: the refusal, for 6 to 11 with the first faulty line from 1; the firm's name as one number; how many rules and roots. */
struct mbrumzheg_armed {
    enum mbrumzheg_refusal refusal;
    uint64_t line;
    uint64_t firm;
    uint64_t rules;
    uint64_t roots;
};

/* What an event is answered; of an offer or a report also the contracts granted or counted, and what it tripped. */
struct mbrumzheg_judged {
    enum mbrumzheg_refusal refusal;
    enum mbrumzheg_verdict verdict;
    uint64_t grant;
    bool root_trip;
    bool firm_trip;
};

/* What remains of a rule's limit on a unit: ten-thousandths of a dollar, contracts or executions, by the rule's type. */
struct mbrumzheg_remains {
    enum mbrumzheg_refusal refusal;
    uint64_t amount;
};

/* How many roots are tripped, locked by the user, locked at all; the lowest locked one, MBRUMZHEG_NO_ROOT if none. */
struct mbrumzheg_standing {
    enum mbrumzheg_refusal refusal;
    uint64_t tripped;
    uint64_t locked_by_user;
    uint64_t locked;
    uint64_t lowest_locked;
};

/* The root that has a name. */
struct mbrumzheg_found {
    enum mbrumzheg_refusal refusal;
    uint64_t root;
};

/* A root's name, here with a terminating 0, and its length without it. */
struct mbrumzheg_name {
    enum mbrumzheg_refusal refusal;
    size_t length;
    char text[MBRUMZHEG_NAME_BYTES + 1];
};

/* A rule: its limit as the profile has it, in whole dollars, contracts or executions; its window in milliseconds, 0 for an absolute rule; its root,
 * MBRUMZHEG_NO_ROOT for a firm rule; its unit, MBRUMZHEG_ALL_UNITS for all four. */
struct mbrumzheg_rule_terms {
    enum mbrumzheg_refusal refusal;
    enum mbrumzheg_rule_type type;
    uint64_t limit;
    uint64_t window;
    uint64_t root;
    uint64_t unit;
};

/* How many bytes of a profile were written; with MBRUMZHEG_NO_ROOM for a room that is short, how many it takes. */
struct mbrumzheg_written {
    enum mbrumzheg_refusal refusal;
    size_t size;
};

/* The text of a rejection, here with a terminating 0, and its length without it. */
struct mbrumzheg_wording {
    enum mbrumzheg_refusal refusal;
    size_t length;
    char text[MBRUMZHEG_TEXT_BYTES + 1];
};

/* An event by its numbers; one that its kind does not use is 0. Its time is in milliseconds, as the calls take it; the microseconds beyond them, 0 to 999,
 * stand in its record alone. */
struct mbrumzheg_event {
    uint64_t kind;
    uint64_t time;
    uint64_t root;
    uint64_t unit;
    uint64_t premium;
    uint64_t contracts;
    uint64_t reset;
    uint64_t level;
    uint64_t identity;
    uint64_t reports;
    uint64_t micros;
};

/* What a record was read as. */
struct mbrumzheg_reading {
    enum mbrumzheg_refusal refusal;
    struct mbrumzheg_event event;
};

/* The record of an event. */
struct mbrumzheg_record16 {
    enum mbrumzheg_refusal refusal;
    uint8_t bytes[MBRUMZHEG_RECORD16_BYTES];
};

/* The record of an event in the old form. */
struct mbrumzheg_record {
    enum mbrumzheg_refusal refusal;
    uint8_t bytes[MBRUMZHEG_RECORD_BYTES];
};

#endif
