/* What each refusal of mbrumzheg.h means, and what each column of an account has, for logs and for people. Included by mbrumzheg.h. */
#include "mbrumzheg.h"

#ifndef MBRUMZHEG_WORDS_H
#define MBRUMZHEG_WORDS_H

/* What a refusal means: a sentence without its first capital and full stop. */
static inline const char *mbrumzheg_refusal_text(uint64_t refusal) {
    switch (refusal) {
    case MBRUMZHEG_ACCEPTED: return "not refused";
    case MBRUMZHEG_NO_ROOM: return "the lent memory has fewer than 2,763 numbers, the account fewer than 520, or the room is shorter than the call asks for";
    case MBRUMZHEG_UNSOUND: return "the memory is marked, but what stands in it is no sound state, or a figure of the account is above 10^18";
    case MBRUMZHEG_ARMED_ALREADY: return "the memory's armed mark is not 0, so clear it before arming";
    case MBRUMZHEG_NOT_ARMED: return "the memory is not armed, so no rule stands behind this call";
    case MBRUMZHEG_PROFILE_LENGTH: return "the profile is empty or longer than 65,536 bytes";
    case MBRUMZHEG_MALFORMED: return "the line has too few or too many fields, a field of wrong length or characters, or an unknown type";
    case MBRUMZHEG_OTHER_FIRM: return "the line names another firm than the first line does";
    case MBRUMZHEG_OUT_OF_RANGE: return "the line's limit or time limit is out of range";
    case MBRUMZHEG_LEVEL_CLASH: return "the line has a root and also T for the firm, or neither";
    case MBRUMZHEG_UNIT_CLASH: return "the line sets one of call/put and month without the other, or sets them in a firm rule";
    case MBRUMZHEG_TOO_MANY: return "the line is one rule or one root more than a profile may have";
    case MBRUMZHEG_BAD_TIME: return "the time is no time of the day, or earlier than the unit's clock";
    case MBRUMZHEG_UNKNOWN: return "the root, unit, rule, level, reset, verdict or identity is not known here";
    case MBRUMZHEG_BAD_AMOUNT: return "the premium is not within $0.0001 to $10,000, the contracts not within 1 to 1,000,000, or the reports not within 1 to 16";
    case MBRUMZHEG_LOG_FULL: return "fills inside the longest window and places kept for reports leave too few of the log's 512 places";
    case MBRUMZHEG_FAULTY_RECORD: return "the event record is not 16 bytes (12 in the old form), or a field in it is out of range or not 0 where it must be";
    case MBRUMZHEG_REGISTER_FULL: return "64 orders sent away are open, so the register has no place for another";
    case MBRUMZHEG_IDENTITY_CLASH: return "an order of this identity is open already or, for a report or a closing, none is";
    case MBRUMZHEG_OVER_REPORTED: return "the report has more contracts than are open, or the order has no report left";
    case MBRUMZHEG_UNFIT: return "the record does not fit the old form: its kind is above 2, its time not in whole milliseconds, or its reset above 3";
    case MBRUMZHEG_ACCOUNT_FULL: return "a figure of the account would pass 10^18, so the event was not applied";
    default: return "this is no refusal of this library";
    }
}

/* What a column of the account has, in words. */
static inline const char *mbrumzheg_column_text(uint64_t column) {
    switch (column) {
    case MBRUMZHEG_COLUMN_ACCEPTED: return "accepted orders";
    case MBRUMZHEG_COLUMN_REJECTED: return "rejected orders";
    case MBRUMZHEG_COLUMN_FILLS: return "fills";
    case MBRUMZHEG_COLUMN_CONTRACTS: return "contracts";
    case MBRUMZHEG_COLUMN_NOTIONAL: return "notional";
    case MBRUMZHEG_COLUMN_CUTS: return "cuts";
    case MBRUMZHEG_COLUMN_TRIPS: return "trips";
    case MBRUMZHEG_COLUMN_AWAY_REPORTS: return "away reports";
    default: return "this is no column of an account";
    }
}

#endif
