/* What the numbers of mbrumzheg.h stand for: refusals, verdicts, resets and the like, and the places in a row. Included by mbrumzheg.h. */
#ifndef MBRUMZHEG_NUMBERS_H
#define MBRUMZHEG_NUMBERS_H

/* Refusals. docs/EMBEDDING.md says what to do at each. */
enum mbrumzheg_refusal {
    MBRUMZHEG_ACCEPTED = 0,
    MBRUMZHEG_NO_ROOM = 1,         /* the memory is short, the account is, or the room is */
    MBRUMZHEG_UNSOUND = 2,         /* the mark is not 0, and the state is not sound; or a figure of the account is above 10^18 */
    MBRUMZHEG_ARMED_ALREADY = 3,   /* arming with a mark that is not 0 */
    MBRUMZHEG_NOT_ARMED = 4,       /* the mark is 0 */
    MBRUMZHEG_PROFILE_LENGTH = 5,  /* the profile is empty, or above 65,536 bytes */
    MBRUMZHEG_MALFORMED = 6,       /* a line's number of fields, a field's length or characters, or an unknown type */
    MBRUMZHEG_OTHER_FIRM = 7,      /* a line's firm differs from line 1's */
    MBRUMZHEG_OUT_OF_RANGE = 8,    /* a limit or a window */
    MBRUMZHEG_LEVEL_CLASH = 9,     /* a root with T, or neither */
    MBRUMZHEG_UNIT_CLASH = 10,     /* call/put and month do not go together, or stand in a firm rule */
    MBRUMZHEG_TOO_MANY = 11,       /* one rule or root too many */
    MBRUMZHEG_BAD_TIME = 12,       /* a time out of range, or below the clock */
    MBRUMZHEG_UNKNOWN = 13,        /* a root, unit, rule, level, reset, verdict or identity, a unit that is not the rule's, or a root's name */
    MBRUMZHEG_BAD_AMOUNT = 14,     /* a premium, contracts or reports out of range */
    MBRUMZHEG_LOG_FULL = 15,       /* entries inside the longest window and kept places would be more than 512 */
    MBRUMZHEG_FAULTY_RECORD = 16,  /* no record of a valid event, or no valid event */
    MBRUMZHEG_REGISTER_FULL = 17,  /* 64 orders sent away are open */
    MBRUMZHEG_IDENTITY_CLASH = 18, /* an order of that identity is open already or, for a report or a closing, is not open */
    MBRUMZHEG_OVER_REPORTED = 19,  /* more contracts than are open, or no report left */
    MBRUMZHEG_UNFIT = 20,          /* a record that does not fit the old form */
    MBRUMZHEG_ACCOUNT_FULL = 21    /* a figure of the account would pass 10^18 */
};

/* Verdicts: not locked, the firm is locked, the root is locked. */
enum mbrumzheg_verdict { MBRUMZHEG_FREE = 0, MBRUMZHEG_FIRM_LOCKED = 1, MBRUMZHEG_ROOT_LOCKED = 2 };

/* What an order resets: nothing; the counts and locks of its root, of the firm, of both; the locks alone of its root (T), of the firm (E), of both. */
enum mbrumzheg_reset {
    MBRUMZHEG_RESET_NONE = 0,
    MBRUMZHEG_RESET_SYMBOL = 1,
    MBRUMZHEG_RESET_FIRM = 2,
    MBRUMZHEG_RESET_BOTH = 3,
    MBRUMZHEG_RESET_T = 4,
    MBRUMZHEG_RESET_E = 5,
    MBRUMZHEG_RESET_TE = 6
};

/* What a lockout locks. */
enum mbrumzheg_level { MBRUMZHEG_LEVEL_ROOT = 0, MBRUMZHEG_LEVEL_FIRM = 1 };

/* The units of a root: calls or puts, of the front two months or of the trailing months behind them. */
enum mbrumzheg_unit {
    MBRUMZHEG_CALLS_FRONT = 0,
    MBRUMZHEG_CALLS_TRAILING = 1,
    MBRUMZHEG_PUTS_FRONT = 2,
    MBRUMZHEG_PUTS_TRAILING = 3
};

/* The kinds of events; a record of the old form has the first three alone. */
enum mbrumzheg_kind {
    MBRUMZHEG_KIND_ORDER = 0,
    MBRUMZHEG_KIND_OFFER = 1,
    MBRUMZHEG_KIND_LOCKOUT = 2,
    MBRUMZHEG_KIND_SEND = 3,
    MBRUMZHEG_KIND_REPORT = 4,
    MBRUMZHEG_KIND_CLOSE = 5
};

/* The types of rules, by what they count: premium times contracts, contracts or executions, in a window of time or over the day. */
enum mbrumzheg_rule_type {
    MBRUMZHEG_RATE_NTNL = 0,
    MBRUMZHEG_RATE_VOL = 1,
    MBRUMZHEG_RATE_COUNT = 2,
    MBRUMZHEG_ABS_NTNL = 3,
    MBRUMZHEG_ABS_VOL = 4,
    MBRUMZHEG_ABS_COUNT = 5
};

/* The places in a row of the account: orders and sendings at verdict 0 and at any other; offers that were granted something, their contracts, and premium
 * times contracts in ten-thousandths of a dollar; offers that were not locked out and got less than was offered; root trips, in the firm's row firm trips;
 * reports of orders sent away. */
enum mbrumzheg_column {
    MBRUMZHEG_COLUMN_ACCEPTED = 0,
    MBRUMZHEG_COLUMN_REJECTED = 1,
    MBRUMZHEG_COLUMN_FILLS = 2,
    MBRUMZHEG_COLUMN_CONTRACTS = 3,
    MBRUMZHEG_COLUMN_NOTIONAL = 4,
    MBRUMZHEG_COLUMN_CUTS = 5,
    MBRUMZHEG_COLUMN_TRIPS = 6,
    MBRUMZHEG_COLUMN_AWAY_REPORTS = 7
};

/* How many columns a row of the account has, and which row is the firm's: those before it are the roots'. */
enum { MBRUMZHEG_COLUMNS = 8, MBRUMZHEG_FIRM_ROW = 64 };

/* Status' lowest locked root where none is locked, and a firm rule's root; the unit of a rule that covers all four. */
enum { MBRUMZHEG_NO_ROOT = 64, MBRUMZHEG_ALL_UNITS = 4 };

/* How long a row is, that of a rule, that of a record that was read, and of one of the old form. */
enum { MBRUMZHEG_ROW = 5, MBRUMZHEG_RULE_ROW = 6, MBRUMZHEG_EVENT16_ROW = 13, MBRUMZHEG_EVENT_ROW = 9 };

/* The places in a row: of every call, of Arm, of events (Order, Lockout, Offer, Send, Report, Close), of Remaining, of Status, of Text, a root's name and
 * a profile, of a root by its name, of a rule, of a record that was read (one of the old form has no identity and no reports). */
enum mbrumzheg_place {
    MBRUMZHEG_ROW_REFUSAL = 0,

    MBRUMZHEG_ROW_LINE = 1,
    MBRUMZHEG_ROW_FIRM = 2,
    MBRUMZHEG_ROW_RULES = 3,
    MBRUMZHEG_ROW_ROOTS = 4,

    MBRUMZHEG_ROW_VERDICT = 1,
    MBRUMZHEG_ROW_GRANT = 2,
    MBRUMZHEG_ROW_ROOT_TRIP = 3,
    MBRUMZHEG_ROW_FIRM_TRIP = 4,

    MBRUMZHEG_ROW_REMAINS = 1,

    MBRUMZHEG_ROW_TRIPPED = 1,
    MBRUMZHEG_ROW_LOCKED_BY_USER = 2,
    MBRUMZHEG_ROW_LOCKED = 3,
    MBRUMZHEG_ROW_LOWEST_LOCKED = 4,

    MBRUMZHEG_ROW_BYTES = 1,

    MBRUMZHEG_ROW_ROOT_NAMED = 1,

    MBRUMZHEG_ROW_RULE_TYPE = 1,
    MBRUMZHEG_ROW_RULE_LIMIT = 2,
    MBRUMZHEG_ROW_RULE_WINDOW = 3,
    MBRUMZHEG_ROW_RULE_ROOT = 4,
    MBRUMZHEG_ROW_RULE_UNIT = 5,

    MBRUMZHEG_ROW_KIND = 1,
    MBRUMZHEG_ROW_TIME = 2,
    MBRUMZHEG_ROW_ROOT = 3,
    MBRUMZHEG_ROW_UNIT = 4,
    MBRUMZHEG_ROW_PREMIUM = 5,
    MBRUMZHEG_ROW_CONTRACTS = 6,
    MBRUMZHEG_ROW_RESET = 7,
    MBRUMZHEG_ROW_LEVEL = 8,
    MBRUMZHEG_ROW_IDENTITY = 9,
    MBRUMZHEG_ROW_REPORTS = 10
};

#endif
