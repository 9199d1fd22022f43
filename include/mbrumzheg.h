/* Mbrumzheg: a risk library for order gateways, for C99 and later and for C++17 and later (mbrumzheg.hpp has a class over it).
 *
 * Link libmbrumzheg.a; pkg-config and CMake know it as mbrumzheg. It needs memcpy, memmove and memset and nothing else, takes no memory from the
 * system, and keeps nothing between two calls. Arm takes at most MBRUMZHEG_STACK_BYTES of stack, a call that keeps the account
 * MBRUMZHEG_ACCOUNTED_STACK_BYTES, every other call MBRUMZHEG_CALL_STACK_BYTES (measured, not proved: c/stack.c).
 *
 * What is lent. The state is MBRUMZHEG_SIZE numbers of 64 bits that the caller lends to each call; they start at 0. More may be lent, and the
 * rest is neither read nor written. Whatever stands there, the call has an answer: unarmed or damaged numbers are refused. A part is lent as a
 * pointer and a length; the length counts numbers of 64 bits for memory, and bytes for texts, rooms and records.
 *  - A pointer is never null, also where its length is 0, and is aligned as its type asks: memory and rows to 8 bytes.
 *  - No two parts lent to one call may overlap: memory, account, text, room and row stand apart.
 *  - The length is not more than what is there. No check can see these three.
 *
 * Threads. Calls on different memory may run at the same time. On the same memory or account one call runs at a time, but for calls that take it as
 * const (Remaining, Status, and those that read the profile), which may run beside each other.
 *
 * Answers. A call writes a row of numbers, the refusal first, 0 for none; MBRUMZHEG_ROW_.. names the places. A refused call has zeros after
 * its refusal (but for Arm's line and the size that a profile takes) and changes nothing that was lent but the row. The mbrumzheg_try_..
 * functions below answer a struct instead, so that no row can be too short. */
#ifndef MBRUMZHEG_H
#define MBRUMZHEG_H

#include <stdbool.h>
#include <stddef.h>
#include <stdint.h>

#include "mbrumzheg_numbers.h"

#ifdef __cplusplus
extern "C" {
#endif

/* A row of at least so many numbers, and pointers that are not null, where the compiler can be told. */
#if defined(__cplusplus)
#define MBRUMZHEG_AT_LEAST(n) n
#else
#define MBRUMZHEG_AT_LEAST(n) static n
#endif
#if defined(__GNUC__)
#define MBRUMZHEG_NOT_NULL __attribute__((nonnull))
#else
#define MBRUMZHEG_NOT_NULL
#endif

/* The library's version, that of the file VERSION. */
#define MBRUMZHEG_VERSION "0.2.0"
#define MBRUMZHEG_VERSION_MAJOR 0
#define MBRUMZHEG_VERSION_MINOR 2
#define MBRUMZHEG_VERSION_PATCH 0

/* How many 64-bit numbers the state takes and the day's account, how many bytes a record has and one of the old form, the room for a text and for a root's name that is asked
 * for, and the most bytes that a profile written back has. */
#define MBRUMZHEG_SIZE 2763
#define MBRUMZHEG_ACCOUNT_SIZE 520
#define MBRUMZHEG_RECORD16_BYTES 16
#define MBRUMZHEG_RECORD_BYTES 12
#define MBRUMZHEG_TEXT_BYTES 20
#define MBRUMZHEG_NAME_BYTES 6
#define MBRUMZHEG_PROFILE_MOST 12544

/* How many bytes of stack Arm takes at most, how many a call that keeps the account, and how many every other call, by measurement. */
#define MBRUMZHEG_STACK_BYTES 16384
#define MBRUMZHEG_ACCOUNTED_STACK_BYTES 32768
#define MBRUMZHEG_CALL_STACK_BYTES 4096

/* Ranges: the last millisecond and microsecond of the day, ten-thousandths of a dollar, contracts, a profile's bytes, rules and roots, places of the log, the last
 * identity of an order sent away, reports that it may have, places of the register, what no figure of an account may pass. */
#define MBRUMZHEG_LAST_TIME 86399999
#define MBRUMZHEG_LAST_STAMP 86399999999
#define MBRUMZHEG_MOST_PREMIUM 100000000
#define MBRUMZHEG_MOST_CONTRACTS 1000000
#define MBRUMZHEG_MOST_PROFILE_BYTES 65536
#define MBRUMZHEG_MOST_RULES 256
#define MBRUMZHEG_MOST_ROOTS 64
#define MBRUMZHEG_LOG_PLACES 512
#define MBRUMZHEG_LAST_IDENTITY 65535
#define MBRUMZHEG_MOST_REPORTS 16
#define MBRUMZHEG_REGISTER_PLACES 64
#define MBRUMZHEG_MOST_FIGURE 1000000000000000000

/* The numbers that calls take. Each is judged by the call; one out of its range is refused by the number in brackets.
 *
 *  time       milliseconds of the trading day, 0 to 86,399,999, and not below the time of the last accepted event [12]
 *  root       0 to 63, numbered in order of first appearance in the profile, and one that the profile has [13]
 *  unit       enum mbrumzheg_unit [13]
 *  reset      enum mbrumzheg_reset [13]
 *  level      enum mbrumzheg_level [13]
 *  rule       0 to 255, numbered by line of the profile, and one that the profile has [13]
 *  premium    ten-thousandths of a dollar, 1 to 100,000,000: $7 is 70000 [14]
 *  contracts  1 to 1,000,000 [14]
 *  identity   0 to 65,535, of an order sent away [13]
 *  reports    how many an order sent away may have, 1 to 16 [14]
 *
 * An amount counted or left is in ten-thousandths of a dollar for a notional rule, in contracts for a volume rule, in executions for a count
 * rule. Notional is premium times contracts, with no contract multiplier. */

/* Arms memory from a profile's text of 1 to 65,536 bytes, which needs no terminating 0 (docs/PROFILE.md has its fields).
 * Row: refusal; for refusals 6 to 11 the first faulty line, from 1; the firm's name as one number (mbrumzheg_name_text); rules; roots. */
MBRUMZHEG_NOT_NULL void mbrumzheg_arm(uint64_t *memory, size_t memory_len, const uint8_t *text, size_t text_len,
                                      uint64_t row[MBRUMZHEG_AT_LEAST(5)]);

/* Sets the state to zeros, whatever it held. Row: refusal, 1 or none. */
MBRUMZHEG_NOT_NULL void mbrumzheg_clear(uint64_t *memory, size_t memory_len, uint64_t row[MBRUMZHEG_AT_LEAST(5)]);

/* An order: its reset is done first, then it is judged. Row: refusal, verdict. */
MBRUMZHEG_NOT_NULL void mbrumzheg_order(uint64_t *memory, size_t memory_len, uint64_t time, uint64_t root, uint64_t reset,
                                        uint64_t row[MBRUMZHEG_AT_LEAST(5)]);

/* A lockout by the user: of a root, or at level 1 of the firm, where the root must be 0. Row: refusal, verdict 0. */
MBRUMZHEG_NOT_NULL void mbrumzheg_lockout(uint64_t *memory, size_t memory_len, uint64_t time, uint64_t level, uint64_t root,
                                          uint64_t row[MBRUMZHEG_AT_LEAST(5)]);

/* An offered fill, cut to what the rules allow. Row: refusal; verdict; grant, 0 to the contracts offered; whether this offer tripped its root;
 * whether it tripped the firm. */
MBRUMZHEG_NOT_NULL void mbrumzheg_offer(uint64_t *memory, size_t memory_len, uint64_t time, uint64_t root, uint64_t unit,
                                        uint64_t premium, uint64_t contracts, uint64_t row[MBRUMZHEG_AT_LEAST(5)]);

/* An order that is to go to another market. It gets the verdict of an order without a reset. At verdict 0 the register of 64 [17] takes it up, under an
 * identity that no open order has [18]; with a rate rule in the profile a place of the log is kept for each report that may come [15]. At verdict 1 or 2
 * the clock moves and nothing else changes. Row: refusal, verdict. */
MBRUMZHEG_NOT_NULL void mbrumzheg_send(uint64_t *memory, size_t memory_len, uint64_t time, uint64_t root, uint64_t unit, uint64_t premium,
                                       uint64_t contracts, uint64_t identity, uint64_t reports, uint64_t row[MBRUMZHEG_AT_LEAST(5)]);

/* A fill of an open [18] order sent away, of 1 up to the contracts that are open, while a report is left [19]. It is counted at the premium of the sending,
 * past limits and under locks too. Row: refusal; verdict 0; the contracts as grant; whether a rule of the root trips, whether one of the firm does: an
 * absolute rule at its limit or above, a rate rule above, also where that level had tripped before. */
MBRUMZHEG_NOT_NULL void mbrumzheg_report(uint64_t *memory, size_t memory_len, uint64_t time, uint64_t identity, uint64_t contracts,
                                         uint64_t row[MBRUMZHEG_AT_LEAST(5)]);

/* Closes an open [18] order sent away: its identity may be used again, and places kept for reports that did not come are free. Row: refusal, verdict 0. */
MBRUMZHEG_NOT_NULL void mbrumzheg_close(uint64_t *memory, size_t memory_len, uint64_t time, uint64_t identity,
                                        uint64_t row[MBRUMZHEG_AT_LEAST(5)]);

/* The same six calls, which also keep the day's account: numbers of their own that are lent beside the memory and start at 0. Row r of it begins at number
 * 8 * r: rows 0 to 63 are the roots', row 64 is the firm's (enum mbrumzheg_column has the places). An event that is not refused is counted in the row of its
 * root and in the firm's. A figure above 10^18 is unsound [2]; an event that would bring one there is not applied [21]. Rows as above. */
MBRUMZHEG_NOT_NULL void mbrumzheg_accounted_order(uint64_t *memory, size_t memory_len, uint64_t *account, size_t account_len, uint64_t time,
                                                  uint64_t root, uint64_t reset, uint64_t row[MBRUMZHEG_AT_LEAST(5)]);
MBRUMZHEG_NOT_NULL void mbrumzheg_accounted_lockout(uint64_t *memory, size_t memory_len, uint64_t *account, size_t account_len, uint64_t time,
                                                    uint64_t level, uint64_t root, uint64_t row[MBRUMZHEG_AT_LEAST(5)]);
MBRUMZHEG_NOT_NULL void mbrumzheg_accounted_offer(uint64_t *memory, size_t memory_len, uint64_t *account, size_t account_len, uint64_t time,
                                                  uint64_t root, uint64_t unit, uint64_t premium, uint64_t contracts,
                                                  uint64_t row[MBRUMZHEG_AT_LEAST(5)]);
MBRUMZHEG_NOT_NULL void mbrumzheg_accounted_send(uint64_t *memory, size_t memory_len, uint64_t *account, size_t account_len, uint64_t time,
                                                 uint64_t root, uint64_t unit, uint64_t premium, uint64_t contracts, uint64_t identity,
                                                 uint64_t reports, uint64_t row[MBRUMZHEG_AT_LEAST(5)]);
MBRUMZHEG_NOT_NULL void mbrumzheg_accounted_report(uint64_t *memory, size_t memory_len, uint64_t *account, size_t account_len, uint64_t time,
                                                   uint64_t identity, uint64_t contracts, uint64_t row[MBRUMZHEG_AT_LEAST(5)]);
MBRUMZHEG_NOT_NULL void mbrumzheg_accounted_close(uint64_t *memory, size_t memory_len, uint64_t *account, size_t account_len, uint64_t time,
                                                  uint64_t identity, uint64_t row[MBRUMZHEG_AT_LEAST(5)]);

/* What remains of a rule's limit on a unit at a time; the clock does not move. A root rule that names no unit counts each of the four for itself; for a
 * rule of one unit the unit must be that one, for a firm rule 0 [13]. Row: refusal, that amount. */
MBRUMZHEG_NOT_NULL void mbrumzheg_remaining(const uint64_t *memory, size_t memory_len, uint64_t time, uint64_t rule, uint64_t unit,
                                            uint64_t row[MBRUMZHEG_AT_LEAST(5)]);

/* How the roots stand. Row: refusal, how many are tripped, locked by the user, locked at all, and the lowest locked root, 64 if none. */
MBRUMZHEG_NOT_NULL void mbrumzheg_status(const uint64_t *memory, size_t memory_len, uint64_t row[MBRUMZHEG_AT_LEAST(5)]);

/* The number of the root that has a name, given as its bytes with no terminating 0; bytes that no root has are unknown [13], whatever they are.
 * Row: refusal, the root. */
MBRUMZHEG_NOT_NULL void mbrumzheg_root_named(const uint64_t *memory, size_t memory_len, const uint8_t *name, size_t name_len,
                                             uint64_t row[MBRUMZHEG_AT_LEAST(5)]);

/* Writes the name of a root to the front of a room of at least 6 bytes, with no terminating 0. Row: refusal, how many bytes were written: 1 to 6. */
MBRUMZHEG_NOT_NULL void mbrumzheg_root_name(const uint64_t *memory, size_t memory_len, uint64_t root, uint8_t *room, size_t room_len,
                                            uint64_t row[MBRUMZHEG_AT_LEAST(5)]);

/* A rule by its number. Row, of SIX numbers: refusal; type, enum mbrumzheg_rule_type; limit as the profile has it, in whole dollars, contracts or
 * executions; window in milliseconds, 0 for an absolute rule; root, 64 for a firm rule; unit, 4 for all four. */
MBRUMZHEG_NOT_NULL void mbrumzheg_rule(const uint64_t *memory, size_t memory_len, uint64_t rule, uint64_t row[MBRUMZHEG_AT_LEAST(6)]);

/* Writes the rules that are active as a profile's text to the front of a room, with no terminating 0: a line a rule, in their order, each ended by LF,
 * with no leading zeros, with windows as they take effect, and with no empty fields at its end. To arm cleared memory with it gives the same rules,
 * roots and numbers. MBRUMZHEG_PROFILE_MOST bytes are always room enough.
 * Row: refusal; how many bytes were written or, with 1 for a room that is short, how many it takes (0 with 1 for memory that is short). */
MBRUMZHEG_NOT_NULL void mbrumzheg_profile(const uint64_t *memory, size_t memory_len, uint8_t *room, size_t room_len,
                                          uint64_t row[MBRUMZHEG_AT_LEAST(5)]);

/* Writes the text of a rejection, for verdict 1 or 2, to the front of a room of at least 20 bytes, with no terminating 0.
 * Row: refusal, how many bytes were written: 20 or 19. */
MBRUMZHEG_NOT_NULL void mbrumzheg_text(uint64_t verdict, uint8_t *room, size_t room_len, uint64_t row[MBRUMZHEG_AT_LEAST(5)]);

/* Reads an event record of just 16 bytes, whose time is in microseconds: the other calls take its whole milliseconds. Row, of THIRTEEN numbers: refusal,
 * kind, time, root, unit, premium, contracts, reset, level, identity, reports, and two that are 0. */
MBRUMZHEG_NOT_NULL void mbrumzheg_read_record16(const uint8_t *bytes, size_t bytes_len, uint64_t row[MBRUMZHEG_AT_LEAST(13)]);

/* Writes an event's record to the first 16 bytes of a room, its time in microseconds, 0 to 86,399,999,999; a number that its kind does not use is 0 [16].
 * Row: refusal. */
MBRUMZHEG_NOT_NULL void mbrumzheg_write_record16(uint64_t kind, uint64_t time, uint64_t root, uint64_t unit, uint64_t premium,
                                                 uint64_t contracts, uint64_t reset, uint64_t level, uint64_t identity, uint64_t reports,
                                                 uint8_t *room, size_t room_len, uint64_t row[MBRUMZHEG_AT_LEAST(5)]);

/* Reads an event record of the old form, of just 12 bytes, its time in milliseconds. Row, of NINE numbers: refusal, kind, time, root, unit, premium,
 * contracts, reset, level. */
MBRUMZHEG_NOT_NULL void mbrumzheg_read_record(const uint8_t *bytes, size_t bytes_len, uint64_t row[MBRUMZHEG_AT_LEAST(9)]);

/* Writes an event's record of the old form to the first 12 bytes of a room; a number that its kind does not use is 0, and kinds above 2 and resets
 * above 3 have no such record [16].
 * Row: refusal. */
MBRUMZHEG_NOT_NULL void mbrumzheg_write_record(uint64_t kind, uint64_t time, uint64_t root, uint64_t unit, uint64_t premium,
                                               uint64_t contracts, uint64_t reset, uint64_t level, uint8_t *room, size_t room_len,
                                               uint64_t row[MBRUMZHEG_AT_LEAST(5)]);

/* Moves a record of the old form, of just 12 bytes [16], to the first 16 bytes of a room as one with microseconds. Row: refusal. */
MBRUMZHEG_NOT_NULL void mbrumzheg_widen(const uint8_t *bytes, size_t bytes_len, uint8_t *room, size_t room_len,
                                        uint64_t row[MBRUMZHEG_AT_LEAST(5)]);

/* Moves a record of just 16 bytes [16] to the first 12 bytes of a room as one of the old form, which has kinds up to 2, whole milliseconds and resets up to
 * 3 alone [20]. Row: refusal. */
MBRUMZHEG_NOT_NULL void mbrumzheg_narrow(const uint8_t *bytes, size_t bytes_len, uint8_t *room, size_t room_len,
                                         uint64_t row[MBRUMZHEG_AT_LEAST(5)]);

#ifdef __cplusplus
}
#endif

#include "mbrumzheg_structs.h"
#include "mbrumzheg_answers.h"
#include "mbrumzheg_events.h"
#include "mbrumzheg_account.h"
#include "mbrumzheg_words.h"

#endif
