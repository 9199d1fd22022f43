/* Measures how much stack each call takes: the call runs on a stack that was painted before, and what is no longer painted was used. It is done
 * with two colours, since a call may write the one. Prints the most that each call took over all its tries, less what an empty call takes, and
 * ends with 1 if Arm took more than MBRUMZHEG_STACK_BYTES, one that keeps an account more than MBRUMZHEG_ACCOUNTED_STACK_BYTES, or another call more than
 * MBRUMZHEG_CALL_STACK_BYTES.
 *
 * The tries: memory that is short, unarmed, unsound; armed with one rule, with 256 rules and 64 roots, with 16 covering rules, 64 orders sent away and a
 * log of 512 entries; profiles that are refused by their last line, and one of 65,536 bytes; every reset, level and unit; no room for a
 * profile, and room for the longest. */
#define _XOPEN_SOURCE 700
#include <inttypes.h>
#include <stdio.h>
#include <string.h>
#include <ucontext.h>

#include "mbrumzheg.h"

#define ROOM (1u << 17)
#define ACCOUNTED memory, memory_len, account, MBRUMZHEG_ACCOUNT_SIZE

enum call {
    EMPTY, ARM, CLEAR, ORDER, LOCKOUT, OFFER, SEND, REPORT, CLOSE, REMAINING, STATUS, ROOT_NAMED, ROOT_NAME, RULE, PROFILE, TEXT,
    READ_RECORD16, WRITE_RECORD16, READ_RECORD, WRITE_RECORD, WIDEN, NARROW,
    ACCOUNTED_ORDER, ACCOUNTED_LOCKOUT, ACCOUNTED_OFFER, ACCOUNTED_SEND, ACCOUNTED_REPORT, ACCOUNTED_CLOSE, CALLS
};
static const char *const names[CALLS] = {"empty", "arm", "clear", "order", "lockout", "offer", "send", "report", "close", "remaining", "status",
                                         "root_named", "root_name", "rule", "profile", "text", "read_record16", "write_record16",
                                         "read_record", "write_record", "widen", "narrow", "accounted_order", "accounted_lockout",
                                         "accounted_offer", "accounted_send", "accounted_report", "accounted_close"};

/* The call that is measured, with what it is given. */
static enum call what;
static uint64_t numbers[10], row[MBRUMZHEG_EVENT16_ROW];
static uint64_t *memory, account[MBRUMZHEG_ACCOUNT_SIZE];
static size_t memory_len, text_len;
static char text[MBRUMZHEG_MOST_PROFILE_BYTES + 1];
static uint8_t room[MBRUMZHEG_TEXT_BYTES], moved[MBRUMZHEG_RECORD16_BYTES], profile_room[MBRUMZHEG_PROFILE_MOST];

static _Alignas(64) unsigned char stack[ROOM];
static ucontext_t here, there;
static size_t most[CALLS];

static void run(void) {
    const uint64_t *n = numbers;
    switch (what) {
    case ARM: mbrumzheg_arm(memory, memory_len, (const uint8_t *)text, text_len, row); break;
    case CLEAR: mbrumzheg_clear(memory, memory_len, row); break;
    case ORDER: mbrumzheg_order(memory, memory_len, n[0], n[1], n[2], row); break;
    case LOCKOUT: mbrumzheg_lockout(memory, memory_len, n[0], n[1], n[2], row); break;
    case OFFER: mbrumzheg_offer(memory, memory_len, n[0], n[1], n[2], n[3], n[4], row); break;
    case SEND: mbrumzheg_send(memory, memory_len, n[0], n[1], n[2], n[3], n[4], n[5], n[6], row); break;
    case REPORT: mbrumzheg_report(memory, memory_len, n[0], n[1], n[2], row); break;
    case CLOSE: mbrumzheg_close(memory, memory_len, n[0], n[1], row); break;
    case REMAINING: mbrumzheg_remaining(memory, memory_len, n[0], n[1], n[2], row); break;
    case STATUS: mbrumzheg_status(memory, memory_len, row); break;
    case ROOT_NAMED: mbrumzheg_root_named(memory, memory_len, (const uint8_t *)"ROOT63", n[0], row); break;
    case ROOT_NAME: mbrumzheg_root_name(memory, memory_len, n[0], room, sizeof room, row); break;
    case RULE: mbrumzheg_rule(memory, memory_len, n[0], row); break;
    case PROFILE: mbrumzheg_profile(memory, memory_len, profile_room, n[0], row); break;
    case TEXT: mbrumzheg_text(n[0], room, sizeof room, row); break;
    case READ_RECORD16: mbrumzheg_read_record16(room, MBRUMZHEG_RECORD16_BYTES, row); break;
    case WRITE_RECORD16: mbrumzheg_write_record16(n[0], n[1], n[2], n[3], n[4], n[5], n[6], n[7], n[8], n[9], room, sizeof room, row); break;
    case WIDEN: mbrumzheg_widen(room, MBRUMZHEG_RECORD_BYTES, moved, sizeof moved, row); break;
    case NARROW: mbrumzheg_narrow(room, MBRUMZHEG_RECORD16_BYTES, moved, sizeof moved, row); break;
    case READ_RECORD: mbrumzheg_read_record(room, MBRUMZHEG_RECORD_BYTES, row); break;
    case WRITE_RECORD: mbrumzheg_write_record(n[0], n[1], n[2], n[3], n[4], n[5], n[6], n[7], room, sizeof room, row); break;
    case ACCOUNTED_ORDER: mbrumzheg_accounted_order(ACCOUNTED, n[0], n[1], n[2], row); break;
    case ACCOUNTED_LOCKOUT: mbrumzheg_accounted_lockout(ACCOUNTED, n[0], n[1], n[2], row); break;
    case ACCOUNTED_OFFER: mbrumzheg_accounted_offer(ACCOUNTED, n[0], n[1], n[2], n[3], n[4], row); break;
    case ACCOUNTED_SEND: mbrumzheg_accounted_send(ACCOUNTED, n[0], n[1], n[2], n[3], n[4], n[5], n[6], row); break;
    case ACCOUNTED_REPORT: mbrumzheg_accounted_report(ACCOUNTED, n[0], n[1], n[2], row); break;
    case ACCOUNTED_CLOSE: mbrumzheg_accounted_close(ACCOUNTED, n[0], n[1], row); break;
    case EMPTY: case CALLS: break;
    }
}

/* Runs the call on a stack of one colour; how many bytes at its top are not of that colour any more. */
static size_t used(unsigned char colour) {
    size_t left = 0;
    memset(stack, colour, sizeof stack);
    getcontext(&there);
    there.uc_stack.ss_sp = stack;
    there.uc_stack.ss_size = sizeof stack;
    there.uc_link = &here;
    makecontext(&there, run, 0);
    swapcontext(&here, &there);
    while (left < sizeof stack && stack[left] == colour) left++;
    return sizeof stack - left;
}

/* Measures one call on a copy of a state, twice, and then does it on the state itself. */
static void try_call(enum call call, uint64_t *state, size_t len) {
    static uint64_t copy[MBRUMZHEG_SIZE];
    static const unsigned char colours[2] = {0xA5, 0x5A};
    what = call;
    memory = copy;
    memory_len = len;
    for (int i = 0; i < 2; i++) {
        memcpy(copy, state, sizeof copy);
        const size_t now = used(colours[i]);
        if (now > most[call]) most[call] = now;
    }
    memcpy(state, copy, sizeof copy);
}

/* Measures an event's accounted call beside the plain one: with an account that is unsound, with one that is full, and with one of zeros. */
static void try_accounted(enum call call, const uint64_t *state) {
    static const uint64_t figures[3] = {MBRUMZHEG_MOST_FIGURE + 1u, MBRUMZHEG_MOST_FIGURE, 0};
    static uint64_t beside[MBRUMZHEG_SIZE];
    for (int i = 0; i < 3; i++) {
        for (int n = 0; n < MBRUMZHEG_ACCOUNT_SIZE; n++) account[n] = figures[i];
        try_call(ACCOUNTED_ORDER + (call - ORDER), memcpy(beside, state, sizeof beside), MBRUMZHEG_SIZE);
    }
}

static void try_numbers(enum call call, uint64_t *state, uint64_t a, uint64_t b, uint64_t c, uint64_t d, uint64_t e) {
    const uint64_t given[5] = {a, b, c, d, e};
    memcpy(numbers, given, sizeof given);
    if (call >= ORDER && call <= CLOSE) try_accounted(call, state);
    try_call(call, state, MBRUMZHEG_SIZE);
}

/* Sends an order of ten contracts away. */
static void try_send(uint64_t *state, uint64_t time, uint64_t root, uint64_t identity, uint64_t reports) {
    const uint64_t given[7] = {time, root, identity % 4, 70000, 10, identity, reports};
    memcpy(numbers, given, sizeof given);
    try_accounted(SEND, state);
    try_call(SEND, state, MBRUMZHEG_SIZE);
}

/* Every call but Arm and Clear, with numbers of every kind, on a state as it stands at a time. */
static void try_calls(uint64_t *state, uint64_t time) {
    for (uint64_t root = 0; root < 65; root += 16) {
        for (uint64_t n = 0; n < 5; n++) {
            try_numbers(OFFER, state, time, root, n, 70000, 1000000);
            try_numbers(OFFER, state, time, root, n, 100000000, 1);
            try_numbers(LOCKOUT, state, time, n % 3, n ? 0 : root, 0, 0);
            try_numbers(ORDER, state, time, root, n, 0, 0);
            try_numbers(ORDER, state, time, root, n + MBRUMZHEG_RESET_T, 0, 0);
            try_numbers(REMAINING, state, time, root * 4 + n, n % 4, 0, 0);
            try_send(state, time, root, root + n, n);
            try_numbers(REPORT, state, time, root + n, n, 0, 0);
            if (n % 2 == 1) try_numbers(CLOSE, state, time, root + n, 0, 0, 0);
            try_numbers(STATUS, state, 0, 0, 0, 0, 0);
            try_numbers(ROOT_NAMED, state, n + 2, 0, 0, 0, 0);
            try_numbers(ROOT_NAME, state, root, 0, 0, 0, 0);
            try_numbers(RULE, state, root * 4 + n, 0, 0, 0, 0);
        }
    }
    try_numbers(PROFILE, state, 0, 0, 0, 0, 0);
    try_numbers(PROFILE, state, sizeof profile_room, 0, 0, 0, 0);
    try_numbers(OFFER, state, time, 0, 0, 0, 1);
    try_numbers(OFFER, state, 86400000, 0, 0, 1, 1);
}

/* The same on a copy, so that its resets leave the state as it stands. */
static void try_calls_beside(const uint64_t *state, uint64_t time) {
    static uint64_t copy[MBRUMZHEG_SIZE];
    try_calls(memcpy(copy, state, sizeof copy), time);
}

/* Adds a line to the profile's text: of a root if it has a number below 64, of the firm otherwise. */
static void add(const char *type, uint64_t root, uint64_t limit, const char *rest) {
    char name[8] = "";
    if (root < MBRUMZHEG_MOST_ROOTS) snprintf(name, sizeof name, "ROOT%02" PRIu64, root);
    text_len += (size_t)snprintf(text + text_len, sizeof text - text_len, "ABCD,%s,%s,%012" PRIu64 "%s\n", type, name, limit, rest);
}

/* Arms with the profile's text after a Clear; whether it came out as expected. */
static bool arm(uint64_t *state, uint64_t refusal) {
    try_call(CLEAR, state, MBRUMZHEG_SIZE);
    try_call(ARM, state, MBRUMZHEG_SIZE);
    if (row[0] != refusal) fprintf(stderr, "arm was refused with %" PRIu64 ", not %" PRIu64 "\n", row[0], refusal);
    return row[0] == refusal;
}

/* 256 rules of 64 roots, then one line more than there may be, then a text as long as may be, and one byte longer. */
static bool try_long_profiles(uint64_t *state) {
    static const char *const types[4] = {"rate_ntnl", "abs_ntnl", "rate_count", "abs_vol"};
    static const char *const rests[4] = {",000086400000,,C,F", ",any,,C,T", ",60000,,P,F", ",1000"};
    text_len = 0;
    for (uint64_t n = 0; n < MBRUMZHEG_MOST_RULES; n++) add(types[n % 4], n / 4, 1000000 + n, rests[n % 4]);
    bool so = arm(state, MBRUMZHEG_ACCEPTED);
    try_calls(state, 5);
    add("abs_vol", 0, 5, "");
    so &= arm(state, MBRUMZHEG_TOO_MANY);
    memset(text + text_len, 'x', sizeof text - text_len);
    text_len = MBRUMZHEG_MOST_PROFILE_BYTES;
    so &= arm(state, MBRUMZHEG_TOO_MANY);
    text_len++;
    return so & arm(state, MBRUMZHEG_PROFILE_LENGTH);
}

/* 16 rules that cover one offer, a register that is full, and a log that is filled to its last place. */
static bool try_full_log(uint64_t *state) {
    text_len = 0;
    for (uint64_t n = 0; n < 6; n++) add(n % 2 ? "rate_vol" : "abs_count", 0, 1000000000, ",86400000");
    for (uint64_t n = 0; n < 10; n++) add(n % 2 ? "rate_ntnl" : "abs_vol", MBRUMZHEG_MOST_ROOTS, 1000000000, ",86400000,T");
    const bool so = arm(state, MBRUMZHEG_ACCEPTED);
    for (uint64_t n = 0; n < MBRUMZHEG_REGISTER_PLACES; n++) try_send(state, 0, 0, 1000 + n, 1);
    for (uint64_t n = 0; n < MBRUMZHEG_LOG_PLACES; n++) {
        if (n % 64 == 0) try_calls_beside(state, n);
        try_numbers(OFFER, state, n, 0, n % 4, 1, 1);
        if (n % 8 == 0) try_numbers(REPORT, state, n, 1000 + n / 8, 1, 0, 0);
    }
    try_numbers(OFFER, state, 1000, 0, 0, 1, 1);
    const bool full = row[0] == MBRUMZHEG_LOG_FULL;
    if (!full) fprintf(stderr, "the log is not full\n");
    try_calls_beside(state, 1000);
    try_calls_beside(state, 86399999);
    return so & full;
}

/* Records of each kind in each form, and one kind too many. */
static void try_records(uint64_t *state) {
    for (uint64_t n = 0; n < 7; n++) {
        const bool filled = n == 1 || n == 3;
        const uint64_t event[10] = {n, 10000, 0, 0, filled ? 70000 : 0, filled || n == 4 ? 200 : 0, n == 0 ? 3 : 0, n == 2, n > 2 ? 7 : 0, n == 3};
        memcpy(numbers, event, sizeof event);
        static const enum call calls[6] = {WRITE_RECORD, READ_RECORD, WIDEN, WRITE_RECORD16, READ_RECORD16, NARROW};
        for (int i = 0; i < 6; i++) try_call(calls[i], state, MBRUMZHEG_SIZE);
    }
}

/* Memory that is short, unarmed, unsound; the smallest profile; texts and records. */
static bool try_small(uint64_t *state) {
    try_call(STATUS, state, 3);
    try_calls(state, 5);
    text_len = 0;
    add("abs_vol", 0, 5, "");
    const bool so = arm(state, MBRUMZHEG_ACCEPTED);
    try_calls(state, 5);
    state[MBRUMZHEG_SIZE - 1] = 600; /* a place that is not used */
    try_calls(state, 5);
    for (uint64_t n = 0; n < 4; n++) try_numbers(TEXT, state, n, 0, 0, 0, 0);
    try_records(state);
    return so;
}

int main(void) {
    static uint64_t state[MBRUMZHEG_SIZE];
    try_call(EMPTY, state, 0);
    bool so = try_small(state) & try_long_profiles(state) & try_full_log(state);
    for (int call = EMPTY + 1; call < CALLS; call++) {
        const size_t took = most[call] - most[EMPTY];
        const size_t most_of_call = call >= ACCOUNTED_ORDER ? MBRUMZHEG_ACCOUNTED_STACK_BYTES : MBRUMZHEG_CALL_STACK_BYTES;
        printf("%-17s %6zu\n", names[call], took);
        so &= took <= (call == ARM ? MBRUMZHEG_STACK_BYTES : most_of_call);
    }
    return so ? 0 : 1;
}
