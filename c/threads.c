/* Runs the same day on several threads at the same time, each on memory and an account of its own: each must end with the memory and the account that the day
 * leaves when it runs alone. Then all threads read one memory at the same time, by Status, Remaining and Profile, and must get what one alone gets. Ends with 0
 * if it is so. */
#include <pthread.h>
#include <stdio.h>
#include <string.h>

#include "mbrumzheg.h"

enum { THREADS = 4, EVENTS = 20000 };
#define LENT memory, MBRUMZHEG_SIZE, account, MBRUMZHEG_ACCOUNT_SIZE

/* A unit's memory and the account of its day. */
struct day { uint64_t memory[MBRUMZHEG_SIZE], account[MBRUMZHEG_ACCOUNT_SIZE]; };

static struct day days[THREADS + 1];
static uint64_t sums[THREADS + 1];

/* The next of a row of numbers that look drawn at random. */
static uint64_t next(uint64_t *seed) {
    *seed = *seed * 6364136223846793005u + 1442695040888963407u;
    return *seed >> 33;
}

/* A day of offers, orders with resets, lockouts, and orders sent away with their reports, over rate and absolute rules. */
static void *run_day(void *of) {
    uint64_t *memory = ((struct day *)of)->memory, *account = ((struct day *)of)->account;
    static const char profile[] = "AB,rate_vol,X,5000,1000\nAB,abs_vol,Y,90000\nAB,rate_ntnl,,900000,200,T\nAB,rate_count,Y,20,500,,P,F\n";
    uint64_t seed = 7, time = 0;
    mbrumzheg_try_arm(memory, MBRUMZHEG_SIZE, profile, strlen(profile));
    for (int n = 0; n < EVENTS; n++) {
        const uint64_t drawn = next(&seed), root = drawn % 2;
        time += drawn % 30;
        if (drawn % 16 == 3) mbrumzheg_try_accounted_order(LENT, time, root, next(&seed) % 7);
        else if (drawn % 256 == 5) mbrumzheg_try_accounted_lockout(LENT, time, 0, root);
        else if (drawn % 16 == 7) mbrumzheg_try_accounted_send(LENT, time, root, next(&seed) % 4, 1 + drawn % 90000, 400, next(&seed) % 80, 3);
        else if (drawn % 16 == 9) mbrumzheg_try_accounted_report(LENT, time, next(&seed) % 80, 1 + drawn % 200);
        else if (drawn % 16 == 11) mbrumzheg_try_accounted_close(LENT, time, next(&seed) % 80);
        else mbrumzheg_try_accounted_offer(LENT, time, root, next(&seed) % 4, 1 + drawn % 90000, 1 + next(&seed) % 400);
    }
    return NULL;
}

/* What reading the last memory over and over adds up to. */
static void *read_all(void *sum) {
    const uint64_t *memory = days[THREADS].memory, time = MBRUMZHEG_LAST_TIME;
    *(uint64_t *)sum = 0;
    for (uint64_t n = 0; n < EVENTS; n++) {
        const struct mbrumzheg_remains remains = mbrumzheg_try_remaining(memory, MBRUMZHEG_SIZE, time, n % 4, n / 4 % 4);
        const struct mbrumzheg_standing standing = mbrumzheg_try_status(memory, MBRUMZHEG_SIZE);
        char room[MBRUMZHEG_PROFILE_MOST] = {0};
        const struct mbrumzheg_written written = mbrumzheg_try_profile(memory, MBRUMZHEG_SIZE, room, sizeof room);
        *(uint64_t *)sum += n * remains.amount + standing.locked + remains.refusal + standing.refusal;
        *(uint64_t *)sum += n * (uint64_t)room[n % 100] + written.size + written.refusal;
    }
    return NULL;
}

/* Does one thing on every thread at the same time; whether they could be started. */
static bool at_once(void *(*what)(void *), void *of[THREADS]) {
    pthread_t threads[THREADS];
    for (int n = 0; n < THREADS; n++)
        if (pthread_create(&threads[n], NULL, what, of[n]) != 0) return false;
    for (int n = 0; n < THREADS; n++) pthread_join(threads[n], NULL);
    return true;
}

int main(void) {
    void *own[THREADS], *own_sum[THREADS];
    bool so;
    for (int n = 0; n < THREADS; n++) own[n] = &days[n];
    for (int n = 0; n < THREADS; n++) own_sum[n] = &sums[n];
    run_day(&days[THREADS]);
    read_all(&sums[THREADS]);
    so = at_once(run_day, own) && at_once(read_all, own_sum) && sums[THREADS] > 0;
    /* the day has moved the clock, and filled the account */
    so = so && mbrumzheg_try_remaining(days[THREADS].memory, MBRUMZHEG_SIZE, 0, 0, 0).refusal == MBRUMZHEG_BAD_TIME;
    so = so && mbrumzheg_figure(days[THREADS].account, MBRUMZHEG_FIRM_ROW, MBRUMZHEG_COLUMN_FILLS) > 0;
    for (int n = 0; n < THREADS; n++) {
        so = so && memcmp(&days[n], &days[THREADS], sizeof days[n]) == 0;
        so = so && sums[n] == sums[THREADS];
    }
    if (!so) fprintf(stderr, "c/threads.c: a thread has another memory or account or other answers than the day alone\n");
    return so ? 0 : 1;
}
