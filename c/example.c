/* A gateway's first steps from C: arms memory from a profile, passes two offers and an order, and prints the lines that the program `gateway`
 * prints for them. Its last lines show what a gateway sends back, and that memory which is not armed lets nothing through. */
#include <inttypes.h>
#include <stdio.h>
#include <string.h>

#include "mbrumzheg.h"

/* The state: numbers that are lent to every call and that start at 0. */
static uint64_t memory[MBRUMZHEG_SIZE];

/* Arms the memory and says so, or says which line of the profile was refused, and why; whether it is armed. */
static bool arm(const char *profile) {
    const struct mbrumzheg_armed armed = mbrumzheg_try_arm(memory, MBRUMZHEG_SIZE, profile, strlen(profile));
    char firm[9];
    if (armed.refusal != MBRUMZHEG_ACCEPTED) {
        printf("refused %d %" PRIu64 ": %s\n", (int)armed.refusal, armed.line, mbrumzheg_refusal_text(armed.refusal));
        return false;
    }
    mbrumzheg_name_text(armed.firm, firm);
    printf("armed %s %" PRIu64 " %" PRIu64 "\n", firm, armed.rules, armed.roots);
    return true;
}

/* Prints an event's place and what it was answered: refusal, verdict, grant, root trip, firm trip. */
static void print(int place, struct mbrumzheg_judged judged) {
    printf("%d %d %d %" PRIu64 " %d %d\n", place, (int)judged.refusal, (int)judged.verdict, judged.grant, judged.root_trip, judged.firm_trip);
}

/* An offered fill on the profile's first root, calls of the front months, at $7. */
static struct mbrumzheg_judged offer(uint64_t time, uint64_t contracts) {
    const uint64_t root = 0, seven_dollars = 70000;
    return mbrumzheg_try_offer(memory, MBRUMZHEG_SIZE, time, root, MBRUMZHEG_CALLS_FRONT, seven_dollars, contracts);
}

int main(void) {
    struct mbrumzheg_judged judged;

    if (!arm("ABCD,abs_vol,XYZ,1000,0")) return 1;
    print(1, offer(0, 950));
    print(2, offer(10, 200));
    judged = mbrumzheg_try_order(memory, MBRUMZHEG_SIZE, 20, 0, MBRUMZHEG_RESET_NONE);
    print(3, judged);
    printf("%s\n", mbrumzheg_try_text(judged.verdict).text);

    mbrumzheg_try_clear(memory, MBRUMZHEG_SIZE);
    judged = offer(30, 1);
    print(4, judged);
    return judged.refusal == MBRUMZHEG_NOT_ARMED ? 0 : 1;
}
