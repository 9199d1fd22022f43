/* Arms memory from the profile on standard input and prints what came of it: `accepted`, firm, rules and roots, or `refused`, number and line. */
#include <inttypes.h>
#include <stdio.h>

#include "mbrumzheg.h"

static uint64_t memory[MBRUMZHEG_SIZE];
static char text[MBRUMZHEG_MOST_PROFILE_BYTES + 1];

int main(void) {
    const size_t length = fread(text, 1, sizeof text, stdin);
    const struct mbrumzheg_armed armed = mbrumzheg_try_arm(memory, MBRUMZHEG_SIZE, text, length);
    char firm[9];
    mbrumzheg_name_text(armed.firm, firm);
    if (armed.refusal == MBRUMZHEG_ACCEPTED) printf("accepted %s %" PRIu64 " %" PRIu64 "\n", firm, armed.rules, armed.roots);
    else printf("refused %d %" PRIu64 "\n", (int)armed.refusal, armed.line);
    return 0;
}
