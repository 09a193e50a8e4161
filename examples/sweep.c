/* The vane of vane.c over its whole range, in one call: every hundred milliradians from -300 to 1100. The moved table is looked at
 * once. Readings outside it are refused one by one, and the others are answered. */
#include "clochecloak.h"
#include <inttypes.h>
#include <stdio.h>

enum { STATES = 15, VARIABLES = 5, COEFFICIENTS = CLOCHECLOAK_COEFFICIENTS, PITCH = 4 };

static int64_t published[CLOCHECLOAK_TABLE], client[CLOCHECLOAK_TABLE];

int main(void) {
    int64_t states[STATES * VARIABLES] = {0}, out[STATES * COEFFICIENTS];
    uint64_t numbers[STATES];
    for (int k = 0; k < STATES; k++) states[k * VARIABLES] = 100 * k - 300;
    if (clochecloak_publish(published, CLOCHECLOAK_TABLE) != CLOCHECLOAK_DONE) return 1;
    if (clochecloak_move(published, CLOCHECLOAK_TABLE, 0, -35, client, CLOCHECLOAK_TABLE) != CLOCHECLOAK_DONE) return 1;
    uint64_t refused = clochecloak_read_many(client, CLOCHECLOAK_TABLE, states, STATES * VARIABLES, numbers, STATES, out,
                                             STATES * COEFFICIENTS);
    if (refused != CLOCHECLOAK_DONE) return 1;
    for (int k = 0; k < STATES; k++) {
        const int64_t *state = states + k * VARIABLES, *six = out + k * COEFFICIENTS;
        printf("alpha %4" PRId64 ": %2" PRIu64 ", m %" PRId64 "\n", state[0], numbers[k], six[PITCH]);
    }
    return 0;
}
