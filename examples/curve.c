/* The pitching moment over the angle of attack as the vane of vane.c has it read: for each milliradian that both tables answer,
 * the model's angle, m by the moved table and m by the published one left unmoved, in units of 10^-17. */
#include "clochecloak.h"
#include <inttypes.h>
#include <stdio.h>

static int64_t published[CLOCHECLOAK_TABLE], client[CLOCHECLOAK_TABLE];

int main(void) {
    int64_t right[CLOCHECLOAK_COEFFICIENTS], wrong[CLOCHECLOAK_COEFFICIENTS];
    if (clochecloak_publish(published, CLOCHECLOAK_TABLE) != CLOCHECLOAK_DONE) return 1;
    if (clochecloak_move(published, CLOCHECLOAK_TABLE, 0, -35, client, CLOCHECLOAK_TABLE) != CLOCHECLOAK_DONE) return 1;
    for (int64_t vane = -1000; vane <= 2000; vane++) {
        if (clochecloak_read(client, CLOCHECLOAK_TABLE, vane, 0, 0, 0, 0, right, CLOCHECLOAK_COEFFICIENTS) != 0) continue;
        if (clochecloak_read(published, CLOCHECLOAK_TABLE, vane, 0, 0, 0, 0, wrong, CLOCHECLOAK_COEFFICIENTS) != 0) continue;
        printf("%" PRId64 " %" PRId64 " %" PRId64 "\n", vane - 35, right[4], wrong[4]);
    }
    return 0;
}
