/* The model counts alpha from the fuselage. A client's vane is set along the wing, which stands 35 milliradians nose-up on the
 * fuselage: it reads 135 where the model has 100. The published table, moved by -35 in alpha, answers at the vane's 135 what it
 * answered at the model's 100. */
#include "clochecloak.h"
#include <inttypes.h>
#include <stdio.h>

static int64_t published[CLOCHECLOAK_TABLE], client[CLOCHECLOAK_TABLE];

int main(void) {
    int64_t model[CLOCHECLOAK_COEFFICIENTS], vane[CLOCHECLOAK_COEFFICIENTS], wrong[CLOCHECLOAK_COEFFICIENTS];
    if (clochecloak_publish(published, CLOCHECLOAK_TABLE) != CLOCHECLOAK_DONE) return 1;
    if (clochecloak_move(published, CLOCHECLOAK_TABLE, 0, -35, client, CLOCHECLOAK_TABLE) != CLOCHECLOAK_DONE) return 1;
    if (clochecloak_read(published, CLOCHECLOAK_TABLE, 100, 0, 0, 0, 0, model, CLOCHECLOAK_COEFFICIENTS) != 0) return 1;
    if (clochecloak_read(client, CLOCHECLOAK_TABLE, 135, 0, 0, 0, 0, vane, CLOCHECLOAK_COEFFICIENTS) != 0) return 1;
    if (clochecloak_read(published, CLOCHECLOAK_TABLE, 135, 0, 0, 0, 0, wrong, CLOCHECLOAK_COEFFICIENTS) != 0) return 1;
    printf("m at 100 in the model         %" PRId64 "\n", model[4]);
    printf("m at 135 by the moved table   %" PRId64 "\n", vane[4]);
    printf("m at 135 left unmoved         %" PRId64 "\n", wrong[4]);
    /* the envelope moves too: 1000 + 35 is the highest alpha of the client's table */
    printf("alpha 1035 and 1036 are given %" PRIu64 " and %" PRIu64 "\n",
           clochecloak_read(client, CLOCHECLOAK_TABLE, 1035, 0, 0, 0, 0, vane, CLOCHECLOAK_COEFFICIENTS),
           clochecloak_read(client, CLOCHECLOAK_TABLE, 1036, 0, 0, 0, 0, vane, CLOCHECLOAK_COEFFICIENTS));
    clochecloak_answer answer = clochecloak_read_floats(client, CLOCHECLOAK_TABLE, 135.4, 0, 0, 0, 0);
    printf("m at 135.4 as a float         %.17g\n", answer.m);
    answer = clochecloak_read_floats(client, CLOCHECLOAK_TABLE, 1035.6, 0, 0, 0, 0);
    printf("alpha 1035.6 is given         %" PRIu64 ", with %g handed back\n", answer.number, answer.reading);
    /* a sensor whose zero is the model's, in microradians: the published table as it stands, in units of 10^-9 */
    if (clochecloak_read_microradians(100000, 0, 0, 0, 0, model, CLOCHECLOAK_COEFFICIENTS) != 0) return 1;
    printf("m at 100000 microradians      %" PRId64 "\n", model[4]);
    if (clochecloak_read_microradians(100400, 0, 0, 0, 0, model, CLOCHECLOAK_COEFFICIENTS) != 0) return 1;
    printf("m at 100400 microradians      %" PRId64 "\n", model[4]);
    return 0;
}
