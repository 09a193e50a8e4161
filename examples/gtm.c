/* The GTM's longitudinal model, with a sensor of alpha that reads 65 where the model has 100. The published table, moved by 35 in
 * alpha, answers at the sensor's 65 what it answered at the model's 100. The zero of eta stays where it was. */
#include "clochecloak.h"
#include <inttypes.h>
#include <stdio.h>

enum { TABLE = CLOCHECLOAK_GTM_TABLE, COEFFICIENTS = CLOCHECLOAK_GTM_COEFFICIENTS };

static int64_t published[TABLE], client[TABLE], three[COEFFICIENTS];

static uint64_t print(const char *what, const int64_t *table, int64_t alpha, int64_t eta) {
    uint64_t refused = clochecloak_gtm_read(table, TABLE, alpha, eta, three, COEFFICIENTS);
    if (refused) return refused;
    printf("%-29s %" PRId64 " %" PRId64 " %" PRId64 "\n", what, three[0], three[1], three[2]);
    return CLOCHECLOAK_DONE;
}

int main(void) {
    if (clochecloak_gtm_publish(published, TABLE) != CLOCHECLOAK_DONE) return 1;
    if (clochecloak_gtm_move(published, TABLE, 0, 35, client, TABLE) != CLOCHECLOAK_DONE) return 1;
    /* lift, drag and pitching moment */
    if (print("at 100 in the model", published, 100, 0) != CLOCHECLOAK_DONE) return 1;
    if (print("at 65 by the moved table", client, 65, 0) != CLOCHECLOAK_DONE) return 1;
    if (print("at 65 left unmoved", published, 65, 0) != CLOCHECLOAK_DONE) return 1;
    if (print("at 22, elevator at -33", client, 22, -33) != CLOCHECLOAK_DONE) return 1;
    /* the envelope moves too: 1000 - 35 is the highest alpha of the client's table */
    printf("alpha 965 and 966 are given   %" PRIu64 " and %" PRIu64 "\n",
           clochecloak_gtm_read(client, TABLE, 965, 0, three, COEFFICIENTS),
           clochecloak_gtm_read(client, TABLE, 966, 0, three, COEFFICIENTS));
    printf("eta 400 and 401 are given     %" PRIu64 " and %" PRIu64 "\n",
           clochecloak_gtm_read(client, TABLE, 0, 400, three, COEFFICIENTS),
           clochecloak_gtm_read(client, TABLE, 0, 401, three, COEFFICIENTS));
    /* the other model's functions know this table by its length */
    int64_t six[CLOCHECLOAK_COEFFICIENTS];
    printf("read as a Cumulus One table   %" PRIu64 "\n",
           clochecloak_read(client, TABLE, 0, 0, 0, 0, 0, six, CLOCHECLOAK_COEFFICIENTS));
    return 0;
}
