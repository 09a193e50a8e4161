#include "../include/clochecloak.h"

uint64_t peer_read(const int64_t *t, size_t n, int64_t a, int64_t be, int64_t xi, int64_t e, int64_t z, int64_t *out, size_t m);
uint64_t peer_read_many(const int64_t *t, size_t n, const int64_t *states, size_t states_count, uint64_t *numbers, size_t count,
                        int64_t *out, size_t out_count);
/* The evaluation alone: of each state the piece is chosen, and the six are written. Nothing is checked. The second adds up the
 * numbers before powers of beta alone once for all states, as the read of many states does. */
void peer_bare_many(const int64_t *t, const int64_t *states, size_t count, int64_t *out);
void peer_bare_sums(const int64_t *t, const int64_t *states, size_t count, int64_t *out);
clochecloak_answer peer_read_floats(const int64_t *t, size_t n, double a, double be, double xi, double e, double z);
/* Fills the numbers of the read in microradians, to be called once before it. */
void peer_prepare(const int64_t *t);
uint64_t peer_read_microradians(int64_t a, int64_t be, int64_t xi, int64_t e, int64_t z, int64_t *out, size_t m);
uint64_t peer_move(const int64_t *t, size_t n, size_t v, int64_t s, int64_t *out, size_t m);

/* Of the GTM's longitudinal table. */
uint64_t peer_gtm_read(const int64_t *t, size_t n, int64_t a, int64_t e, int64_t *out, size_t m);
uint64_t peer_gtm_move(const int64_t *t, size_t n, size_t v, int64_t s, int64_t *out, size_t m);
