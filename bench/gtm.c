/* The operations of the GTM's longitudinal table in strong plain C, as peer.c has those of the Cumulus One: the same checks,
 * refusals and answers as the proved code, on every input. */
#include "groups.h"

enum { LIMITS = 5, GROUP = 10, TABLE = 65, COEFFICIENTS = 3, DEGREE = 3 };
enum { ALPHA, ETA };

/* Alpha's for each piece, and eta's. */
typedef struct {
    uint64_t low, high, eta;
} reaches;

INLINE int good(const int64_t *t, reaches *r) {
    return reach(t[0], t[1], &r->low) && reach(t[1] + 1, t[2], &r->high) && reach(t[3], t[4], &r->eta);
}

/* Whether all six weights are at most the cap: low and high groups by turns. */
INLINE int light(const int64_t *t, const reaches *r) {
    uint64_t low[GROUP], high[GROUP];
    multiply(low, DEGREE, r->low, r->eta);
    multiply(high, DEGREE, r->high, r->eta);
    UNROLL for (const int64_t *g = t + LIMITS; g < t + TABLE; g += 2 * GROUP)
        if (past(weigh((wide){0}, g, low, DEGREE)) || past(weigh((wide){0}, g + GROUP, high, DEGREE))) return 0;
    return 1;
}

/* Neither of these two is inlined: the sums have the registers to themselves. */
static __attribute__((noinline)) uint64_t unsound(const int64_t *t) {
    reaches r;
    if (!good(t, &r)) return 3;
    return light(t, &r) ? 0 : 4;
}

static __attribute__((noinline)) int light_apart(const int64_t *t, const reaches *r) { return light(t, r); }

uint64_t peer_gtm_read(const int64_t *t, size_t n, int64_t a, int64_t e, int64_t *out, size_t m) {
    if (n != TABLE) return 1;
    if (m != COEFFICIENTS) return 2;
    uint64_t no = unsound(t);
    if (no) return no;
    if (a < t[0] || a > t[2]) return 11;
    if (e < t[3] || e > t[4]) return 14;
    const int64_t *g = t + LIMITS + (a > t[1] ? GROUP : 0);
    UNROLL for (int b = 0; b < COEFFICIENTS; b++, g += 2 * GROUP) out[b] = value(g, DEGREE, 0, a, e);
    return 0;
}

/* The reaches of the weight rule. Gives whether the moved limits stay in range. */
INLINE int lengthen(const int64_t *t, int v, int64_t s, reaches *r) {
    uint64_t more = magnitude(s);
    if (more > 2 * FARTHEST) return 0;
    if (v == ETA) {
        if (!reach(t[3] - s, t[4] - s, &r->eta)) return 0;
        r->eta += more;
        return 1;
    }
    if (!reach(t[0] - s, t[1] - s, &r->low) || !reach(t[1] + 1 - s, t[2] - s, &r->high)) return 0;
    r->low += more, r->high += more;
    return 1;
}

INLINE void move_table(const int64_t *restrict t, int64_t *restrict out, int v, int64_t s) {
    UNROLL for (int k = 0; k < LIMITS; k++) out[k] = (k < 3) == (v == ALPHA) ? t[k] - s : t[k];
    UNROLL for (int k = LIMITS; k < TABLE; k += GROUP) move_group(t + k, out + k, DEGREE, v == ETA, s);
}

/* A table that the weight rule lets through is sound, as in peer.c. */
uint64_t peer_gtm_move(const int64_t *t, size_t n, size_t v, int64_t s, int64_t *out, size_t m) {
    reaches r;
    if (n != TABLE) return 1;
    if (m != TABLE) return 2;
    if (v > ETA) return 5;
    if (!good(t, &r)) return 3;
    if (!lengthen(t, v, s, &r)) return unsound(t) ? 4 : 6;
    if (!light_apart(t, &r)) return unsound(t) ? 4 : 7;
    if (v == ALPHA) move_table(t, out, ALPHA, s);
    else move_table(t, out, ETA, s);
    return 0;
}
