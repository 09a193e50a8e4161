/* The operations in strong plain C: the same checks, refusals and answers as the proved code, on every input. Weights are exact
 * and are worked out for every table, whatever its numbers. Readings within the limits of a sound table, and moves within the
 * weight rule, keep every sum and product on the way within 64 bits, so that values and moved numbers need no checks. */
#include "states.h"
#include <float.h>
#include <math.h>

static const int START[4] = {LOW, HIGH, BETA_XI, BETA_ZETA}, DEGREE[4] = {PITCH, PITCH, SIDE, SIDE};
static const int FIRST[4] = {ALPHA, ALPHA, BETA, BETA}, SECOND[4] = {ETA, ETA, XI, ZETA};

/* The reaches of the five variables, alpha's for the low piece; and alpha's for the high piece. The pieces overlap: a float that
 * is rounded past the cut is read in the piece that it had before. */
typedef struct {
    uint64_t of[VARIABLES], high;
} reaches;

INLINE int in_range(const reaches *r) { return r->of[ALPHA] <= FARTHEST && r->high <= FARTHEST; }

INLINE void span_alpha(int64_t low, int64_t cut, int64_t high, reaches *r) {
    r->of[ALPHA] = span(low, cut + 1);
    r->high = span(cut, high);
}

/* Of a cut in range only its own thousandths, 0 to 999 above it, are less than 1000 off, modulo 2^64 too. */
INLINE int good(const int64_t *t, reaches *r) {
    if (t[0] > t[CUT] || t[CUT] >= t[2]) return 0;
    span_alpha(t[0], t[CUT], t[2], r);
    if (!in_range(r) || (uint64_t)t[FINE_CUT] - (uint64_t)t[CUT] * THOUSANDTHS >= THOUSANDTHS) return 0;
    UNROLL for (int v = BETA; v <= ZETA; v++)
        if (!reach(t[lowest(v)], t[highest(v)], &r->of[v])) return 0;
    return 1;
}

/* Whether all twelve weights are at most the cap. The side groups of a block are weighed once for both pieces. Not inlined: the
 * sums have the registers to themselves. */
static __attribute__((noinline)) int exactly_light(const int64_t *t, const reaches *r) {
    uint64_t f[BLOCK];
    multiply(f + LOW, PITCH, r->of[ALPHA], r->of[ETA]);
    multiply(f + HIGH, PITCH, r->high, r->of[ETA]);
    multiply(f + BETA_XI, SIDE, r->of[BETA], r->of[XI]);
    multiply(f + BETA_ZETA, SIDE, r->of[BETA], r->of[ZETA]);
    for (const int64_t *g = t + LIMITS; g < t + TABLE; g += BLOCK) {
        wide side = weigh((wide){0}, g + BETA_XI, f + BETA_XI, SIDE);
        side = weigh(side, g + BETA_ZETA, f + BETA_ZETA, SIDE);
        if (past(weigh(side, g + LOW, f + LOW, PITCH)) || past(weigh(side, g + HIGH, f + HIGH, PITCH))) return 0;
    }
    return 1;
}

#ifdef DOUBLES
/* The same by doubles, where they decide. The products of reaches are exact, and each weight is at most 42 roundings off, less than
 * one in 10^14: so near to the cap it is worked out again, exactly. */
INLINE void multiply_doubles(double *f, int d, double r, double s) {
    f[0] = 1;
    UNROLL for (int n = 1; n <= d; n++) {
        UNROLL for (int q = 0; q < n; q++) f[place(n, q)] = f[place(n - 1, q)] * r;
        f[place(n, n)] = f[place(n - 1, n - 1)] * s;
    }
}

INLINE double weigh_doubles(double w, const int64_t *g, const double *f, int d) {
    UNROLL for (int k = 0; k < place(d + 1, 0); k++) w += fabs((double)g[k]) * f[k];
    return w;
}

INLINE double larger(double a, double b) { return a > b ? a : b; }

static __attribute__((noinline)) int light(const int64_t *t, const reaches *r) {
    const double alpha = (int64_t)r->of[ALPHA], high = (int64_t)r->high, beta = (int64_t)r->of[BETA];
    const double xi = (int64_t)r->of[XI], eta = (int64_t)r->of[ETA], zeta = (int64_t)r->of[ZETA];
    double f[BLOCK], most = 0;
    multiply_doubles(f + LOW, PITCH, alpha, eta);
    multiply_doubles(f + HIGH, PITCH, high, eta);
    multiply_doubles(f + BETA_XI, SIDE, beta, xi);
    multiply_doubles(f + BETA_ZETA, SIDE, beta, zeta);
    for (const int64_t *g = t + LIMITS; g < t + TABLE; g += BLOCK) {
        double side = weigh_doubles(0, g + BETA_XI, f + BETA_XI, SIDE);
        side = weigh_doubles(side, g + BETA_ZETA, f + BETA_ZETA, SIDE);
        most = larger(most, weigh_doubles(side, g + LOW, f + LOW, PITCH));
        most = larger(most, weigh_doubles(side, g + HIGH, f + HIGH, PITCH));
    }
    if (most < (double)CAP * (1 - 1e-14)) return 1;
    return most < (double)CAP * (1 + 1e-14) && exactly_light(t, r);
}
#else
#define light exactly_light
#endif

static uint64_t unsound(const int64_t *t) {
    reaches r;
    if (!good(t, &r)) return 3;
    return light(t, &r) ? 0 : 4;
}

INLINE uint64_t read_sound(const int64_t *t, state x, int high, int64_t *out) {
    uint64_t no = outside(t, x);
    if (!no) values(t, 0, NULL, x, high, out);
    return no;
}

uint64_t peer_read(const int64_t *t, size_t n, int64_t a, int64_t be, int64_t xi, int64_t e, int64_t z, int64_t *out, size_t m) {
    if (n != TABLE) return 1;
    if (m != COEFFICIENTS) return 2;
    uint64_t no = unsound(t);
    return no ? no : read_sound(t, (state){{a, be, xi, e, z}}, a > t[CUT], out);
}

/* The sums as memory of which the compiler knows nothing, so that it fetches them where they are used. */
INLINE const sums *unknown(const sums *s) {
    __asm__ volatile("" : "+r"(s) : : "memory");
    return s;
}

uint64_t peer_read_many(const int64_t *t, size_t n, const int64_t *states, size_t states_count, uint64_t *numbers, size_t count,
                        int64_t *out, size_t out_count) {
    if (n != TABLE) return 1;
    if (count > SIZE_MAX / COEFFICIENTS || states_count != VARIABLES * count || out_count != COEFFICIENTS * count) return 2;
    uint64_t no = unsound(t);
    if (no) return no;
    sums made;
    add_up(t, &made);
    const sums *s = unknown(&made);
    for (size_t k = 0; k < count; k++, states += VARIABLES, out += COEFFICIENTS) {
        state x = state_at(states);
        numbers[k] = outside(t, x);
        if (numbers[k]) UNROLL for (int b = 0; b < BLOCKS; b++) out[b] = 0;
        else values(t, 1, s, x, x.of[ALPHA] > t[CUT], out);
    }
    return 0;
}

void peer_bare_many(const int64_t *t, const int64_t *states, size_t count, int64_t *out) {
    for (size_t k = 0; k < count; k++, states += VARIABLES, out += COEFFICIENTS)
        values(t, 0, NULL, state_at(states), states[ALPHA] > t[CUT], out);
}

void peer_bare_sums(const int64_t *t, const int64_t *states, size_t count, int64_t *out) {
    sums made;
    add_up(t, &made);
    const sums *s = unknown(&made);
    for (size_t k = 0; k < count; k++, states += VARIABLES, out += COEFFICIENTS)
        values(t, 1, s, state_at(states), states[ALPHA] > t[CUT], out);
}

/* The nearest whole number, a half away from zero, of a float within 2^51 of zero; of any other, a NaN and the infinities
 * included, a number that is outside all limits. What is put on is the float before a half: the sum of both is below 1. */
INLINE int64_t nearest(double f) {
    double sum = f + copysign(0x1.fffffffffffffp-2, f);
    return fabs(sum) < 0x1p51 ? (int64_t)sum : INT64_MAX;
}

/* Whether a float is past so many thousandths, as exact numbers. Rounding keeps the order, so the rounded product decides unless
 * it is the fine cut itself; then one of 64 bits does, which is exact: 53 bits times the 7 of 125 = 1000 / 8. */
_Static_assert(LDBL_MANT_DIG >= 60, "the product of a float and 1000 has up to 60 bits");
INLINE int past_thousandths(double f, int64_t fine) {
    double product = f * THOUSANDTHS;
    return product != (double)fine ? product > (double)fine : (long double)f * THOUSANDTHS > (long double)fine;
}

clochecloak_answer peer_read_floats(const int64_t *t, size_t n, double a, double be, double xi, double e, double z) {
    double f[VARIABLES] = {a, be, xi, e, z};
    int64_t six[COEFFICIENTS];
    if (n != TABLE) return (clochecloak_answer){.number = 1};
    uint64_t no = unsound(t);
    if (no) return (clochecloak_answer){.number = no};
    state x = {{nearest(a), nearest(be), nearest(xi), nearest(e), nearest(z)}};
    no = read_sound(t, x, past_thousandths(a, t[FINE_CUT]), six);
    if (no) {
        for (int v = 0; v < VARIABLES; v++)
            if (!isfinite(f[v])) return (clochecloak_answer){.number = 21 + v};
        return (clochecloak_answer){.number = no, .reading = f[no - 11]};
    }
    return (clochecloak_answer){0, 0, six[0] / 1e17, six[1] / 1e17, six[2] / 1e17, six[3] / 1e17, six[4] / 1e17, six[5] / 1e17};
}

/* Fixed point in units of 10^-9: the numbers, filled once from the published table, which has them of degree n times 1000^(4 - n)
 * in units of 10^-17. Halves go away from zero; dividing magnitudes spares the compiler the sign. */
static int64_t fine[BLOCKS][BLOCK];

void peer_prepare(const int64_t *t) {
    static const int64_t OVER[5] = {100000000, 100000, 100, 1, 1}, TIMES[5] = {1, 1, 1, 10, 10000};
    for (int b = 0; b < BLOCKS; b++)
        for (int k = 0; k < 4; k++)
            for (int n = 0; n <= DEGREE[k]; n++)
                for (int q = 0; q <= n; q++) {
                    int at = START[k] + place(n, q);
                    fine[b][at] = t[LIMITS + BLOCK * b + at] / OVER[n] * TIMES[n];
                }
}

static int64_t times(int64_t a, int64_t r) {
    int64_t p = a * r;
    return p < 0 ? -(int64_t)((500000 - (uint64_t)p) / 1000000) : (int64_t)(((uint64_t)p + 500000) / 1000000);
}

INLINE int64_t downward(const int64_t *g, int d, int64_t x, int64_t y) {
    int64_t sum = 0;
    UNROLL for (int q = d; q >= 0; q--) {
        int64_t row = g[place(d, q)];
        UNROLL for (int n = d - 1; n >= q; n--) row = times(row, x) + g[place(n, q)];
        sum = q == d ? row : times(sum, y) + row;
    }
    return sum;
}

uint64_t peer_read_microradians(int64_t a, int64_t be, int64_t xi, int64_t e, int64_t z, int64_t *out, size_t m) {
    static const int64_t MOST[VARIABLES] = {1000000, 500000, 200000, 400000, 500000};
    int64_t x[VARIABLES] = {a, be, xi, e, z};
    if (m != COEFFICIENTS) return 2;
    for (int v = 0; v < VARIABLES; v++)
        if (x[v] < (v ? -MOST[v] : -150000) || x[v] > MOST[v]) return 11 + v;
    const int pitch = a > 313269 ? HIGH : LOW;
    for (int b = 0; b < BLOCKS; b++)
        out[b] = downward(fine[b] + pitch, PITCH, a, e) + downward(fine[b] + BETA_XI, SIDE, be, xi) +
                 downward(fine[b] + BETA_ZETA, SIDE, be, z);
    return 0;
}

/* The reaches of the weight rule. Gives whether the moved limits stay in range. */
INLINE int lengthen(const int64_t *t, int v, int64_t s, reaches *r) {
    if (magnitude(s) > 2 * FARTHEST) return 0;
    if (v == ALPHA) {
        span_alpha(t[0] - s, t[CUT] - s, t[2] - s, r);
        if (!in_range(r)) return 0;
        r->high += magnitude(s);
    } else if (!reach(t[lowest(v)] - s, t[highest(v)] - s, &r->of[v])) return 0;
    r->of[v] += magnitude(s);
    return 1;
}

INLINE void move_table(const int64_t *restrict t, int64_t *restrict out, int v, int64_t s) {
    UNROLL for (int k = 0; k < LIMITS; k++) out[k] = k < lowest(v) || k > highest(v) ? t[k] : t[k] - s;
    if (v == ALPHA) out[FINE_CUT] = t[FINE_CUT] - s * THOUSANDTHS;
    for (int b = LIMITS; b < TABLE; b += BLOCK)
        UNROLL for (int k = 0; k < 4; k++)
            if (v != FIRST[k] && v != SECOND[k]) copy_group(t + b + START[k], out + b + START[k], DEGREE[k]);
    for (int b = LIMITS; b < TABLE; b += BLOCK)
        UNROLL for (int k = 0; k < 4; k++)
            if (v == FIRST[k] || v == SECOND[k])
                move_group(t + b + START[k], out + b + START[k], DEGREE[k], v == SECOND[k], s);
}

/* A reach with the size of the shift is never below the old reach, so a table that the weight rule lets through is sound. Its
 * own weights decide only which refusal another one gets. */
uint64_t peer_move(const int64_t *t, size_t n, size_t v, int64_t s, int64_t *out, size_t m) {
    reaches r;
    if (n != TABLE) return 1;
    if (m != TABLE) return 2;
    if (v > ZETA) return 5;
    if (!good(t, &r)) return 3;
    if (!lengthen(t, v, s, &r)) return unsound(t) ? 4 : 6;
    if (!light(t, &r)) return unsound(t) ? 4 : 7;
    switch (v) { /* so that each copy of the loop knows its variable */
        case ALPHA: move_table(t, out, ALPHA, s); break;
        case BETA: move_table(t, out, BETA, s); break;
        case XI: move_table(t, out, XI, s); break;
        case ETA: move_table(t, out, ETA, s); break;
        default: move_table(t, out, ZETA, s);
    }
    return 0;
}
