/* A sound table of the Cumulus One read at a state, in strong plain C: what the peer's reads and its lines are made of. */
#include "groups.h"

enum { LIMITS = 12, BLOCK = 50, BLOCKS = 6, TABLE = 312, COEFFICIENTS = 6, VARIABLES = 5 };
enum { CUT = 1, FINE_CUT = 3, THOUSANDTHS = 1000 }; /* places of the cut, whole and in thousandths of a milliradian */
enum { ALPHA, BETA, XI, ETA, ZETA };
enum { LOW = 0, HIGH = 10, BETA_XI = 20, BETA_ZETA = 35 }; /* where the groups of a block start */
enum { PITCH = 3, SIDE = 4 };                              /* their degrees */

INLINE int lowest(int v) { return v ? 2 * v + 2 : 0; }
INLINE int highest(int v) { return v ? 2 * v + 3 : 2; }

/* A state by value: behind a pointer it would have to be fetched again after each number that is written. */
typedef struct {
    int64_t of[VARIABLES];
} state;

INLINE state state_at(const int64_t *x) { return (state){{x[0], x[1], x[2], x[3], x[4]}}; }

/* The terms of both side groups that have powers of beta alone. For many states of one table their numbers are added up before. */
INLINE int64_t beta_alone(const int64_t *g, int64_t beta) {
    int64_t sum = 0;
    UNROLL for (int n = SIDE; n >= 0; n--) sum = sum * beta + g[BETA_XI + place(n, 0)] + g[BETA_ZETA + place(n, 0)];
    return sum;
}

typedef struct {
    int64_t of[BLOCKS][SIDE + 1];
} sums;

INLINE int64_t beta_added(const int64_t *numbers, int64_t beta) {
    int64_t sum = 0;
    UNROLL for (int n = SIDE; n >= 0; n--) sum = sum * beta + numbers[n];
    return sum;
}

/* With the numbers before beta alone as they stand, or added up. */
INLINE void values(const int64_t *t, int added, const sums *s, state x, int high, int64_t *out) {
    const int64_t *g = t + LIMITS, *pitch = g + (high ? HIGH : LOW);
    UNROLL for (int b = 0; b < BLOCKS; b++, g += BLOCK, pitch += BLOCK) {
        int64_t sum = value(pitch, PITCH, 0, x.of[ALPHA], x.of[ETA]);
        sum += added ? beta_added(s->of[b], x.of[BETA]) : beta_alone(g, x.of[BETA]);
        sum += value(g + BETA_XI, SIDE, 1, x.of[BETA], x.of[XI]) * x.of[XI];
        sum += value(g + BETA_ZETA, SIDE, 1, x.of[BETA], x.of[ZETA]) * x.of[ZETA];
        out[b] = sum;
    }
}

INLINE uint64_t outside(const int64_t *t, state x) {
    UNROLL for (int v = 0; v < VARIABLES; v++)
        if (x.of[v] < t[lowest(v)] || x.of[v] > t[highest(v)]) return 11 + v;
    return 0;
}

/* Out of line, so that the sums are in memory, whence each is added in one instruction. */
static __attribute__((noinline)) void add_up(const int64_t *t, sums *s) {
    const int64_t *g = t + LIMITS;
    for (int b = 0; b < BLOCKS; b++, g += BLOCK)
        UNROLL for (int n = 0; n <= SIDE; n++) s->of[b][n] = g[BETA_XI + place(n, 0)] + g[BETA_ZETA + place(n, 0)];
}
