/* One group, and the limits of one variable, in strong plain C: what the peers of both models are made of. */
#include "peer.h"

enum { FARTHEST = 2000, HIGHEST_DEGREE = 4 };

static const uint64_t CAP = 9000000000000000000;

/* Groups are small, and who calls these knows the degree: with this the compiler makes straight code for each of them. Clang is
 * left to its own judgement, since it takes more instructions for a read when told to unroll. */
#define INLINE static inline __attribute__((always_inline))
#ifdef __clang__
#define UNROLL
#else
#define UNROLL _Pragma("GCC unroll 16")
#endif

/* The place in its group of the term of total degree n with the power q of the second variable. */
INLINE int place(int n, int q) { return n * (n + 1) / 2 + q; }
INLINE uint64_t magnitude(int64_t x) { return x < 0 ? -(uint64_t)x : (uint64_t)x; }

/* The reach of limits. They are in range exactly if it is. */
INLINE uint64_t span(int64_t low, int64_t high) {
    uint64_t a = magnitude(low), b = magnitude(high), r = a > b ? a : b;
    return r ? r : 1;
}

/* Gives whether the limits are in order and in range. */
INLINE int reach(int64_t low, int64_t high, uint64_t *r) {
    *r = span(low, high);
    return low <= high && *r <= FARTHEST;
}

/* The products of the reaches for the terms of a group, each made from one of a degree less. */
INLINE void multiply(uint64_t *f, int d, uint64_t r, uint64_t s) {
    f[0] = 1;
    UNROLL for (int n = 1; n <= d; n++) {
        UNROLL for (int q = 0; q < n; q++) f[place(n, q)] = f[place(n - 1, q)] * r;
        f[place(n, n)] = f[place(n - 1, n - 1)] * s;
    }
}

/* A sum in 128 bits, in halves of which one is signed: of a plain unsigned __int128 gcc would work out all terms before it adds
 * the first, and the registers would not hold them. */
typedef struct {
    uint64_t low;
    int64_t high;
} wide;

INLINE wide plus(wide w, unsigned __int128 x) {
    int carry = __builtin_add_overflow(w.low, (uint64_t)x, &w.low);
    w.high += (int64_t)(x >> 64) + carry;
    return w;
}

INLINE wide weigh(wide w, const int64_t *g, const uint64_t *f, int d) {
    w = plus(w, magnitude(g[0]));
    UNROLL for (int k = 1; k < place(d + 1, 0); k++) w = plus(w, (unsigned __int128)magnitude(g[k]) * f[k]);
    return w;
}

INLINE int past(wide w) { return w.high || w.low > CAP; }

/* A group from the highest power down, rows in x inside and y outside. The terms with fewer than `from` powers of y are left out,
 * and the sum is divided by y to that power. */
INLINE int64_t value(const int64_t *g, int d, int from, int64_t x, int64_t y) {
    int64_t sum = 0;
    UNROLL for (int q = d; q >= from; q--) {
        int64_t row = 0;
        UNROLL for (int n = d; n >= q; n--) row = row * x + g[place(n, q)];
        sum = sum * y + row;
    }
    return sum;
}

/* A chain has the numbers of a group that differ only in the power of the moved variable, which is the first or the second. */
INLINE void move_group(const int64_t *restrict g, int64_t *restrict out, int d, int second, int64_t s) {
    UNROLL for (int other = 0; other <= d; other++) {
        int64_t c[HIGHEST_DEGREE + 1];
        int m = d - other;
        UNROLL for (int k = 0; k <= m; k++) c[k] = g[place(other + k, second ? k : other)];
        UNROLL for (int i = 0; i < m; i++)
            UNROLL for (int k = m - 1; k >= i; k--) c[k] += s * c[k + 1];
        UNROLL for (int k = 0; k <= m; k++) out[place(other + k, second ? k : other)] = c[k];
    }
}

INLINE void copy_group(const int64_t *restrict g, int64_t *restrict out, int d) {
    UNROLL for (int k = 0; k < place(d + 1, 0); k++) out[k] = g[k];
}
