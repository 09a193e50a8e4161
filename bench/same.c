/* Holds the peers to the archive: draws 100,000 cases of each model, the same every time, and has each operation answer each of
 * them twice. The number given back, the whole lent space, which was filled before, and every bit of the floats have to be the
 * same, and many states of the archive have to be answered as one by one. Prints how often each number was met, or the first
 * difference. */
#include "peer.h"
#include <math.h>
#include <stdio.h>
#include <stdlib.h>
#include <string.h>

enum { CASES = 100000, BLOCK_ROOM = 50, TABLE_ROOM = 312, STATES_ROOM = 10, NUMBERS = 26, FINE_CUT = 3 };
enum { READ, MANY, STATE, FLOATS, MICRORADIANS, MOVE, OPERATIONS };
static const char *const NAMES[OPERATIONS] = {"read",  "read of many states", "each of many states", "read with floats",
                                              "read in microradians", "move"};

/* A model's tables: how many there are of each part, and whether alpha's limits have a fine cut with them, so that the pieces
 * overlap; of the groups of a block where they start, their degrees and variables. */
typedef struct {
    const char *name;
    int variables, fine, limits, blocks, block, table, groups, start[4], degree[4], first[4], second[4];
    uint64_t (*publish)(int64_t *, size_t);
    uint64_t (*move)(const int64_t *, size_t, size_t, int64_t, int64_t *, size_t);
    uint64_t (*peer_move)(const int64_t *, size_t, size_t, int64_t, int64_t *, size_t);
} model;

static const model CUMULUS = {"Cumulus One", 5, 1, 12, 6, 50, 312, 4, {0, 10, 20, 35}, {3, 3, 4, 4}, {0, 0, 1, 1}, {3, 3, 2, 4},
                              clochecloak_publish, clochecloak_move, peer_move};
static const model GTM = {"GTM", 2, 0, 5, 3, 20, 65, 2, {0, 10}, {3, 3}, {0, 0}, {1, 1},
                          clochecloak_gtm_publish, clochecloak_gtm_move, peer_gtm_move};
static const model *of; /* the one whose cases are drawn */

typedef unsigned __int128 u128;
static const int64_t CAP = 9000000000000000000;

static uint64_t seed = 1;
static int64_t published[TABLE_ROOM];
static long met[OPERATIONS][NUMBERS], edges[2][3], across[2], drawn;

/* One case. The readings are those of the reads in milliradians; those in microradians have limits of their own. */
static struct {
    int64_t table[TABLE_ROOM], readings[5], microradians[5], states[5 * STATES_ROOM], shift;
    double floats[5];
    size_t table_count, answers_count, moved_count, variable;
    size_t states_count, numbers_count, many_count; /* of many states: their readings, their numbers, their answers */
} now;

/* ---- Drawing ---- */

static uint64_t word(void) { /* splitmix64 */
    uint64_t z = seed += 0x9e3779b97f4a7c15;
    z = (z ^ (z >> 30)) * 0xbf58476d1ce4e5b9;
    z = (z ^ (z >> 27)) * 0x94d049bb133111eb;
    return z ^ (z >> 31);
}
static uint64_t below(uint64_t n) { return word() % n; }
static int64_t between(int64_t low, int64_t high) { return low + (int64_t)below(high - low + 1); }
static int one_in(int n) { return below(n) == 0; }
static int64_t either(int64_t x) { return one_in(2) ? x : -x; }
/* A number of any sign, of 64 - most to 64 - least bits. */
static int64_t scaled(int least, int most) {
    int64_t x = (int64_t)word();
    return x >> between(least, most);
}
static int64_t extreme(void) { return (int64_t[]){INT64_MIN, INT64_MIN + 1, INT64_MAX, INT64_MAX - 1}[below(4)]; }

static int lowest(int v) { return v ? 2 * v + 1 + of->fine : 0; }
static int highest(int v) { return v ? 2 * v + 2 + of->fine : 2; }

/* A fine cut of a cut, often at an end or about the half from which on alpha is rounded past the cut. */
static int64_t fine_of(int64_t cut) {
    static const int ABOVE[] = {0, 1, 499, 500, 501, 999};
    return 1000 * cut + (one_in(2) ? between(0, 999) : ABOVE[below(6)]);
}

static void good_limits(int64_t *t) {
    static const int SIZES[] = {0, 1, 2, 10, 100, 500, 1000, 2000};
    for (int v = 0; v < of->variables; v++) {
        int64_t size = SIZES[below(8)], middle = one_in(2) ? 0 : between(size - 2000, 2000 - size);
        int64_t low = middle - size, high = middle + size;
        if (one_in(4)) low = between(low, high);
        if (one_in(4)) high = between(low, high);
        t[lowest(v)] = low, t[highest(v)] = high;
    }
    if (t[0] == t[2]) t[2] < 2000 ? t[2]++ : t[0]--;
    t[1] = one_in(4) ? t[0] : one_in(3) ? t[2] - 1 : between(t[0], t[2] - 1);
    if (of->fine) t[FINE_CUT] = fine_of(t[1]);
}

/* One fault: a limit out of range, by one or by far, two of them in the wrong order, or a fine cut of another cut. */
static void bad_limits(int64_t *t) {
    int v = between(0, of->variables - 1), k = between(0, of->limits - 1);
    switch (below(4 + of->fine)) {
        case 0: t[k] = either(2001); break;
        case 1: t[k] = one_in(2) ? extreme() : either(between(2001, 100000)); break;
        case 2: t[lowest(v)] = t[highest(v)] + between(v ? 1 : 0, 3); break;
        case 3:
            t[1] = one_in(2) ? t[2] + between(0, 2) : t[0] - between(1, 3);
            if (of->fine) t[FINE_CUT] = fine_of(t[1]);
            break;
        default: t[FINE_CUT] = one_in(2) ? 1000 * t[1] + (one_in(2) ? -1 : 1000) : one_in(2) ? -t[FINE_CUT] : extreme();
    }
}

static void draw_limits(int64_t *t) {
    if (one_in(2)) good_limits(t);
    if (one_in(20)) bad_limits(t);
}

static int64_t moved_limit(int64_t limit) { return limit - now.shift; }

/* A shift, often such that one limit lands on -2000 or 2000 or one beyond. */
static int64_t draw_shift(const int64_t *t) {
    int v = now.variable < (size_t)of->variables ? now.variable : 0;
    int64_t limit = t[one_in(2) ? lowest(v) : highest(v)], edge = either(2000), more = between(-1, 1);
    switch (below(8)) {
        case 0: return 0;
        case 1: case 2: return either(between(1, 40));
        case 3: case 4: return either(between(1, 400));
        case 5: return limit < -2000 || limit > 2000 ? 1 : limit + edge + more;
        case 6: return either(between(3990, 4010));
        default: return one_in(3) ? extreme() : either(between(1, 4000));
    }
}

/* ---- Weights, only to draw tables that come near the cap ---- */

static int64_t reach(int64_t low, int64_t high) {
    int64_t r = labs(low) > labs(high) ? labs(low) : labs(high);
    return r ? r : 1;
}

static u128 magnitude(int64_t x) { return x < 0 ? -(u128)x : (u128)x; }

/* The factors of the places of a block in a piece: by the table's reaches, or by those of the rule for moves. Those of the
 * other piece are 0. False where limits are not in range. */
static int factors(const int64_t *t, int piece, int moves, u128 *f) {
    int64_t r[5];
    for (int k = 0; k < of->limits; k++)
        if ((t[k] < -2000 || t[k] > 2000) && !(of->fine && k == FINE_CUT)) return 0;
    if (moves && (now.variable >= (size_t)of->variables || now.shift < -4000 || now.shift > 4000)) return 0;
    for (int v = 0; v < of->variables; v++) {
        int64_t low = v || !piece ? t[lowest(v)] : t[1] + !of->fine, high = v || piece ? t[highest(v)] : t[1] + of->fine;
        int here = moves && now.variable == (size_t)v;
        r[v] = here ? reach(moved_limit(low), moved_limit(high)) + labs(now.shift) : reach(low, high);
    }
    memset(f, 0, of->block * sizeof *f);
    for (int g = 0; g < of->groups; g++)
        if (g != 1 - piece)
            for (int n = 0, k = of->start[g]; n <= of->degree[g]; n++)
                for (int q = 0; q <= n; q++, k++) {
                    f[k] = 1;
                    for (int i = 0; i < n; i++) f[k] *= i < q ? r[of->second[g]] : r[of->first[g]];
                }
    return 1;
}

/* Sets one number of a block so that its weight in a piece comes as near to the cap as that number lets it, and then one more or
 * one less. */
static void to_the_cap(int64_t *t, int moves, int more) {
    int64_t *g = t + of->limits + of->block * below(of->blocks);
    int piece = below(2), at = below(of->block);
    u128 f[BLOCK_ROOM], rest = 0;
    if (!factors(t, piece, moves, f)) return;
    if (!f[at] || one_in(3)) at = piece ? 10 : 0;
    for (int k = 0; k < of->block; k++)
        if (k != at) rest += magnitude(g[k]) * f[k];
    if (rest > (u128)CAP) return;
    g[at] = either((int64_t)(((u128)CAP - rest) / f[at]) + more);
}

/* Numbers whose terms share the cap, so that weights lie at a drawn part of it. */
static void shares(int64_t *t, int moves) {
    u128 f[2][BLOCK_ROOM];
    int64_t share = CAP / (int64_t[]){15, 20, 25, 30, 1000}[below(5)];
    if (!factors(t, 0, moves, f[0]) || !factors(t, 1, moves, f[1])) return;
    for (int k = 0; k < of->table - of->limits; k++) {
        u128 a = f[0][k % of->block], b = f[1][k % of->block];
        t[of->limits + k] = either(below(share) / (uint64_t)(a > b ? a : b));
    }
}

static void draw_numbers(int64_t *t) {
    int bits = between(0, 63), kind = below(8), moves = one_in(2);
    if (kind < 2) return; /* as published */
    for (int k = of->limits; k < of->table; k++) switch (kind) {
        case 2: t[k] = scaled(bits, bits); break;
        case 3: t[k] = scaled(bits, 63); break;
        case 4: t[k] = one_in(20) ? scaled(10, 63) : 0; break;
        default: break;
    }
    if (kind > 4) shares(t, moves);
    if (kind > 5) {
        for (int n = between(0, 5); n; n--) to_the_cap(t, moves, one_in(2) ? 0 : -1);
        to_the_cap(t, moves, between(-1, 1));
    }
    if (one_in(40)) {
        int at = between(of->limits, of->table - 1);
        t[at] = extreme();
    }
}

/* A table: the published one, one moved from it, or one with limits and numbers of its own. */
static void draw_table(void) {
    int numbers = 0, v = below(of->variables);
    int64_t s = either(between(1, 300));
    memcpy(now.table, published, sizeof published);
    now.variable = one_in(40) ? (one_in(2) ? (size_t)of->variables : word()) : below(of->variables);
    now.shift = draw_shift(now.table);
    switch (below(8)) {
        case 0: return;
        case 1: of->move(published, of->table, v, s, now.table, of->table); break;
        default: draw_limits(now.table), numbers = 1;
    }
    now.shift = draw_shift(now.table);
    if (numbers) draw_numbers(now.table);
}

/* A reading within its limits, at one of them, one outside, or anything. */
static int64_t draw_reading(int64_t low, int64_t high) {
    if (low > high || low < -1000000 || high > 1000000) return between(-3000, 3000);
    switch (below(40)) {
        case 0: return low - 1;
        case 1: return high + 1;
        case 2: return one_in(2) ? extreme() : either(between(1, 5000000));
        default: return one_in(6) ? low : one_in(5) ? high : between(low, high);
    }
}

static double draw_float(int64_t near, int64_t limit) {
    static const double PARTS[] = {0.5, -0.5, 0.25, -0.25, 0x1.fffffffffffffp-2, -0x1.fffffffffffffp-2, 0x1p-30, -0x1p-30};
    static const double ODD[] = {NAN, -NAN, INFINITY, -INFINITY, 1e300, -1e300, 0x1p51, -0x1p51, 0x1.8p52, -0x1.8p52, 0x1p53,
                                 0x1p63, -0x1p63, 0x1p64, 1e19, 0x1.fffffffffffffp51, -0x1.fffffffffffffp51, 4e-320, -4e-320};
    if (one_in(40)) return ODD[below(sizeof ODD / sizeof *ODD)];
    if (near == 0 && one_in(2)) return -0.0;
    if (one_in(20)) return (double)limit + PARTS[below(8)];
    return one_in(3) ? (double)near : (double)near + PARTS[below(8)];
}

/* A float next to a finite one: its last bit is turned. */
static double beside(double at) {
    uint64_t bits;
    memcpy(&bits, &at, sizeof bits);
    bits ^= 1;
    memcpy(&at, &bits, sizeof at);
    return at;
}

/* An alpha at the fine cut or at a half about it, or a float next to one. */
static double draw_alpha(const int64_t *t) {
    int64_t cut = t[1] < -2000 || t[1] > 2000 ? 0 : t[1];
    double at = one_in(3) ? (double)cut + 0.5 : (double)t[FINE_CUT] / 1000;
    return one_in(2) ? at : beside(at);
}

/* Of the wrong counts some are right ones of another operation, or of the other model. */
static size_t draw_count(size_t right) {
    static const size_t OTHERS[2][9] = {{0, 1, 5, 6, 7, 311, 312, 313, SIZE_MAX}, {0, 2, 3, 4, 64, 65, 66, 312, SIZE_MAX}};
    return one_in(50) ? OTHERS[of == &GTM][below(9)] : right;
}

/* A right count, or seldom one that is off by one or by one state, 0, or far too long. */
static size_t draw_many_count(size_t states, size_t each) {
    size_t right = states * each;
    switch (below(120)) {
        case 0: return right + 1;
        case 1: return right ? right - 1 : 0;
        case 2: return right + each;
        case 3: return right >= each ? right - each : each;
        case 4: return one_in(2) ? 0 : SIZE_MAX;
        default: return right;
    }
}

/* Up to eight states, of which some have a reading outside. */
static void draw_states(void) {
    size_t count = below(STATES_ROOM - 1);
    for (size_t k = 0; k < 5 * STATES_ROOM; k++) {
        int v = k % 5;
        now.states[k] = draw_reading(now.table[lowest(v)], now.table[highest(v)]);
        if (v == 0 && one_in(5)) now.states[k] = (int64_t)((uint64_t)now.table[1] + below(2)); /* beside the cut */
    }
    now.states_count = draw_many_count(count, 5), now.numbers_count = draw_many_count(count, 1);
    now.many_count = draw_many_count(count, 6);
    if (one_in(500)) { /* counts that fit modulo 2^64 alone */
        now.states_count = between(1, 4), now.numbers_count = now.states_count * 0xcccccccccccccccd;
        now.many_count = 6 * now.numbers_count;
    }
}

static void draw_case(void) {
    static const int64_t LOW[5] = {-150000, -500000, -200000, -400000, -500000};
    static const int64_t HIGH[5] = {1000000, 500000, 200000, 400000, 500000};
    draw_table();
    for (int v = 0; v < of->variables; v++) {
        int64_t low = now.table[lowest(v)], high = now.table[highest(v)];
        now.readings[v] = draw_reading(low, high);
        now.floats[v] = draw_float(now.readings[v], one_in(2) ? low : high);
        now.microradians[v] = draw_reading(LOW[v], HIGH[v]);
    }
    if (one_in(10)) now.readings[0] = now.table[1]; /* the last of the low piece */
    if (of->fine && one_in(4)) now.floats[0] = draw_alpha(now.table);
    if (one_in(10)) now.microradians[0] = between(313265, 313275);
    now.table_count = draw_count(of->table), now.answers_count = draw_count(of->blocks);
    now.moved_count = draw_count(of->table);
    if (of == &CUMULUS) draw_states();
}

/* ---- Comparing ---- */

static void hold(int operation, uint64_t ours, uint64_t peers, const void *a, const void *b, size_t bytes) {
    if (ours == peers && memcmp(a, b, bytes) == 0) {
        met[operation][ours]++;
        return;
    }
    printf("same: %s, case %ld, %s: the archive gives back %llu, the peer %llu, and what they wrote is %s\n", of->name, drawn,
           NAMES[operation], (unsigned long long)ours, (unsigned long long)peers,
           memcmp(a, b, bytes) ? "not the same" : "the same");
    exit(1);
}

/* Counts an alpha that is read in another piece than its rounding would be. A product of 64 bits with 1000 is exact. */
static void count_across(double alpha, int64_t cut) {
    double half = (double)cut + 0.5;
    int past_cut = cut < 0 ? alpha > half : alpha >= half, past_fine = (long double)alpha * 1000 > now.table[FINE_CUT];
    if (past_cut != past_fine) across[past_fine]++;
}

/* The spaces are a number longer than what is lent, and start with the same drawn bytes. */
static int64_t a[TABLE_ROOM + 1], b[TABLE_ROOM + 1];

static void hold_slice(int operation, uint64_t ours, uint64_t peers) { hold(operation, ours, peers, a, b, sizeof a); }

/* Of many states: a room for more of both kinds than is lent. */
typedef struct {
    uint64_t numbers[STATES_ROOM];
    int64_t answers[6 * STATES_ROOM];
} many;

/* Each state as it is read alone, and, where none is refused, all of them by the bare evaluations. */
static void hold_states(many given, size_t count) {
    int all = 1;
    for (size_t k = 0; k < count; k++) {
        const int64_t *x = now.states + 5 * k;
        int64_t six[6] = {0};
        uint64_t alone = clochecloak_read(now.table, now.table_count, x[0], x[1], x[2], x[3], x[4], six, 6);
        hold(STATE, given.numbers[k], alone, given.answers + 6 * k, six, sizeof six);
        all = all && alone == 0;
    }
    if (!all) return;
    many bare = given, added = given;
    memset(bare.answers, 0, 6 * count * sizeof *bare.answers), memset(added.answers, 0, 6 * count * sizeof *added.answers);
    peer_bare_many(now.table, now.states, count, bare.answers);
    peer_bare_sums(now.table, now.states, count, added.answers);
    if (memcmp(&bare, &given, sizeof bare) || memcmp(&added, &given, sizeof added)) {
        printf("same: case %ld: a bare evaluation answers otherwise\n", drawn);
        exit(1);
    }
}

static void compare_many(void) {
    many ours, peers;
    memset(&ours, (int)word(), sizeof ours);
    peers = ours;
    uint64_t number = clochecloak_read_many(now.table, now.table_count, now.states, now.states_count, ours.numbers, now.numbers_count,
                                            ours.answers, now.many_count);
    uint64_t other = peer_read_many(now.table, now.table_count, now.states, now.states_count, peers.numbers, now.numbers_count,
                                    peers.answers, now.many_count);
    hold(MANY, number, other, &ours, &peers, sizeof ours);
    if (number == CLOCHECLOAK_DONE) hold_states(ours, now.numbers_count);
}

static void compare(void) {
    const int64_t *t = now.table, *x = now.readings, *m = now.microradians;
    const double *f = now.floats;
    const size_t n = now.table_count, count = now.answers_count;
    uint64_t ours;
    memset(a, (int)word(), sizeof a);
    memcpy(b, a, sizeof b);
    if (of == &GTM) {
        ours = clochecloak_gtm_read(t, n, x[0], x[1], a, count);
        hold_slice(READ, ours, peer_gtm_read(t, n, x[0], x[1], b, count));
    } else {
        ours = clochecloak_read(t, n, x[0], x[1], x[2], x[3], x[4], a, count);
        hold_slice(READ, ours, peer_read(t, n, x[0], x[1], x[2], x[3], x[4], b, count));
        ours = clochecloak_read_microradians(m[0], m[1], m[2], m[3], m[4], a, count);
        hold_slice(MICRORADIANS, ours, peer_read_microradians(m[0], m[1], m[2], m[3], m[4], b, count));
    }
    ours = of->move(t, n, now.variable, now.shift, a, now.moved_count);
    hold_slice(MOVE, ours, of->peer_move(t, n, now.variable, now.shift, b, now.moved_count));
    if (of == &GTM) return;
    compare_many();
    clochecloak_answer p = clochecloak_read_floats(t, n, f[0], f[1], f[2], f[3], f[4]);
    clochecloak_answer q = peer_read_floats(t, n, f[0], f[1], f[2], f[3], f[4]);
    hold(FLOATS, p.number, q.number, &p, &q, sizeof p);
    if (p.number == CLOCHECLOAK_DONE) count_across(f[0], t[1]);
}

/* How far the heaviest weight is past the cap, where limits are in range; -2 and 2 stand for all that is farther. */
static int past(int moves) {
    u128 f[BLOCK_ROOM], most = 0;
    for (int piece = 0; piece < 2; piece++) {
        if (!factors(now.table, piece, moves, f)) return -2;
        for (int b = 0; b < of->blocks; b++) {
            const int64_t *g = now.table + of->limits + of->block * b;
            u128 weight = 0;
            for (int k = 0; k < of->block; k++) weight += magnitude(g[k]) * f[k];
            if (weight > most) most = weight;
        }
    }
    return most > (u128)CAP + 1 ? 2 : most + 1 < (u128)CAP ? -2 : (int)(most + 1 - CAP) - 1;
}

static void count_edges(void) {
    for (int moves = 0; moves < 2; moves++) {
        int p = past(moves);
        if (p > -2 && p < 2) edges[moves][p + 1]++;
    }
}

static void hold_model(const model *which) {
    of = which;
    memset(met, 0, sizeof met), memset(edges, 0, sizeof edges), memset(across, 0, sizeof across);
    of->publish(published, of->table);
    if (of == &CUMULUS) peer_prepare(published);
    for (drawn = 0; drawn < CASES; drawn++) {
        draw_case();
        count_edges();
        compare();
    }
    printf("%s: the peer and the archive give the same in %d drawn cases. How often each number was given back:\n", of->name,
           CASES);
    for (int o = 0; o < OPERATIONS; o++) {
        int some = 0;
        for (int k = 0; k < NUMBERS; k++)
            if (met[o][k]) printf("%s%s %d %ld", some ? "" : NAMES[o], some ? "," : ":", k, met[o][k]), some = 1;
        if (some) printf("\n");
    }
    if (of->fine) printf("floats read in the low piece past the cut: %ld, in the high piece at the cut: %ld\n", across[0], across[1]);
    for (int moves = 0; moves < 2; moves++)
        printf("heaviest weight of a %s one below the cap, at it, one past it: %ld, %ld, %ld\n", moves ? "move" : "table",
               edges[moves][0], edges[moves][1], edges[moves][2]);
}

int main(void) {
    hold_model(&CUMULUS);
    hold_model(&GTM);
    return 0;
}
