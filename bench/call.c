/* Calls one operation, of ours (o) or of the peer (p), as often as COUNT says: call OPERATION WHOSE COUNT [time]. Prints the sum
 * of what came out, which is the same for both, or the nanoseconds of one call. The operations are read, near (a read near the
 * cap), floats, microradians, and for a move its variable; those of the GTM are Read, Near, Alpha and Eta. Of the operation states
 * COUNT is that of the states, up to 2000 in a call, in both pieces; there are also the bare evaluations (b, and s with sums). */
#define _GNU_SOURCE
#include "peer.h"
#include <stdio.h>
#include <stdlib.h>
#include <string.h>
#include <time.h>

enum { TABLE = CLOCHECLOAK_TABLE, GTM_TABLE = CLOCHECLOAK_GTM_TABLE, STATES = 2000 };

static const char VARIABLES[] = "abxez"; /* their first letters */
static int64_t table[TABLE], near[TABLE], moved[TABLE], six[6], gtm[GTM_TABLE], gtm_near[GTM_TABLE];
static int64_t states[STATES * 5], answers[STATES * 6];
static uint64_t numbers[STATES];

static inline uint64_t call(int operation, size_t variable, int ours) {
    switch (operation) {
        case 'r': return (ours ? clochecloak_read : peer_read)(table, TABLE, 100, 20, -30, 40, -50, six, 6);
        case 'n': return (ours ? clochecloak_read : peer_read)(near, TABLE, 100, 20, -30, 40, -50, six, 6);
        case 'f': return (ours ? clochecloak_read_floats : peer_read_floats)(table, TABLE, 100.4, 20.5, -30, 40, -50).number;
        case 'm':
            return (ours ? clochecloak_read_microradians : peer_read_microradians)(100400, 20500, -30000, 40000, -50000, six, 6);
        default: return (ours ? clochecloak_move : peer_move)(table, TABLE, variable, 35, moved, TABLE);
    }
}

static inline uint64_t call_gtm(int operation, int ours) {
    switch (operation) {
        case 'R': return (ours ? clochecloak_gtm_read : peer_gtm_read)(gtm, GTM_TABLE, 100, 40, six, 3);
        case 'N': return (ours ? clochecloak_gtm_read : peer_gtm_read)(gtm_near, GTM_TABLE, 100, 40, six, 3);
        default: return (ours ? clochecloak_gtm_move : peer_gtm_move)(gtm, GTM_TABLE, operation == 'E', 35, moved, GTM_TABLE);
    }
}

static uint64_t call_states(int whose, size_t n) {
    if (whose == 'b') return peer_bare_many(table, states, n, answers), 0;
    if (whose == 's') return peer_bare_sums(table, states, n, answers), 0;
    return (whose == 'o' ? clochecloak_read_many : peer_read_many)(table, TABLE, states, 5 * n, numbers, n, answers, 6 * n);
}

static uint64_t call_all(int operation, int whose, int count) {
    size_t variable = strchrnul(VARIABLES, operation) - VARIABLES;
    uint64_t number = 0;
    if (operation == 's')
        for (; count > 0; count -= STATES) number += call_states(whose, count < STATES ? count : STATES);
    else if (strchr("RNAE", operation))
        for (int i = 0; i < count; i++) number += call_gtm(operation, whose == 'o');
    else
        for (int i = 0; i < count; i++) number += call(operation, variable, whose == 'o');
    return number;
}

/* Anywhere in the envelope: two in five are in the low piece. */
static void draw_states(void) {
    static const int LOWEST[5] = {-150, -500, -200, -400, -500}, HIGHEST[5] = {1000, 500, 200, 400, 500};
    uint64_t drawn = 1;
    for (int k = 0; k < STATES * 5; k++) {
        drawn = drawn * 6364136223846793005u + 1442695040888963407u;
        states[k] = LOWEST[k % 5] + (int64_t)((drawn >> 33) % (HIGHEST[k % 5] - LOWEST[k % 5] + 1));
    }
}

static uint64_t prepare(void) {
    uint64_t number = clochecloak_publish(table, TABLE) + clochecloak_gtm_publish(gtm, GTM_TABLE);
    memcpy(near, table, sizeof near);
    near[12] = 4000000000000000000, near[62] = 5000000000000000000;
    memcpy(gtm_near, gtm, sizeof gtm);
    gtm_near[5] = 4000000000000000000, gtm_near[25] = 5000000000000000000;
    peer_prepare(table);
    draw_states();
    return number;
}

static uint64_t sum_of(uint64_t sum, const void *from, int count) {
    const uint64_t *x = from;
    for (int k = 0; k < count; k++) sum = sum * 1099511628211u + x[k];
    return sum;
}

int main(int argc, char **argv) {
    if (argc < 4) return 2;
    int count = atoi(argv[3]);
    struct timespec from, to;
    uint64_t number = prepare();
    clock_gettime(CLOCK_MONOTONIC, &from);
    number += call_all(argv[1][0], argv[2][0], count);
    clock_gettime(CLOCK_MONOTONIC, &to);
    if (argc > 4) {
        printf("%.1f\n", ((to.tv_sec - from.tv_sec) * 1e9 + (to.tv_nsec - from.tv_nsec)) / count);
        return 0;
    }
    uint64_t sum = sum_of(sum_of(1, moved, TABLE), six, 6);
    sum = sum_of(sum_of(sum, numbers, STATES), answers, STATES * 6);
    printf("%llu %llu\n", (unsigned long long)number, (unsigned long long)sum);
    return 0;
}
