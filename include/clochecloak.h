/* Clochecloak for C. Link target/staticlib/libclochecloak.a, which `./archive` writes.
 *
 * There are two models, each with tables of its own. A table of the Cumulus One is CLOCHECLOAK_TABLE numbers; its variables
 * are 0 alpha, 1 beta, 2 xi (aileron), 3 eta (elevator) and 4 zeta (rudder), its coefficients X, Y, Z, l, m, n, in this order.
 * A table of the GTM's longitudinal model is CLOCHECLOAK_GTM_TABLE numbers; its variables are 0 alpha and 1 eta (elevator), its
 * coefficients lift, drag and pitching moment, in this order. A table of the other model is refused by its length.
 *
 * A table starts with its limits: alpha's lowest, cut and highest, then lowest and highest of each other variable. Alpha up to
 * the cut is read in the low piece, alpha above it in the high piece. Behind alpha's highest a table of the Cumulus One also has
 * the fine cut, in whole thousandths of a milliradian: 313269 when published, of which the cut, 313, are the whole milliradians.
 *
 * Readings and shifts are whole milliradians, coefficients whole units of 10^-17. One read has units of its own: whole
 * microradians, and coefficients in units of 10^-9.
 *
 * Every function takes any arguments and gives back 0, or the number of a refusal. After a refusal the output holds what it
 * held before. The counts are counts of numbers, not of bytes. An array that is written may not overlap another. No function
 * allocates, or calls anything outside the archive; README.md says how much stack a read takes. The code uses the red zone of 128
 * bytes below the stack pointer: an interrupt on the same stack has to leave it alone.
 */
#ifndef CLOCHECLOAK_H
#define CLOCHECLOAK_H

#include <stddef.h>
#include <stdint.h>

#ifdef __cplusplus
extern "C" {
#endif

enum { CLOCHECLOAK_TABLE = 312, CLOCHECLOAK_COEFFICIENTS = 6 };
enum { CLOCHECLOAK_GTM_TABLE = 65, CLOCHECLOAK_GTM_COEFFICIENTS = 3 };

enum {
    CLOCHECLOAK_DONE = 0,
    CLOCHECLOAK_WRONG_TABLE = 1,    /* the table does not have 312 numbers (GTM: 65) */
    CLOCHECLOAK_WRONG_OUTPUT = 2,   /* the output does not have 6 numbers (reads) or 312 (publish, move); GTM: 3, 65;
                                     * many states: they do not have 5 numbers for each answer's number, or the output not 6 */
    CLOCHECLOAK_BAD_LIMITS = 3,     /* the table's limits are not good, or its cut is not its fine cut rounded down */
    CLOCHECLOAK_TOO_HEAVY = 4,      /* a weight passes the cap */
    CLOCHECLOAK_NO_VARIABLE = 5,    /* the variable is above 4 (GTM: above 1) */
    CLOCHECLOAK_LIMIT_PAST = 6,     /* a moved limit would leave -2000..2000 */
    CLOCHECLOAK_MOVE_TOO_HEAVY = 7, /* the move passes the cap */
    CLOCHECLOAK_OUTSIDE = 11,       /* alpha's reading is outside its limits; 12 beta's, 13 xi's, 14 eta's, 15 zeta's */
    CLOCHECLOAK_NOT_FINITE = 21     /* alpha's float is a NaN or an infinity; 22 to 25 the others' */
};

/* What a read with floats gives: the number; with 11 to 15 the reading that is outside, as given, and else 0.0; and the six
 * coefficients, all 0.0 after a refusal. */
typedef struct {
    uint64_t number;
    double reading;
    double x, y, z, l, m, n;
} clochecloak_answer;

/* Writes the published Cumulus One table. Refusal 2. */
uint64_t clochecloak_publish(int64_t *out, size_t out_count);

/* Writes the six coefficients of a Cumulus One table at a state. Refusals 1, 2, 3, 4, 11 to 15, in this order. */
uint64_t clochecloak_read(const int64_t *table, size_t table_count, int64_t alpha, int64_t beta, int64_t xi, int64_t eta,
                          int64_t zeta, int64_t *out, size_t out_count);

/* Writes the six coefficients of a Cumulus One table at many states, and the number of each. There are numbers_count states:
 * state k is states[5 * k] to states[5 * k + 4], alpha to zeta. numbers[k] becomes what clochecloak_read gives back for it, 0 or
 * 11 to 15, and out[6 * k] to out[6 * k + 5] its six coefficients, six zeros where the number is not 0: a state that is refused
 * stops no other, and the call gives back 0. The call itself has refusals 1, 2, 3, 4, in this order, 2 where states_count is not
 * 5 times numbers_count or out_count not 6 times; then nothing is written, neither into numbers nor into out. The table is looked
 * at once for all states. With no state, all three counts 0, it is looked at too. */
uint64_t clochecloak_read_many(const int64_t *table, size_t table_count, const int64_t *states, size_t states_count,
                               uint64_t *numbers, size_t numbers_count, int64_t *out, size_t out_count);

/* Writes the six coefficients of the published Cumulus One table, which is not handed over, at a state of whole microradians:
 * six whole numbers in units of 10^-9, each less than 7 of them off the printed model. Refusals 2, 11 to 15, in this order. */
uint64_t clochecloak_read_microradians(int64_t alpha, int64_t beta, int64_t xi, int64_t eta, int64_t zeta, int64_t *out,
                                       size_t out_count);

/* The six coefficients of a Cumulus One table at a state of floats in milliradians. The piece is that of alpha as it is given:
 * low where alpha, as an exact number, is at most the fine cut. That piece is then read at the readings rounded to the nearest
 * whole number, a half away from zero: 0.5 is read as 1, -0.5 as -1. So 313.4 is read in the high piece at 313, where
 * clochecloak_read reads 313 in the low piece; and after a move that carries a half across zero, a reading less the shift is not
 * answered as the reading was. The answers are rounded half to even. Refusals 1, 3, 4, 21 to 25, 11 to 15, in this order.
 *
 * It expects the processor's default mode for floats: rounding to nearest, ties to even, no exception unmasked, and subnormal
 * numbers not taken for zeros (DAZ off, which linking with -ffast-math turns on). In another rounding mode answers differ in
 * their last bits; with DAZ a negative subnormal alpha is read in the high piece where the fine cut is 0. FTZ changes nothing. */
clochecloak_answer clochecloak_read_floats(const int64_t *table, size_t table_count, double alpha, double beta, double xi,
                                           double eta, double zeta);

/* Writes the Cumulus One table that answers at a reading less `shift` as this one does at the reading. The limits of the variable
 * move along, and with alpha's the fine cut. Refusals 1, 2, 5, 3, 4, 6, 7, in this order. */
uint64_t clochecloak_move(const int64_t *table, size_t table_count, size_t variable, int64_t shift, int64_t *out,
                          size_t out_count);

/* Writes the published table of the GTM's longitudinal model. Refusal 2. */
uint64_t clochecloak_gtm_publish(int64_t *out, size_t out_count);

/* Writes lift, drag and pitching moment of a GTM table at a state.
 * Refusals 1, 2, 3, 4, 11 for alpha, 14 for eta, in this order. */
uint64_t clochecloak_gtm_read(const int64_t *table, size_t table_count, int64_t alpha, int64_t eta, int64_t *out,
                              size_t out_count);

/* Writes the GTM table that answers at a reading less `shift` as this one does at the reading.
 * Refusals 1, 2, 5, 3, 4, 6, 7, in this order. */
uint64_t clochecloak_gtm_move(const int64_t *table, size_t table_count, size_t variable, int64_t shift, int64_t *out,
                              size_t out_count);

#ifdef __cplusplus
}
#endif

#endif
