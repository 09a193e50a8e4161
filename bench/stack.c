/* How many bytes of the stack each call takes, with its arguments and return address (and, with floats, its answer): it runs on a
 * stack of its own that was filled with one byte, and the lowest changed place shows how deep it went. The deepest counts of
 * three tables, one sound, one sound and near the cap, one refused for its weight, each in both pieces, and of a move in every
 * variable. Bytes that are written below the stack pointer, in the red zone, count as well. Fails where a read in milliradians,
 * of either model, passes the bytes that are allowed: stack [ALLOWED]. */
#include "clochecloak.h"
#include <stdio.h>
#include <stdlib.h>
#include <string.h>
#include <ucontext.h>

enum { SPACE = 1 << 20, TABLES = 3, VARIABLES = 5, STATES = 4 };
enum { TABLE = CLOCHECLOAK_TABLE, GTM_TABLE = CLOCHECLOAK_GTM_TABLE, GTM_VARIABLES = 2 };

static unsigned char stack[SPACE], *frame;
static ucontext_t here, there;
static int64_t tables[TABLES][TABLE], gtm_tables[TABLES][GTM_TABLE], *table, *gtm_table, moved[TABLE], alpha;
static int64_t states[STATES * VARIABLES], six[STATES * CLOCHECLOAK_COEFFICIENTS];
static uint64_t numbers[STATES];
static size_t variable;
static clochecloak_answer floats;
static volatile uint64_t number;

/* One call each: a caller of several would keep things of its own on the stack between them. Were the number not kept, a call
 * whose arguments are all in registers would be a jump, with no return address of its own. */
#define CALL(name, given)                         \
    static void name##_once(void) {               \
        frame = __builtin_frame_address(0);       \
        number = given;                           \
    }
CALL(publish, clochecloak_publish(moved, TABLE))
CALL(read, clochecloak_read(table, TABLE, alpha, 20, -30, 40, -50, six, 6))
CALL(many, clochecloak_read_many(table, TABLE, states, STATES * VARIABLES, numbers, STATES, six, STATES * 6))
CALL(microradians, clochecloak_read_microradians(alpha * 1000, 20500, -30000, 40000, -50000, six, 6))
CALL(move, clochecloak_move(table, TABLE, variable, 35, moved, TABLE))
CALL(gtm_publish, clochecloak_gtm_publish(moved, GTM_TABLE))
CALL(gtm_read, clochecloak_gtm_read(gtm_table, GTM_TABLE, alpha, 40, six, 3))
CALL(gtm_move, clochecloak_gtm_move(gtm_table, GTM_TABLE, variable, 35, moved, GTM_TABLE))

static void floats_once(void) {
    frame = __builtin_frame_address(0);
    floats = clochecloak_read_floats(table, TABLE, (double)alpha, 20.5, -30, 40, -50);
}

static ptrdiff_t depth_over(unsigned char fill, void (*call)(void)) {
    memset(stack, fill, SPACE);
    getcontext(&there);
    there.uc_stack.ss_sp = stack;
    there.uc_stack.ss_size = SPACE;
    there.uc_link = &here;
    makecontext(&there, call, 0);
    swapcontext(&here, &there);
    unsigned char *lowest = stack;
    while (*lowest == fill) lowest++;
    return frame - lowest;
}

/* Over two fillings, since a byte may be written as it was. */
static ptrdiff_t depth(void (*call)(void), size_t variables) {
    ptrdiff_t deepest = 0;
    for (int k = 0; k < 4 * TABLES; k++)
        for (variable = 0; variable < variables; variable++) {
            table = tables[k / 4], gtm_table = gtm_tables[k / 4], alpha = k & 1 ? 900 : 100;
            ptrdiff_t d = depth_over(k & 2 ? 0xa5 : 0x5a, call);
            if (d > deepest) deepest = d;
        }
    return deepest;
}

static ptrdiff_t print(const char *what, void (*call)(void), size_t variables) {
    ptrdiff_t bytes = depth(call, variables);
    printf("| %s | %td |\n", what, bytes);
    return bytes;
}

int main(int argc, char **argv) {
    for (int k = 0; k < TABLES; k++) {
        clochecloak_publish(tables[k], TABLE);
        clochecloak_gtm_publish(gtm_tables[k], GTM_TABLE);
    }
    tables[1][12] = 4000000000000000000, tables[1][62] = 5000000000000000000;
    gtm_tables[1][5] = 4000000000000000000, gtm_tables[1][25] = 5000000000000000000;
    tables[2][262] = gtm_tables[2][45] = INT64_MAX; /* in the last block, so that all others are weighed before */
    states[0] = 100, states[VARIABLES] = 900, states[2 * VARIABLES] = 1001; /* in both pieces, and one outside */
    printf("| stack, bytes | |\n|---|---|\n");
    ptrdiff_t read = print("read", read_once, 1);
    print("read of many states", many_once, 1);
    print("read with floats", floats_once, 1);
    print("read in microradians", microradians_once, 1);
    print("move", move_once, VARIABLES);
    print("publish", publish_once, 1);
    ptrdiff_t gtm_read = print("GTM read", gtm_read_once, 1);
    print("GTM move", gtm_move_once, GTM_VARIABLES);
    print("GTM publish", gtm_publish_once, 1);
    ptrdiff_t deepest = read > gtm_read ? read : gtm_read;
    if (argc < 2 || deepest <= atol(argv[1])) return 0;
    fflush(stdout);
    fprintf(stderr, "bench/stack: a read takes %td bytes of stack, and README.md promises at most %s\n", deepest, argv[1]);
    return 1;
}
