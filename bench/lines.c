/* trimcard in strong plain C: 64 KiB in and out, a parser that goes over the line where it stands, a printer that takes four
 * digits at a time from a list of all of them, and the published table, of which it knows that it is sound. */
#include "states.h"
#include <string.h>
#include <unistd.h>

enum { PART = 65536, LONGEST = 147 };

static char in[PART + 2], out[PART];
static char *filled = out;
static char digits[10001][4]; /* the four digits of every number below 10,000; the last is copied but never used */
static unsigned char length[10000];
static int64_t table[CLOCHECLOAK_TABLE];
static sums made;

static void prepare(void) {
    clochecloak_publish(table, CLOCHECLOAK_TABLE);
    add_up(table, &made);
    for (int n = 0; n < 10000; n++) {
        length[n] = 1 + (n > 9) + (n > 99) + (n > 999);
        for (int k = 3, rest = n; k >= 0; k--, rest /= 10) digits[n][k] = '0' + rest % 10;
    }
}

static void flush(void) {
    for (char *done = out; done < filled;) {
        ssize_t n = write(1, done, filled - done);
        if (n <= 0) _exit(1);
        done += n;
    }
    filled = out;
}

static inline char *four(char *to, uint32_t n) { return (char *)memcpy(to, digits[n], 4) + 4; }
static inline char *eight(char *to, uint32_t n) { return four(four(to, n / 10000), n % 10000); }

/* Without zeros in front. What is copied beyond the number is written over by what follows. */
static inline char *first_four(char *to, uint32_t n) {
    memcpy(to, digits[n] + 4 - length[n], 4);
    return to + length[n];
}

static inline char *first_eight(char *to, uint32_t n) {
    return n < 10000 ? first_four(to, n) : four(first_four(to, n / 10000), n % 10000);
}

static inline char *put(char *to, int64_t x) {
    const uint64_t SPLIT = 100000000;
    uint64_t n = x < 0 ? -(uint64_t)x : (uint64_t)x, high = n / SPLIT, highest = high / SPLIT;
    *to = '-';
    to += x < 0;
    if (!high) return first_eight(to, n);
    to = highest ? eight(first_four(to, highest), high - highest * SPLIT) : first_eight(to, high);
    return eight(to, n - high * SPLIT);
}

static inline void make_room(void) {
    if (out + PART - filled < LONGEST) flush();
}

static void answer(const int64_t *six) {
    make_room();
    char *p = filled;
    *p++ = '0';
    for (int b = 0; b < 6; b++) {
        *p++ = ' ';
        p = put(p, six[b]);
    }
    *p++ = '\n';
    filled = p;
}

static void refuse(int number) {
    static const char ZEROS[] = " 0 0 0 0 0 0\n";
    make_room();
    *filled++ = '0' + number / 10;
    *filled++ = '0' + number % 10;
    filled = (char *)memcpy(filled, ZEROS, sizeof ZEROS - 1) + (sizeof ZEROS - 1);
}

/* One to four digits, with or without a minus, and the byte behind them; gives the place after that, or NULL. */
static inline const char *number(const char *p, char behind, int64_t *x) {
    int minus = *p == '-', count = 0;
    unsigned n = 0;
    p += minus;
    for (unsigned digit; count < 4 && (digit = (unsigned char)p[count] - '0') < 10; count++) n = n * 10 + digit;
    *x = minus ? -(int64_t)n : (int64_t)n;
    return count && p[count] == behind ? p + count + 1 : NULL;
}

/* The place behind the newline of a line of five numbers, or NULL. */
static const char *parse(const char *p, int64_t *x) {
    for (int v = 0; v < 5; v++)
        if (!(p = number(p, v < 4 ? ' ' : '\n', x + v))) return NULL;
    return p;
}

/* Answers every line that has ended before `end`, where a newline stands that is none of the input's, so that parsing stops.
 * Gives the start of the line that has not. */
static const char *answer_all(const char *line, const char *end) {
    int64_t x[5], six[6];
    for (;;) {
        const char *next = parse(line, x);
        if (!next) {
            const char *newline = memchr(line, '\n', end - line);
            if (!newline) return line;
            refuse(31);
            line = newline + 1;
        } else if (next <= end) {
            state at = state_at(x);
            int no = outside(table, at);
            if (no) refuse(no);
            else values(table, 1, &made, at, at.of[ALPHA] > table[CUT], six), answer(six);
            line = next;
        } else return line;
    }
}

int main(void) {
    size_t kept = 0; /* bytes of a line that has not ended, at the start of `in` */
    int lost = 0;    /* it was longer than `in`, and its start is gone: it is malformed */
    prepare();
    for (ssize_t n; (n = read(0, in + kept, PART - kept)) > 0;) {
        const char *line = in, *end = in + kept + n;
        in[kept + n] = '\n';
        if (lost) {
            const char *newline = memchr(in, '\n', n);
            line = newline ? newline + 1 : end;
            if (newline) refuse(31), lost = 0;
        }
        line = answer_all(line, end);
        kept = end - line;
        memmove(in, line, kept);
        if (kept == PART) kept = 0, lost = 1;
    }
    if (lost) refuse(31);
    else if (kept) {
        in[kept] = in[kept + 1] = '\n';
        answer_all(in, in + kept + 1);
    }
    flush();
    return 0;
}
