// Stands between a program and C's read and write on standard input and output, so that they come out as on a busy system: of
// three calls the first is interrupted by a signal, the second would have to wait, and the third moves at most 1000 bytes. Those that
// FAILS names, "read" or "write", fail for good after ten of these. Compiled without the C library's headers.
enum { INTERRUPTED = 4, FAULT = 5, WOULD_WAIT = 11 };

int *__errno_location(void);
char *getenv(const char *);
long syscall(long, ...);

static long refuse(int error) {
    *__errno_location() = error;
    return -1;
}

static long called(long number, char letter, unsigned *calls, int fd, void *buf, unsigned long count) {
    const char *fails = getenv("FAILS");
    if (fd > 1)
        return syscall(number, fd, buf, count);
    unsigned call = (*calls)++;
    if (call % 3 == 0)
        return refuse(INTERRUPTED);
    if (call % 3 == 1)
        return refuse(WOULD_WAIT);
    if (fails && fails[0] == letter && call > 30)
        return refuse(FAULT);
    return syscall(number, fd, buf, count < 1000 ? count : 1000);
}

long read(int fd, void *buf, unsigned long count) {
    static unsigned calls;
    return called(0, 'r', &calls, fd, buf, count);
}

long write(int fd, void *buf, unsigned long count) {
    static unsigned calls;
    return called(1, 'w', &calls, fd, buf, count);
}
