/* Fails each call that writes, cuts, flushes or renames a file, from the one on whose number the environment's STOPPED_CALL gives, as
   a disk that has stopped, and says so on standard error. Where there is a STOPPED_CALLS of n, only n of them fail, and those after them
   are made again, as by a disk that fails for a while. What goes to standard output isn't counted.
   It is loaded before the C library by LD_PRELOAD. */
extern long syscall(long number, ...);
extern char *getenv(const char *name);
extern int *__errno_location(void);
extern long write(int file, const void *bytes, unsigned long count);

enum { PWRITE = 18, FSYNC = 74, FDATASYNC = 75, FTRUNCATE = 77, RENAME = 82, NO_DEVICE = 5 };

static unsigned long called;

static unsigned long number_of(const char *digits) {
    unsigned long number = 0;
    while (*digits) number = number * 10 + (unsigned long)(*digits++ - '0');
    return number;
}

static int is_stopped(void) {
    const char *first = getenv("STOPPED_CALL"), *count = getenv("STOPPED_CALLS");
    if (!first || ++called < number_of(first)) return 0;
    if (count && called - number_of(first) >= number_of(count)) return 0;
    if (called == number_of(first)) write(2, "stopped\n", 8);
    *__errno_location() = NO_DEVICE;
    return 1;
}

long pwrite(int file, const void *bytes, unsigned long count, long place) {
    return is_stopped() ? -1 : syscall(PWRITE, file, bytes, count, place);
}

long pwrite64(int file, const void *bytes, unsigned long count, long place) { return pwrite(file, bytes, count, place); }

int fsync(int file) { return is_stopped() ? -1 : (int)syscall(FSYNC, file); }

int fdatasync(int file) { return is_stopped() ? -1 : (int)syscall(FDATASYNC, file); }

int ftruncate(int file, long length) { return is_stopped() ? -1 : (int)syscall(FTRUNCATE, file, length); }

int ftruncate64(int file, long length) { return ftruncate(file, length); }

int rename(const char *from, const char *to) { return is_stopped() ? -1 : (int)syscall(RENAME, from, to); }
