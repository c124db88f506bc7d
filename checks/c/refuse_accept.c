/* Refuses the first calls that accept a connection, as many as the environment's REFUSED_ACCEPTS, with the error number REFUSED_ERROR, and
   says so on standard error, once. Later calls are made. It is loaded before the C library by LD_PRELOAD. */
extern long syscall(long number, ...);
extern char *getenv(const char *name);
extern int *__errno_location(void);
extern long write(int file, const void *bytes, unsigned long count);

enum { ACCEPT4 = 288 };

static unsigned long called;

static unsigned long number_of(const char *digits) {
    unsigned long number = 0;
    while (*digits) number = number * 10 + (unsigned long)(*digits++ - '0');
    return number;
}

int accept4(int file, void *address, void *length, int flags) {
    const char *error = getenv("REFUSED_ERROR"), *count = getenv("REFUSED_ACCEPTS");
    if (!error || !count || called >= number_of(count)) return (int)syscall(ACCEPT4, file, address, length, flags);
    if (!called++) write(2, "refused\n", 8);
    *__errno_location() = (int)number_of(error);
    return -1;
}

int accept(int file, void *address, void *length) { return accept4(file, address, length, 0); }
