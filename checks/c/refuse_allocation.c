/* Refuses the allocation whose number the environment's REFUSED_ALLOCATION gives, and says so on standard error. Where there
   is a REFUSED_IN_A_ROW of n too, it refuses n from that one on.
   It is loaded before the C library by LD_PRELOAD. */
extern void *__libc_malloc(unsigned long size);
extern void *__libc_realloc(void *old, unsigned long size);
extern char *getenv(const char *name);
extern long write(int file, const void *bytes, unsigned long count);

static unsigned long asked;

static unsigned long number_of(const char *name, unsigned long otherwise) {
    const char *digits = getenv(name);
    unsigned long number = 0;
    if (!digits) return otherwise;
    while (*digits) number = number * 10 + (unsigned long)(*digits++ - '0');
    return number;
}

static int is_refused(void) {
    unsigned long first = number_of("REFUSED_ALLOCATION", 0);
    if (!first) return 0;
    asked++;
    if (asked < first || asked >= first + number_of("REFUSED_IN_A_ROW", 1)) return 0;
    write(2, "refused\n", 8);
    return 1;
}

void *malloc(unsigned long size) { return is_refused() ? 0 : __libc_malloc(size); }

void *realloc(void *old, unsigned long size) { return is_refused() ? 0 : __libc_realloc(old, size); }
