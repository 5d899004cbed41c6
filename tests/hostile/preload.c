/* Preloaded into a built program: refuses allocations, and makes reads and writes fail. The environment says which:

   REFUSE_NTH=N      allocation N, counted from 1, is refused; with REFUSE_ALL every later one too
   REFUSE_MARKED     count only allocations between the byte '<' and the byte '>' that the program writes on standard
                     error
   FAIL_READ=N       read N fails; with INTERRUPTED because it is interrupted
   FAIL_WRITE=N      write N on descriptor WRITE_ON fails; with TAKE_NONE it succeeds and takes nothing
   ONE_BYTE          each read and write transfers at most one byte
   REPORT_OPENED       write the path of each file that is opened to descriptor 3, with a line feed, and nothing else

   Otherwise descriptor 3 gets a byte 'x' for each allocation, read or write that fails, and a byte 'y' for each later
   read or write of the descriptor that failed. */
typedef unsigned long size_t;
extern void *__libc_malloc(size_t);
extern void *__libc_realloc(void *, size_t);
extern long __read(int, void *, size_t);
extern long __write(int, const void *, size_t);
extern int open64(const char *, int, ...);
extern char *getenv(const char *);
extern int *__errno_location(void);

enum { INTERRUPTED = 4, FAILED = 5 };

static unsigned long asked, nth, reads, fail_read, writes, fail_write, write_on;
static int all, counts, marked, interrupted, take_none, one_byte, report_opened;
static int failed = -1;

static unsigned long number(const char *name) {
    const char *text = getenv(name);
    unsigned long value = 0;
    for (; text && *text >= '0' && *text <= '9'; text++) value = value * 10 + (unsigned long)(*text - '0');
    return value;
}

__attribute__((constructor)) static void begin(void) {
    nth = number("REFUSE_NTH");
    fail_read = number("FAIL_READ");
    fail_write = number("FAIL_WRITE");
    write_on = number("WRITE_ON");
    all = getenv("REFUSE_ALL") != 0;
    marked = getenv("REFUSE_MARKED") != 0;
    interrupted = getenv("INTERRUPTED") != 0;
    take_none = getenv("TAKE_NONE") != 0;
    one_byte = getenv("ONE_BYTE") != 0;
    report_opened = getenv("REPORT_OPENED") != 0;
    counts = !marked;
    asked = 0;
}

static void report(const char *what) { __write(3, what, 1); }

static int refused(void) {
    if (!counts) return 0;
    asked++;
    if (!nth || (all ? asked < nth : asked != nth)) return 0;
    report("x");
    return 1;
}

void *malloc(size_t size) { return refused() ? 0 : __libc_malloc(size); }
void *realloc(void *old, size_t size) { return refused() ? 0 : __libc_realloc(old, size); }

static long fails(int descriptor, int error) {
    report("x");
    failed = descriptor;
    *__errno_location() = error;
    return -1;
}

long read(int descriptor, void *into, size_t size) {
    if (descriptor == failed) report("y");
    if (++reads == fail_read) return fails(descriptor, interrupted ? INTERRUPTED : FAILED);
    return __read(descriptor, into, one_byte && size ? 1 : size);
}

long write(int descriptor, const void *from, size_t size) {
    const char *bytes = from;
    if (marked && descriptor == 2 && size == 1) counts = *bytes == '<' ? 1 : *bytes == '>' ? 0 : counts;
    if (descriptor == failed) report("y");
    if (fail_write && (unsigned long)descriptor == write_on && ++writes == fail_write) {
        if (!take_none) return fails(descriptor, FAILED);
        fails(descriptor, 0);
        return 0;
    }
    return __write(descriptor, from, one_byte && size ? 1 : size);
}

/* Files are only read: none is made, so there is no mode to hand on. */
int open(const char *path, int flags, ...) {
    if (report_opened) {
        size_t length = 0;
        while (path[length]) length++;
        __write(3, path, length);
        __write(3, "\n", 1);
    }
    return open64(path, flags);
}
