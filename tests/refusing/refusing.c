// Stands before the C library in one run of a program, and refuses what the environment asks for:
//
//     REFUSE_MEMORY=N   the Nth request for memory
//     FAIL_READ=K       the Kth read of a file
//     FAIL_WRITE=K      the Kth write to standard output, and each one after it
//     FAIL_ERRORS=1     each write to standard error
//     SHORT=1           each read and write moves at most one byte
//     TELL=FD           where a letter is written for each refusal (m, r, w) and for each file that is opened (o)
//
// It needs no header, so that the compiler of the kit alone builds it.

typedef unsigned long size;
typedef struct { char *at; size length; } part;

enum { READ = 0, WRITE = 1, OPENAT = 257, AT_FDCWD = -100, NO_MEMORY = 12, BROKEN_INPUT = 5, NO_SPACE = 28 };

extern char *getenv(const char *);
extern long syscall(long, ...);
extern int *__errno_location(void);
extern void *__libc_malloc(size);
extern void *__libc_calloc(size, size);
extern void *__libc_realloc(void *, size);

static long memory_left, reads_left, writes_left, errors_fail, is_short, tell = -1;

static long number(const char *name) {
    const char *text = getenv(name);
    long value = 0;
    while (text && *text >= '0' && *text <= '9') value = 10 * value + (*text++ - '0');
    return text ? value : 0;
}

__attribute__((constructor)) static void begin(void) {
    memory_left = number("REFUSE_MEMORY");
    reads_left = number("FAIL_READ");
    writes_left = number("FAIL_WRITE");
    errors_fail = number("FAIL_ERRORS");
    is_short = number("SHORT");
    if (getenv("TELL")) tell = number("TELL");
}

static void say(const char *letter) {
    if (tell >= 0) syscall(WRITE, tell, letter, 1L);
}

static long refuse(const char *letter, int error) {
    say(letter);
    *__errno_location() = error;
    return -1;
}

static int is_refused(void) { return memory_left > 0 && --memory_left == 0 && refuse("m", NO_MEMORY); }

void *malloc(size bytes) { return is_refused() ? 0 : __libc_malloc(bytes); }
void *calloc(size count, size bytes) { return is_refused() ? 0 : __libc_calloc(count, bytes); }
void *realloc(void *block, size bytes) { return is_refused() ? 0 : __libc_realloc(block, bytes); }

long read(int file, void *bytes, size length) {
    if (reads_left > 0 && --reads_left == 0) return refuse("r", BROKEN_INPUT);
    return syscall(READ, (long)file, bytes, is_short && length ? 1L : length);
}

long write(int file, const void *bytes, size length) {
    if (file == 2 && errors_fail) return refuse("w", NO_SPACE);
    if (file == 1 && writes_left == 1) return refuse("w", NO_SPACE);
    if (file == 1 && writes_left > 1) writes_left--;
    return syscall(WRITE, (long)file, bytes, is_short && length ? 1L : length);
}

// A write of several parts moves the first one that is not empty.
long writev(int file, const part *parts, int count) {
    int first = 0;
    while (first + 1 < count && parts[first].length == 0) first++;
    return count > 0 ? write(file, parts[first].at, parts[first].length) : 0;
}

static int opened(int folder, const char *path, int flags, unsigned mode) {
    say("o");
    return (int)syscall(OPENAT, (long)folder, path, (long)flags, (long)mode);
}

int open(const char *path, int flags, unsigned mode) { return opened(AT_FDCWD, path, flags, mode); }
int openat(int folder, const char *path, int flags, unsigned mode) { return opened(folder, path, flags, mode); }

// The names under which a program may have been linked with the same calls.
void *__malloc(size bytes) __attribute__((alias("malloc")));
long __read(int file, void *bytes, size length) __attribute__((alias("read")));
long __write(int file, const void *bytes, size length) __attribute__((alias("write")));
int __open(const char *path, int flags, unsigned mode) __attribute__((alias("open")));
int open64(const char *path, int flags, unsigned mode) __attribute__((alias("open")));
int __open64(const char *path, int flags, unsigned mode) __attribute__((alias("open")));
int openat64(int folder, const char *path, int flags, unsigned mode) __attribute__((alias("openat")));
