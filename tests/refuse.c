/* Loaded before the C library: fails one request of the program, so that a script can try each in turn, hundreds in a few seconds.
 * REFUSE_MEMORY, REFUSE_READ and REFUSE_WRITE are the number of the request that fails, from 1, REFUSE_ERROR is the number of the error
 * (5, an input or output error). REFUSE_MARK is a file that gets a line `refused` when it fails, and a line `again` for each read or
 * write after that of the stream that failed. SHORT_READS and SHORT_WRITES make each read give and each write take one byte at most. */
#define _GNU_SOURCE
#include <dlfcn.h>
#include <errno.h>
#include <fcntl.h>
#include <stdlib.h>
#include <string.h>
#include <unistd.h>

static long asked[3];
static int failed[3] = {-1, -1, -1};
static const char *const names[3] = {"REFUSE_MEMORY", "REFUSE_READ", "REFUSE_WRITE"};

static void *next(const char *name) { return dlsym(RTLD_NEXT, name); }

static void mark(const char *line) {
    static ssize_t (*real)(int, const void *, size_t);
    const char *name = getenv("REFUSE_MARK");
    if (!name) return;
    if (!real) real = next("write");
    int file = open(name, O_CREAT | O_APPEND | O_WRONLY, 0600);
    if (real(file, line, strlen(line)) < 0) abort();
    close(file);
}

/* Whether this request fails, which is of the stream, if it is a read or a write. */
static int refused(int kind, int stream) {
    const char *wanted = getenv(names[kind]), *error = getenv("REFUSE_ERROR");
    if (kind > 0 && stream == failed[kind]) mark("again\n");
    if (!wanted || ++asked[kind] != atol(wanted)) return 0;
    mark("refused\n");
    failed[kind] = stream;
    errno = kind == 0 ? ENOMEM : error ? atoi(error) : EIO;
    return 1;
}

void *malloc(size_t size) {
    static void *(*real)(size_t);
    if (!real) real = next("malloc");
    return refused(0, -2) ? NULL : real(size);
}

void *realloc(void *block, size_t size) {
    static void *(*real)(void *, size_t);
    if (!real) real = next("realloc");
    return refused(0, -2) ? NULL : real(block, size);
}

ssize_t read(int file, void *bytes, size_t size) {
    static ssize_t (*real)(int, void *, size_t);
    if (!real) real = next("read");
    return refused(1, file) ? -1 : real(file, bytes, size > 1 && getenv("SHORT_READS") ? 1 : size);
}

ssize_t write(int file, const void *bytes, size_t size) {
    static ssize_t (*real)(int, const void *, size_t);
    if (!real) real = next("write");
    return refused(2, file) ? -1 : real(file, bytes, size > 1 && getenv("SHORT_WRITES") ? 1 : size);
}
