// Fails chosen calls of a program from outside: loaded before the C library, it stands in front of the calls that take memory, of
// read and of write. scripts/house try faults builds it and sets these words of the environment:
//
//     FAULT_CALL    memory, read or write
//     FAULT_FILE    the file descriptor, for read and write
//     FAULT_AT      the number, from 1, of the call that is faulted; 0 for every one; wanting for none
//     FAULT_KIND    fail: the call fails with FAULT_ERROR; short: it moves at most one byte; interrupt: it fails with EINTR,
//                   and the same call made again does not count; cut: the calls move at most FAULT_AT bytes in sum, and
//                   those after them fail with FAULT_ERROR
//     FAULT_COUNTS  a file that takes the counts of all calls at the end
#define _GNU_SOURCE
#include <errno.h>
#include <fcntl.h>
#include <stdio.h>
#include <stdlib.h>
#include <string.h>
#include <sys/syscall.h>
#include <unistd.h>

extern void *__libc_malloc(size_t size);
extern void *__libc_calloc(size_t count, size_t size);
extern void *__libc_realloc(void *old, size_t size);
extern void *__libc_memalign(size_t alignment, size_t size);

enum call { MEMORY, READ, WRITE };
enum kind { FAIL, SHORT, INTERRUPT, CUT };

static int is_ready;
static enum call call;
static enum kind kind;
static int file = -1, error;
static long at = -1;
static long memory_calls, reads[3], writes[3];
static int is_interrupted;

static const char *word(const char *name) {
    const char *value = getenv(name);
    return value == NULL ? "" : value;
}

__attribute__((constructor)) static void begin(void) {
    const char *calls = word("FAULT_CALL"), *kinds = word("FAULT_KIND"), *number = word("FAULT_AT");
    call = strcmp(calls, "read") == 0 ? READ : strcmp(calls, "write") == 0 ? WRITE : MEMORY;
    kind = strcmp(kinds, "short") == 0 ? SHORT : strcmp(kinds, "interrupt") == 0 ? INTERRUPT : strcmp(kinds, "cut") == 0 ? CUT : FAIL;
    at = *number == '\0' ? -1 : atol(number);
    file = atoi(word("FAULT_FILE"));
    error = atoi(word("FAULT_ERROR"));
    is_ready = 1;
}

__attribute__((destructor)) static void tell(void) {
    const char *path = word("FAULT_COUNTS");
    if (*path == '\0')
        return;
    char text[200];
    int length = snprintf(text, sizeof text, "memory %ld read0 %ld write1 %ld write2 %ld\n", memory_calls, reads[0], writes[1], writes[2]);
    int to = open(path, O_WRONLY | O_CREAT | O_TRUNC, 0600);
    syscall(SYS_write, to, text, (size_t)length);
    close(to);
}

// Counts a call that takes memory; true where it is to be refused.
static int is_refused(void) {
    if (!is_ready)
        return 0;
    memory_calls++;
    if (call != MEMORY || (at != 0 && at != memory_calls))
        return 0;
    errno = ENOMEM;
    return 1;
}

void *malloc(size_t size) { return is_refused() ? NULL : __libc_malloc(size); }

void *calloc(size_t count, size_t size) { return is_refused() ? NULL : __libc_calloc(count, size); }

void *realloc(void *old, size_t size) { return is_refused() ? NULL : __libc_realloc(old, size); }

void *aligned_alloc(size_t alignment, size_t size) { return is_refused() ? NULL : __libc_memalign(alignment, size); }

int posix_memalign(void **into, size_t alignment, size_t size) {
    void *got = aligned_alloc(alignment, size);
    if (got == NULL)
        return ENOMEM;
    *into = got;
    return 0;
}

// Counts a call of read or write. -1 where it fails; else how many bytes it may move.
static long allowed(enum call which, int which_file, long *counts, size_t size) {
    if (which_file < 0 || which_file > 2)
        return (long)size;
    if (is_interrupted) {
        is_interrupted = 0;
        return (long)size;
    }
    counts[which_file]++;
    if (which != call || which_file != file || at < 0)
        return (long)size;
    if (kind == CUT && at > 0) {
        long most = (long)size < at ? (long)size : at;
        at -= most;
        return most;
    }
    if (kind != CUT && at != 0 && at != counts[which_file])
        return (long)size;
    if (kind == SHORT)
        return size < 1 ? (long)size : 1;
    is_interrupted = kind == INTERRUPT;
    errno = kind == INTERRUPT ? EINTR : error;
    return -1;
}

ssize_t read(int which, void *into, size_t size) {
    long most = allowed(READ, which, reads, size);
    return most < 0 ? -1 : syscall(SYS_read, which, into, (size_t)most);
}

ssize_t write(int which, const void *from, size_t size) {
    long most = allowed(WRITE, which, writes, size);
    return most < 0 ? -1 : syscall(SYS_write, which, from, (size_t)most);
}
