/* Lets chosen calls of a program fail. It is loaded before the C library, which `hostile.sh` does, and is told by
 *
 *   FAILING_CALL    which calls: memory, open, read, write or close
 *   FAILING_FIRST   the number of the first one that fails, from 1
 *   FAILING_LAST    the number of the last one that fails
 *   FAILING_HOW     the number of the error; `short`: one byte alone is read or written; `none`: a write takes no byte;
 *                   `full`: the first one takes one byte alone, and each later one of this file finds no room
 *   FAILING_TRACE   a file that gets a line for each call, at the program's end
 */
#define _GNU_SOURCE
#include <errno.h>
#include <fcntl.h>
#include <limits.h>
#include <stdarg.h>
#include <stdio.h>
#include <stdlib.h>
#include <string.h>
#include <sys/syscall.h>
#include <unistd.h>

void *__libc_malloc(size_t size);
void *__libc_calloc(size_t count, size_t size);
void *__libc_realloc(void *old, size_t size);
void *__libc_memalign(size_t unit, size_t size);

enum { FILES = 64, NAME = 256, TRACE = 1 << 20 };

static int is_watching;
static const char *call = "", *how = "", *trace_file;
static long first, last, calls;
static char names[FILES][NAME] = {"input", "output", "errors"}, full[NAME];
static char trace[TRACE];
static size_t traced;

static long number(const char *variable) {
    const char *text = getenv(variable);
    return text ? atol(text) : 0;
}

__attribute__((constructor)) static void begin(void) {
    if (getenv("FAILING_CALL"))
        call = getenv("FAILING_CALL");
    if (getenv("FAILING_HOW"))
        how = getenv("FAILING_HOW");
    first = number("FAILING_FIRST");
    last = number("FAILING_LAST");
    trace_file = getenv("FAILING_TRACE");
    is_watching = 1;
}

__attribute__((destructor)) static void end(void) {
    is_watching = 0;
    if (!trace_file)
        return;
    int file = syscall(SYS_openat, AT_FDCWD, trace_file, O_WRONLY | O_CREAT | O_TRUNC, 0666);
    if (file < 0 || syscall(SYS_write, file, trace, traced) != (long)traced)
        abort();
}

/* Notes a call, and tells whether it is to fail. */
static int fails(const char *this, const char *on) {
    if (!is_watching)
        return 0;
    if (trace_file && traced + NAME + 32 < TRACE)
        traced += (size_t)snprintf(trace + traced, NAME + 32, "%s %s\n", this, on);
    if (strcmp(this, call) != 0)
        return 0;
    calls++;
    if (calls == first)
        snprintf(full, NAME, "%s", on);
    return first <= calls && calls <= last && (strcmp(how, "full") != 0 || strcmp(on, full) == 0);
}

/* ---- memory */

static int is_refused(void) {
    if (!fails("memory", ""))
        return 0;
    errno = ENOMEM;
    return 1;
}

void *malloc(size_t size) { return is_refused() ? NULL : __libc_malloc(size); }
void *calloc(size_t count, size_t size) { return is_refused() ? NULL : __libc_calloc(count, size); }
void *realloc(void *old, size_t size) { return is_refused() ? NULL : __libc_realloc(old, size); }
void *aligned_alloc(size_t unit, size_t size) { return is_refused() ? NULL : __libc_memalign(unit, size); }

int posix_memalign(void **place, size_t unit, size_t size) {
    void *memory = aligned_alloc(unit, size);
    if (!memory)
        return ENOMEM;
    *place = memory;
    return 0;
}

/* ---- files */

static const char *name_of(int file) { return 0 <= file && file < FILES ? names[file] : "another"; }

static int failure(int error) {
    errno = error;
    return -1;
}

static int opened(int folder, const char *name, int flags, int rights) {
    int only_reads = (flags & (O_ACCMODE | O_CREAT | O_TRUNC)) == O_RDONLY;
    char on[NAME];
    snprintf(on, NAME, "%s %s", only_reads ? "reads" : "writes", name);
    if (fails("open", on))
        return failure(atoi(how));
    int file = syscall(SYS_openat, folder, name, flags, rights);
    if (0 <= file && file < FILES)
        snprintf(names[file], NAME, "%s", name);
    return file;
}

/* What is opened by a call whose rights, if any, are the argument after `flags`. */
#define OPENED(folder)                                                                                                 \
    va_list rest;                                                                                                      \
    va_start(rest, flags);                                                                                             \
    int rights = flags & O_CREAT ? va_arg(rest, int) : 0;                                                              \
    va_end(rest);                                                                                                      \
    return opened(folder, name, flags, rights)

int open(const char *name, int flags, ...) { OPENED(AT_FDCWD); }
int open64(const char *name, int flags, ...) { OPENED(AT_FDCWD); }
int openat(int folder, const char *name, int flags, ...) { OPENED(folder); }
int openat64(int folder, const char *name, int flags, ...) { OPENED(folder); }

/* A read or a write that is to fail: of how many bytes it is, or -1 with its error. */
static ssize_t failing(size_t count) {
    if (strcmp(how, "short") == 0 || (strcmp(how, "full") == 0 && calls == first))
        return count ? 1 : 0;
    if (strcmp(how, "none") == 0)
        return 0;
    return failure(strcmp(how, "full") == 0 ? ENOSPC : atoi(how));
}

ssize_t read(int file, void *bytes, size_t count) {
    ssize_t asked = fails("read", name_of(file)) ? failing(count) : (ssize_t)count;
    return asked < 0 ? -1 : syscall(SYS_read, file, bytes, asked);
}

ssize_t write(int file, const void *bytes, size_t count) {
    ssize_t asked = fails("write", name_of(file)) ? failing(count) : (ssize_t)count;
    return asked < 0 ? -1 : syscall(SYS_write, file, bytes, asked);
}

int close(int file) {
    int is_failing = fails("close", name_of(file));
    int closed = syscall(SYS_close, file);
    return is_failing ? failure(atoi(how)) : closed;
}
