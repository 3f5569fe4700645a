/* Faults on demand, for tests of the command line: the linker puts these in the place of the system's calls (--wrap), and the variable FAULT says
   which one fails, or at which one the process is killed. Not part of the program. */
#include <errno.h>
#include <signal.h>
#include <stdbool.h>
#include <stdio.h>
#include <stdlib.h>
#include <string.h>
#include <sys/types.h>
#include <unistd.h>

ssize_t __real_read(int file, void *to, size_t len);
ssize_t __real_write(int file, const void *from, size_t len);
int __real_fsync(int file);
int __real_close(int file);
int __real_rename(const char *from, const char *to);
void *__real_malloc(size_t len);

static bool fault(const char *name) {
    const char *asked = getenv("FAULT");
    return asked && strcmp(asked, name) == 0;
}
/* The call of this number, from 1 on: `write-at-3`. */
static bool fault_at(const char *name, int call) {
    char asked[32];
    snprintf(asked, sizeof asked, "%s-at-%d", name, call);
    return fault(asked);
}
static int fail(int why) {
    errno = why;
    return -1;
}

/* The file breaks off after its first ten bytes. */
ssize_t __wrap_read(int file, void *to, size_t len) {
    static bool begun;
    static int calls;
    if (fault_at("read", ++calls)) return fail(EIO);
    if (!fault("read")) return __real_read(file, to, len);
    if (begun) return fail(EIO);
    begun = true;
    return __real_read(file, to, len < 10 ? len : 10);
}
/* The disk is full after ten bytes; or each write takes one byte, or is interrupted first. */
ssize_t __wrap_write(int file, const void *from, size_t len) {
    static int calls;
    calls++;
    if (fault_at("write", calls)) return fail(ENOSPC);
    if (fault("write")) return calls > 1 ? fail(ENOSPC) : __real_write(file, from, len < 10 ? len : 10);
    if (fault("write-slow")) return calls % 2 ? fail(EINTR) : __real_write(file, from, 1);
    if (fault("write-kill") && calls > 1) raise(SIGKILL);
    return __real_write(file, from, fault("write-kill") && len > 10 ? 10 : len);
}
int __wrap_fsync(int file) {
    static int calls;
    calls++;
    if (fault("fsync") || (fault("folder") && calls == 2)) return fail(EIO);
    if (fault("folder-unable") && calls == 2) return fail(EINVAL);
    return __real_fsync(file);
}
/* Some file systems tell of a full disk only here. The first close is that of the text read. */
int __wrap_close(int file) {
    static int calls;
    int closed = __real_close(file);
    calls++;
    return (fault("close") && calls == 2) || fault_at("close", calls) ? fail(EDQUOT) : closed;
}
int __wrap_rename(const char *from, const char *to) {
    if (fault("rename")) return fail(EACCES);
    if (fault("rename-kill")) raise(SIGKILL);
    if (fault("rename-term")) raise(SIGTERM);
    return __real_rename(from, to);
}
/* Nothing large is to be had; or all that is taken must stay below 101 or 117 MiB. */
void *__wrap_malloc(size_t len) {
    static size_t taken;
    taken += len;
    if (fault("malloc") && len > 1000000) return 0;
    if ((fault("memory-101") && taken > 101u << 20) || (fault("memory-117") && taken > 117u << 20)) return 0;
    return __real_malloc(len);
}
