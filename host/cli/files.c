/* Files of the command line: read up to a limit, and written so that nobody ever sees half of one. */
#include "host.h"
#include <errno.h>
#include <fcntl.h>
#include <signal.h>
#include <stdatomic.h>
#include <stdlib.h>
#include <string.h>
#include <sys/stat.h>
#include <unistd.h>

static const char *read_open(int file, uint8_t *to, size_t most, size_t *len) {
    *len = 0;
    while (*len < most + 1) {
        ssize_t n = read(file, to + *len, most + 1 - *len);
        if (n < 0 && errno == EINTR) continue;
        if (n < 0) return strerror(errno);
        if (n == 0) break;
        *len += (size_t)n;
    }
    return 0;
}

const char *read_file(const char *path, uint8_t *to, size_t most, size_t *len) {
    /* a second reader of standard input would find it empty and take that for an empty text; of two threads each would read a part */
    static atomic_flag input_taken = ATOMIC_FLAG_INIT;
    *len = 0;
    if (strcmp(path, "-") == 0) {
        if (atomic_flag_test_and_set(&input_taken)) return "standard input is read already";
        return read_open(STDIN_FILENO, to, most, len);
    }
    int file = open(path, O_RDONLY | O_CLOEXEC);
    if (file < 0) return strerror(errno);
    const char *why = read_open(file, to, most, len);
    close(file);
    return why;
}

bool write_bytes(int file, part bytes) {
    while (bytes.len > 0) {
        ssize_t n = write(file, bytes.bytes, bytes.len);
        if (n < 0 && errno == EINTR) continue;
        if (n < 0) return false;
        bytes = (part){bytes.bytes + n, bytes.len - (size_t)n};
    }
    return true;
}

bool copy_bytes(int to, int from, off_t at, size_t len) {
    uint8_t room[65536];
    if (lseek(from, at, SEEK_SET) < 0) return false;
    while (len > 0) {
        ssize_t n = read(from, room, len < sizeof room ? len : sizeof room);
        if (n < 0 && errno == EINTR) continue;
        if (n == 0) errno = EIO;
        if (n <= 0 || !write_bytes(to, (part){room, (size_t)n})) return false;
        len -= (size_t)n;
    }
    return true;
}

/* The folder part of a path, with its slash; empty for a bare name. */
static size_t folder_len(const char *path) {
    const char *slash = strrchr(path, '/');
    return slash ? (size_t)(slash - path) + 1 : 0;
}

/* The new name reaches the disk with its folder. A file system that cannot flush folders says EINVAL, and then there is nothing to do. */
static bool flush_folder(const char *path) {
    char *folder = strndup(path, folder_len(path));
    if (!folder) return false;
    int file = open(*folder ? folder : ".", O_RDONLY | O_DIRECTORY | O_CLOEXEC);
    free(folder);
    if (file < 0) return false;
    bool flushed = fsync(file) == 0 || errno == EINVAL;
    close(file);
    return flushed;
}

/* What a file is to hold, and its mode. */
typedef struct { mode_t mode; filling *fill; void *with; } content;

/* The content into the file `beside`, on disk, under the path's name. False with errno; the path is then as it was. */
static bool write_beside(int file, const char *beside, const char *path, content c) {
    bool written = fchmod(file, c.mode) == 0 && c.fill(file, c.with) && fsync(file) == 0;
    int why = errno;
    bool closed = close(file) == 0;
    if (!written) errno = why;
    return written && closed && rename(beside, path) == 0;
}

/* A new file in the path's folder; its name is the caller's to free. */
static int open_beside(const char *path, char **name) {
    static const char pattern[] = ".chultarvi.XXXXXX";
    size_t folder = folder_len(path);
    *name = take(folder + sizeof pattern);
    memcpy(*name, path, folder);
    memcpy(*name + folder, pattern, sizeof pattern);
    return mkostemp(*name, O_CLOEXEC);
}

static bool replace(const char *path, content c) {
    char *beside;
    int file = open_beside(path, &beside);
    bool done = file >= 0 && write_beside(file, beside, path, c);
    if (!done) {
        say_of(path, "not written: %s; what was there is unchanged", strerror(errno));
        if (file >= 0) unlink(beside);
    } else if (!flush_folder(path)) {
        say_of(path, "written, but its folder is not flushed to disk: %s", strerror(errno));
        done = false;
    }
    free(beside);
    return done;
}

/* Through a link to the file that it names; a device or a pipe must not be renamed away. */
static bool write_through(const char *path, filling *fill, void *with) {
    struct stat old;
    if (lstat(path, &old) != 0) {
        mode_t mask = umask(0);
        umask(mask);
        return replace(path, (content){0666 & ~mask, fill, with});
    }
    char *full = realpath(path, 0);
    if (!full || stat(full, &old) != 0 || !S_ISREG(old.st_mode)) {
        say_of(path, "not written: %s", full ? "it stands there and is no regular file" : strerror(errno));
        free(full);
        return false;
    }
    bool done = replace(full, (content){old.st_mode & 0777, fill, with});
    free(full);
    return done;
}

/* An interrupt waits until a file stands or its beginning is removed. */
static void hold_signals(sigset_t *before) {
    sigset_t waiting;
    sigemptyset(&waiting);
    sigaddset(&waiting, SIGINT);
    sigaddset(&waiting, SIGTERM);
    sigaddset(&waiting, SIGHUP);
    sigprocmask(SIG_BLOCK, &waiting, before);
}

bool write_by(const char *path, filling *fill, void *with) {
    sigset_t before;
    hold_signals(&before);
    bool done = write_through(path, fill, with);
    sigprocmask(SIG_SETMASK, &before, 0);
    return done;
}

static bool fill_bytes(int file, void *bytes) { return write_bytes(file, *(const part *)bytes); }

bool write_file(const char *path, const uint8_t *bytes, size_t len) { return write_by(path, fill_bytes, &(part){bytes, len}); }

int open_unnamed(const char *path) {
    sigset_t before;
    char *name;
    hold_signals(&before);
    int file = open_beside(path, &name), why = errno;
    if (file >= 0) unlink(name);
    sigprocmask(SIG_SETMASK, &before, 0);
    free(name);
    errno = why;
    return file;
}

int flush_output(void) {
    static int first;
    bool failed = fflush(stdout) != 0 || ferror(stdout);
    if (failed && first == 0) first = errno ? errno : EIO;
    return first;
}

/* Notes come by the thousand from folders, so nothing is waited for: a FIFO is opened without its writer, looked at, and left. */
const char *read_note(const char *path, uint8_t *to, size_t most, size_t *len) {
    *len = 0;
    if (strcmp(path, "-") == 0) return read_file(path, to, most, len);
    int file = open(path, O_RDONLY | O_NONBLOCK | O_NOCTTY | O_CLOEXEC);
    struct stat kind;
    if (file < 0) return errno == ENXIO ? "it is a socket or a device without another end, which is skipped" : strerror(errno);
    const char *why = fstat(file, &kind) == 0 ? 0 : strerror(errno);
    if (!why && S_ISDIR(kind.st_mode)) why = "it is a folder; -r scans the files in it";
    else if (!why && !S_ISREG(kind.st_mode)) why = "it is a FIFO or a device, which is skipped; a note is a regular file, or - for standard input";
    if (!why) why = read_open(file, to, most, len);
    close(file);
    return why;
}
