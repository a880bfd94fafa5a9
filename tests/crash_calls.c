/* Loaded before the C library: counts the calls that the program makes on files and folders, logs them, and lets one of them fail, or kills
   the program at it. Counted are open, pread, pwrite, fsync, fdatasync, ftruncate, rename, unlink, flock, fchmod, fchown, futimens, statx
   and realpath.

   LOG=FILE      each call is a line of FILE when it has returned: its name, its result (-1 for an error), the number of the file, or 0, and
                 what else it was given: the mode of open if it makes the file, else `-`, and the path; the offset of pwrite, and in
                 hexadecimal digits what was written; the length of ftruncate; the paths of rename and unlink; the mode of fchmod. A read of
                 standard input is a line `asked`, a write of N bytes on standard output `answered N`, and the begin of the call AT
                 `reached` with its name and path
   ONLY=NAMES    only calls of these names, with commas between them, are counted
   FILE=NAME     only calls on the file of this name, in whatever folder
   WHILE=FILE    only as long as FILE is there
   AT=N          at the N-th call, counted from 1:
   DOES=fail     it fails with ERROR, a write after half of its bytes, and so do the next TIMES - 1 calls (of 0, all)
   DOES=before   the program is killed before it
   DOES=after    the program is killed after it
   DOES=make     an empty file is made at the path MAKES before it
   LINES=N       a read of standard input gets at most N lines */
#define _GNU_SOURCE
#include <dlfcn.h>
#include <errno.h>
#include <fcntl.h>
#include <signal.h>
#include <stdarg.h>
#include <stdio.h>
#include <stdlib.h>
#include <string.h>
#include <sys/file.h>
#include <sys/stat.h>
#include <sys/syscall.h>
#include <unistd.h>

#define REAL(name) ((__typeof__(&name))real(#name))

static unsigned long calls, at, times, lines;
static int error, logged = -1, is_at; /* whether the present call is the call AT */
static const char *does, *only, *name_of_file, *as_long_as, *makes;

static void *real(const char *name) {
    void *found = dlsym(RTLD_NEXT, name);
    if (!found)
        abort();
    return found;
}

static unsigned long number_of(const char *name) {
    const char *text = getenv(name);
    return text ? strtoul(text, NULL, 10) : 0;
}

__attribute__((constructor)) static void begin(void) {
    const char *log = getenv("LOG");
    at = number_of("AT");
    times = number_of("TIMES");
    lines = number_of("LINES");
    error = (int)number_of("ERROR");
    does = getenv("DOES") ? getenv("DOES") : "";
    only = getenv("ONLY");
    name_of_file = getenv("FILE");
    as_long_as = getenv("WHILE");
    makes = getenv("MAKES");
    if (log)
        logged = (int)syscall(SYS_openat, AT_FDCWD, log, O_WRONLY | O_CREAT | O_APPEND | O_CLOEXEC, 0600);
    if (logged >= 0 && logged < 3) { /* a number that the program has to find closed */
        int moved = fcntl(logged, F_DUPFD_CLOEXEC, 100);
        close(logged);
        logged = moved;
    }
}

static void put(const char *text, size_t length) {
    if (logged >= 0 && syscall(SYS_write, logged, text, length) != (long)length)
        abort();
}

__attribute__((format(printf, 1, 2))) static void note(const char *format, ...) {
    char text[9000];
    int saved = errno, length;
    va_list rest;
    va_start(rest, format);
    length = vsnprintf(text, sizeof text, format, rest);
    va_end(rest);
    put(text, (size_t)length < sizeof text ? (size_t)length : sizeof text - 1);
    errno = saved;
}

static unsigned long inode_of(int file) {
    struct stat it;
    int saved = errno;
    if (file < 0 || fstat(file, &it))
        it.st_ino = 0;
    errno = saved;
    return it.st_ino;
}

static int is_counted(const char *name) {
    const char *found = only;
    size_t length = strlen(name);
    if (!only)
        return 1;
    for (; (found = strstr(found, name)); found += length)
        if ((found == only || found[-1] == ',') && (found[length] == ',' || !found[length]))
            return 1;
    return 0;
}

/* Counts a call on a path, or if there is none on an open file. Whether it is to fail, with an error that is set. */
static int begin_call(const char *name, const char *path, int file) {
    char link[40], there[4200] = "";
    const char *last;
    int fails = strcmp(does, "fail") == 0;
    is_at = 0;
    if (!at || !is_counted(name) || (as_long_as && faccessat(AT_FDCWD, as_long_as, F_OK, 0)))
        return 0;
    if (!path) {
        snprintf(link, sizeof link, "/proc/self/fd/%d", file);
        if (readlink(link, there, sizeof there - 1) < 0)
            there[0] = 0;
        path = there;
    }
    last = strrchr(path, '/');
    if (name_of_file && strcmp(last ? last + 1 : path, name_of_file))
        return 0;
    is_at = ++calls == at;
    if (calls < at || (fails ? times && calls >= at + times : calls > at))
        return 0;
    if (is_at)
        note("reached %s %s\n", name, path);
    if (strcmp(does, "make") == 0)
        close((int)syscall(SYS_openat, AT_FDCWD, makes, O_WRONLY | O_CREAT | O_CLOEXEC, 0666));
    if (strcmp(does, "before") == 0)
        kill(getpid(), SIGKILL);
    if (fails)
        errno = error;
    return fails;
}

/* Logs a call with its result, and returns that. */
__attribute__((format(printf, 4, 5))) static long end_call(const char *name, long done, unsigned long inode, const char *format, ...) {
    char text[9000];
    va_list rest;
    va_start(rest, format);
    vsnprintf(text, sizeof text, format, rest);
    va_end(rest);
    note("%s %ld %lu %s\n", name, done, inode, text);
    if (is_at && strcmp(does, "after") == 0)
        kill(getpid(), SIGKILL);
    return done;
}

int open(const char *path, int flags, ...) {
    mode_t mode = 0;
    char made[12] = "-";
    int done;
    if (flags & O_CREAT) {
        va_list rest;
        va_start(rest, flags);
        mode = va_arg(rest, mode_t);
        va_end(rest);
        if (faccessat(AT_FDCWD, path, F_OK, AT_SYMLINK_NOFOLLOW))
            snprintf(made, sizeof made, "%o", mode);
    }
    done = begin_call("open", path, -1) ? -1 : REAL(open)(path, flags, mode);
    return (int)end_call("open", done, inode_of(done), "%s %s", made, path);
}

ssize_t pread(int file, void *bytes, size_t count, off_t from) {
    ssize_t done = begin_call("pread", NULL, file) ? -1 : REAL(pread)(file, bytes, count, from);
    return end_call("pread", done, inode_of(file), "%ld", (long)from);
}

ssize_t pwrite(int file, const void *bytes, size_t count, off_t from) {
    static const char digits[] = "0123456789abcdef";
    int fails = begin_call("pwrite", NULL, file), saved;
    ssize_t done = fails && error == EINTR ? -1 : REAL(pwrite)(file, bytes, fails ? count / 2 : count, from);
    size_t written = done > 0 ? (size_t)done : 0, next;
    char *text = malloc(2 * written + 1);
    saved = fails ? error : errno;
    for (next = 0; next < written; next++) {
        text[2 * next] = digits[((const unsigned char *)bytes)[next] >> 4];
        text[2 * next + 1] = digits[((const unsigned char *)bytes)[next] & 15];
    }
    note("pwrite %ld %lu %ld ", (long)done, inode_of(file), (long)from);
    put(text, 2 * written);
    free(text);
    errno = saved;
    note("\n");
    if (is_at && strcmp(does, "after") == 0)
        kill(getpid(), SIGKILL);
    return fails ? -1 : done;
}

static int sync_by(const char *name, int (*by)(int), int file) {
    int done = begin_call(name, NULL, file) ? -1 : by(file);
    return (int)end_call(name, done, inode_of(file), "%s", "");
}

int fsync(int file) { return sync_by("fsync", REAL(fsync), file); }
int fdatasync(int file) { return sync_by("fdatasync", REAL(fdatasync), file); }

int ftruncate(int file, off_t length) {
    int done = begin_call("ftruncate", NULL, file) ? -1 : REAL(ftruncate)(file, length);
    return (int)end_call("ftruncate", done, inode_of(file), "%ld", (long)length);
}

int rename(const char *from, const char *to) {
    int done = begin_call("rename", to, -1) ? -1 : REAL(rename)(from, to);
    return (int)end_call("rename", done, 0, "%s %s", from, to);
}

int unlink(const char *path) {
    int done = begin_call("unlink", path, -1) ? -1 : REAL(unlink)(path);
    return (int)end_call("unlink", done, 0, "%s", path);
}

int flock(int file, int operation) {
    int done = begin_call("flock", NULL, file) ? -1 : REAL(flock)(file, operation);
    return (int)end_call("flock", done, inode_of(file), "%d", operation);
}

int fchmod(int file, mode_t mode) {
    int done = begin_call("fchmod", NULL, file) ? -1 : REAL(fchmod)(file, mode);
    return (int)end_call("fchmod", done, inode_of(file), "%o", mode);
}

int fchown(int file, uid_t owner, gid_t group) {
    int done = begin_call("fchown", NULL, file) ? -1 : REAL(fchown)(file, owner, group);
    return (int)end_call("fchown", done, inode_of(file), "%u %u", owner, group);
}

int futimens(int file, const struct timespec times[2]) {
    int done = begin_call("futimens", NULL, file) ? -1 : REAL(futimens)(file, times);
    return (int)end_call("futimens", done, inode_of(file), "%ld", times[1].tv_nsec);
}

int statx(int folder, const char *path, int flags, unsigned mask, struct statx *into) {
    int done = begin_call("statx", path[0] ? path : NULL, folder) ? -1 : REAL(statx)(folder, path, flags, mask, into);
    return (int)end_call("statx", done, 0, "%s", path);
}

char *realpath(const char *path, char *resolved) {
    char *done = begin_call("realpath", path, -1) ? NULL : REAL(realpath)(path, resolved);
    end_call("realpath", done ? 0 : -1, 0, "%s", path);
    return done;
}

ssize_t read(int file, void *bytes, size_t count) {
    size_t got = 0;
    unsigned long left = lines;
    if (file != STDIN_FILENO)
        return REAL(read)(file, bytes, count);
    note("asked\n");
    if (!lines)
        return REAL(read)(file, bytes, count);
    while (got < count && left && REAL(read)(file, (char *)bytes + got, 1) == 1)
        left -= ((char *)bytes)[got++] == '\n';
    return (ssize_t)got;
}

ssize_t write(int file, const void *bytes, size_t count) {
    ssize_t done = REAL(write)(file, bytes, count);
    if (file == STDOUT_FILENO && done > 0)
        note("answered %ld\n", (long)done);
    return done;
}
