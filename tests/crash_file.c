/* Loaded before the C library: the system crashes, or a call fails, at one of the calls that the program makes on its journal, and on
   the new file that takes its place at a checkpoint.

   CRASH_AT=N    at the N-th call of write, cut and sync on a regular file, or of rename, counted from 1, the program is killed, and the file has what a
                 crash of the system may leave: LEAVES=synced, what was synced last; LEAVES=written, this and all that was written;
                 LEAVES=any, in place of each byte that was written since the last sync the old one, the new one or anything, up to any
                 length between the two; LEAVES=zeros, the same with a 0 in place of anything. A rename is lost with LEAVES=synced,
                 and else done
   SEED=N        of what is chosen
   FAIL_AT=N     the N-th such call, which is no rename, fails with the error FAIL_WITH, a write after the half of it; if the program still
                 writes or cuts the file after that, it ends with status 99
   READ_FAILS=N  the N-th read of a regular file fails
   ONE_LINE=1    a read of standard input gets one line */
#define _GNU_SOURCE
#include <dlfcn.h>
#include <errno.h>
#include <signal.h>
#include <stdio.h>
#include <stdlib.h>
#include <string.h>
#include <sys/stat.h>
#include <unistd.h>

static ssize_t (*real_read)(int, void *, size_t);
static ssize_t (*real_pread)(int, void *, size_t, off_t);
static ssize_t (*real_pwrite)(int, const void *, size_t, off_t);
static int (*real_ftruncate)(int, off_t), (*real_fsync)(int), (*real_fdatasync)(int), (*real_close)(int);
static int (*real_rename)(const char *, const char *);
static unsigned long calls, reads, crash_at, fail_at, read_fails, one_line, seed;
static int fail_with, has_failed;
static const char *leaves;

struct text {
    char *bytes;
    size_t length;
};
enum { FILES = 256 };
static struct text synced_of[FILES]; /* by the numbers of the files */
static ino_t inode_of[FILES];

static unsigned long number_of(const char *name) {
    const char *text = getenv(name);
    return text ? strtoul(text, NULL, 10) : 0;
}

__attribute__((constructor)) static void begin(void) {
    real_read = (ssize_t(*)(int, void *, size_t))dlsym(RTLD_NEXT, "read");
    real_pread = (ssize_t(*)(int, void *, size_t, off_t))dlsym(RTLD_NEXT, "pread");
    real_pwrite = (ssize_t(*)(int, const void *, size_t, off_t))dlsym(RTLD_NEXT, "pwrite");
    real_ftruncate = (int (*)(int, off_t))dlsym(RTLD_NEXT, "ftruncate");
    real_fsync = (int (*)(int))dlsym(RTLD_NEXT, "fsync");
    real_fdatasync = (int (*)(int))dlsym(RTLD_NEXT, "fdatasync");
    real_rename = (int (*)(const char *, const char *))dlsym(RTLD_NEXT, "rename");
    real_close = (int (*)(int))dlsym(RTLD_NEXT, "close");
    crash_at = number_of("CRASH_AT");
    fail_at = number_of("FAIL_AT");
    fail_with = (int)number_of("FAIL_WITH");
    read_fails = number_of("READ_FAILS");
    one_line = number_of("ONE_LINE");
    seed = number_of("SEED") * 2 + 1;
    leaves = getenv("LEAVES") ? getenv("LEAVES") : "";
}

static int is_file(int file) {
    struct stat it;
    return fstat(file, &it) == 0 && S_ISREG(it.st_mode) && file > 2 && file < FILES;
}

static struct text content(int file) {
    struct text it = {NULL, 0};
    struct stat stat;
    if (fstat(file, &stat))
        abort();
    it.bytes = malloc((size_t)stat.st_size + 1);
    while (it.length < (size_t)stat.st_size) {
        ssize_t got = real_pread(file, it.bytes + it.length, (size_t)stat.st_size - it.length, (off_t)it.length);
        if (got <= 0)
            abort();
        it.length += (size_t)got;
    }
    return it;
}

static void keep(int file) {
    struct stat it;
    if (fstat(file, &it))
        abort();
    free(synced_of[file].bytes);
    synced_of[file] = content(file);
    inode_of[file] = it.st_ino;
}

/* Whether nothing is known of the file, which may have the number of another one that was closed. */
static int is_unknown(int file) {
    struct stat it;
    return !synced_of[file].bytes || fstat(file, &it) || it.st_ino != inode_of[file];
}

/* A number below `most`. */
static size_t chosen(size_t most) {
    seed = seed * 6364136223846793005ul + 1442695040888963407ul;
    return (seed >> 33) % most;
}

/* Leaves in the file what a crash may leave, and kills the program. */
static void crash(int file) {
    struct text new = content(file), *old = &synced_of[file];
    size_t shorter = new.length < old->length ? new.length : old->length;
    size_t longer = new.length > old->length ? new.length : old->length, length = longer, at;
    char *bytes = malloc(longer + 1);
    int has_zeros = strcmp(leaves, "zeros") == 0;
    if (strcmp(leaves, "written") == 0) {
        kill(getpid(), SIGKILL);
    } else if (strcmp(leaves, "synced") == 0) {
        memcpy(bytes, old->bytes, length = old->length);
    } else {
        length = shorter + chosen(longer - shorter + 1);
        for (at = 0; at < length; at++) {
            int is_old = at < old->length, is_new = at < new.length;
            char any = has_zeros ? 0 : "\0{\n}x"[chosen(5)];
            if (is_old && is_new && old->bytes[at] == new.bytes[at])
                bytes[at] = new.bytes[at];
            else if (is_new && chosen(3))
                bytes[at] = new.bytes[at];
            else if (is_old && (!is_new || has_zeros || chosen(2))) /* what a cut hasn't reached stays as it was */
                bytes[at] = old->bytes[at];
            else
                bytes[at] = any;
        }
    }
    if (real_ftruncate(file, (off_t)length) || real_pwrite(file, bytes, length, 0) != (ssize_t)length)
        abort();
    kill(getpid(), SIGKILL);
}

/* Counts a call. Whether it is to fail. */
static int begin_call(int file, int writes) {
    if (is_unknown(file))
        keep(file);
    if (has_failed && writes)
        _exit(99);
    calls += 1;
    return has_failed = has_failed || (fail_at && calls == fail_at);
}

static void end_call(int file) {
    if (crash_at && calls == crash_at)
        crash(file);
}

ssize_t read(int file, void *bytes, size_t count) {
    size_t got = 0;
    if (file != STDIN_FILENO || !one_line)
        return real_read(file, bytes, count);
    while (got < count && real_read(file, (char *)bytes + got, 1) == 1)
        if (((char *)bytes)[got++] == '\n')
            break;
    return (ssize_t)got;
}

ssize_t pread(int file, void *bytes, size_t count, off_t at) {
    if (is_file(file) && ++reads == read_fails) {
        errno = EIO;
        return -1;
    }
    return real_pread(file, bytes, count, at);
}

ssize_t pwrite(int file, const void *bytes, size_t count, off_t at) {
    ssize_t done;
    if (!is_file(file))
        return real_pwrite(file, bytes, count, at);
    if (begin_call(file, 1)) {
        real_pwrite(file, bytes, count / 2, at);
        errno = fail_with;
        return -1;
    }
    done = real_pwrite(file, bytes, count, at);
    end_call(file);
    return done;
}

int ftruncate(int file, off_t length) {
    int done;
    if (!is_file(file))
        return real_ftruncate(file, length);
    if (begin_call(file, 1)) {
        errno = fail_with;
        return -1;
    }
    done = real_ftruncate(file, length);
    end_call(file);
    return done;
}

static int sync_by(int (*real)(int), int file) {
    int done;
    if (!is_file(file))
        return real(file);
    if (begin_call(file, 0)) {
        errno = fail_with;
        return -1;
    }
    if (crash_at && calls == crash_at)
        crash(file); /* before it has done anything; that it has done all is as a crash in the next call */
    done = real(file);
    keep(file);
    return done;
}

int rename(const char *from, const char *to) {
    int done;
    calls += 1;
    if (crash_at && calls == crash_at && strcmp(leaves, "synced") == 0)
        kill(getpid(), SIGKILL);
    done = real_rename(from, to);
    if (crash_at && calls == crash_at)
        kill(getpid(), SIGKILL);
    return done;
}

/* Another file may get its number, and if it is gone, that of its inode. */
int close(int file) {
    if (file >= 0 && file < FILES) {
        free(synced_of[file].bytes);
        synced_of[file].bytes = NULL;
    }
    return real_close(file);
}

int fsync(int file) { return sync_by(real_fsync, file); }
int fdatasync(int file) { return sync_by(real_fdatasync, file); }
ssize_t pread64(int file, void *bytes, size_t count, off_t at) { return pread(file, bytes, count, at); }
ssize_t pwrite64(int file, const void *bytes, size_t count, off_t at) { return pwrite(file, bytes, count, at); }
int ftruncate64(int file, off_t length) { return ftruncate(file, length); }
