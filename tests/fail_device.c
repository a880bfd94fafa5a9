/* Loaded before the C library: makes standard input, output and error fail or give little.

   READ_FAILS=1, WRITE_FAILS=1             the call of the run's number, counted from 1, and all later ones fail (standard
                                           input; standard output); of number 0 none does
   READ_SHORT=1, WRITE_SHORT=1             a call takes one byte
   READ_INTERRUPTS=1, WRITE_INTERRUPTS=1   each second call is interrupted, the first one too
   ERRORS_FAIL=1                           nothing can be written on standard error

   Counts the calls of write. */
#define _GNU_SOURCE
#include "runs.h"
#include <dlfcn.h>

struct device {
    unsigned long calls;
    int may_fail, has_failed, is_short, interrupts;
};

static ssize_t (*real_read)(int, void *, size_t);
static ssize_t (*real_write)(int, const void *, size_t);
static struct device input, output;
static int errors_fail;

__attribute__((constructor)) static void begin(void) {
    real_read = (ssize_t(*)(int, void *, size_t))dlsym(RTLD_NEXT, "read");
    real_write = (ssize_t(*)(int, const void *, size_t))dlsym(RTLD_NEXT, "write");
    begin_runs();
    input.may_fail = (int)number_of("READ_FAILS");
    output.may_fail = (int)number_of("WRITE_FAILS");
    input.is_short = (int)number_of("READ_SHORT");
    output.is_short = (int)number_of("WRITE_SHORT");
    input.interrupts = (int)number_of("READ_INTERRUPTS");
    output.interrupts = (int)number_of("WRITE_INTERRUPTS");
    errors_fail = (int)number_of("ERRORS_FAIL");
}

/* The error of the next call, or 0. */
static int error_of(struct device *device) {
    device->calls += 1;
    if (device->may_fail && !device->has_failed)
        device->has_failed = is_to_fail(device->calls);
    if (device->interrupts && device->calls % 2 == 1)
        return EINTR;
    return device->has_failed ? EIO : 0;
}

ssize_t read(int file, void *bytes, size_t count) {
    if (file != STDIN_FILENO)
        return real_read(file, bytes, count);
    if ((errno = error_of(&input)))
        return -1;
    return real_read(file, bytes, input.is_short && count > 1 ? 1 : count);
}

ssize_t write(int file, const void *bytes, size_t count) {
    if (file == STDERR_FILENO && errors_fail) {
        errno = EIO;
        return -1;
    }
    if (file != STDOUT_FILENO)
        return real_write(file, bytes, count);
    *counted += 1;
    if ((errno = error_of(&output)))
        return -1;
    return real_write(file, bytes, output.is_short && count > 1 ? 1 : count);
}
