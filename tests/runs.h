/* Runs the program again and again, each time in a process of its own and with one fault of another number.

   It is included by a library that is loaded before the C library, whose constructor calls `begin_runs` before the program
   begins. The call returns in each run. The process that was started only waits: for a run with no fault, and then for the
   walk, which is a run with no fault, too. When the walk comes to a call that is to fail, it forks: the call fails in the new
   process, and the walk continues when that has ended. So a run costs no start of a program, and nothing of what comes before
   its fault. While the walk has several threads it can't fork; the faults that it passes then have runs from the start.

   RUNS_NUMBERS=F   0, for the run with no fault, and the numbers, ascending, each of four bytes, in the file descriptor F
   RUNS_ENDS=F      where the end of each run is written: a `struct end`, and after it what standard output has beyond what it
                    shares from the front with that of the first run, and what standard error has
   RUNS_SECONDS=N   after N seconds a run is ended

   Standard input, output and error are files, and each run has them as if it were the only one. */
#include <errno.h>
#include <signal.h>
#include <stddef.h>
#include <stdint.h>
#include <stdlib.h>
#include <string.h>
#include <sys/mman.h>
#include <sys/single_threaded.h>
#include <sys/stat.h>
#include <sys/syscall.h>
#include <sys/wait.h>
#include <unistd.h>

struct end {
    uint32_t number;
    int32_t status; /* below 0 it is the signal that ended the run */
    uint32_t counted;
    uint32_t taken; /* how many bytes of standard input */
    uint32_t shared, rest, errors;
};

static unsigned long before;
static unsigned long *counted = &before; /* what a library counts in a run */

static uint32_t *numbers;    /* those of the faults that are asked for */
static unsigned char *tried; /* of each whether it was */
static size_t count, next;   /* how many there are, and which of them the walk meets next */
static int is_walk, ends;
static unsigned seconds;
static unsigned long fault; /* the number of this run's fault; 0 if it has none */

static unsigned long number_of(const char *name) {
    const char *text = getenv(name);
    return text ? strtoul(text, NULL, 10) : 0;
}

static void stop(void) {
    for (;;)
        syscall(SYS_exit_group, 70);
}

static void put(int file, const void *bytes, size_t count) {
    while (count > 0) {
        long put = syscall(SYS_write, file, bytes, count);
        if (put < 0 && errno != EINTR)
            stop();
        if (put > 0) {
            bytes = (const char *)bytes + put;
            count -= (size_t)put;
        }
    }
}

/* The bytes that a run wrote into a file. */
static const char *content(int file, size_t *length) {
    off_t end = lseek(file, 0, SEEK_END);
    void *bytes;
    *length = end > 0 ? (size_t)end : 0;
    if (*length == 0)
        return "";
    bytes = mmap(NULL, *length, PROT_READ, MAP_SHARED, file, 0);
    if (bytes == MAP_FAILED)
        stop();
    return bytes;
}

static void leave(const char *bytes, size_t length) {
    if (length > 0)
        munmap((void *)bytes, length);
}

static void begin_anew(int file) {
    if (ftruncate(file, 0) || lseek(file, 0, SEEK_SET))
        stop();
}

/* Writes how a run ended. The output of the first one is kept. */
static void tell(int file, uint32_t number, int status) {
    static char *first;
    static size_t first_length;
    size_t length, errors_length, shared = 0;
    const char *output = content(STDOUT_FILENO, &length), *errors = content(STDERR_FILENO, &errors_length);
    struct end end;
    if (!first) {
        first = mmap(NULL, length + 1, PROT_READ | PROT_WRITE, MAP_PRIVATE | MAP_ANONYMOUS, -1, 0);
        if (first == MAP_FAILED)
            stop();
        memcpy(first, output, length);
        first_length = length;
    } else {
        size_t most = length < first_length ? length : first_length;
        if (memcmp(output, first, most) == 0)
            shared = most;
        while (shared < most && output[shared] == first[shared])
            shared += 1;
    }
    end.number = number;
    end.status = WIFSIGNALED(status) ? -WTERMSIG(status) : WEXITSTATUS(status);
    end.counted = (uint32_t)*counted;
    end.taken = (uint32_t)lseek(STDIN_FILENO, 0, SEEK_CUR);
    end.shared = (uint32_t)shared;
    end.rest = (uint32_t)(length - shared);
    end.errors = (uint32_t)errors_length;
    put(file, &end, sizeof end);
    put(file, output + shared, length - shared);
    put(file, errors, errors_length);
    leave(output, length);
    leave(errors, errors_length);
}

/* Waits for a run, and writes how it ended. */
static int await(pid_t run, uint32_t number) {
    int status;
    if (run < 0 || waitpid(run, &status, 0) != run)
        stop();
    tell(ends, number, status);
    return status;
}

/* Whether this process has one thread. One that was joined may still count for a moment. */
static int is_alone(void) {
    struct stat tasks;
    return __libc_single_threaded || (stat("/proc/self/task", &tasks) == 0 && tasks.st_nlink == 3);
}

/* Whether what is counted as the call of this number is to fail. In a walk it does in a new process. */
static int is_to_fail(unsigned long number) {
    off_t given, output, errors;
    unsigned long counts = *counted;
    pid_t run;
    if (!is_walk)
        return number == fault;
    if (next == count || number < numbers[next] || !is_alone())
        return 0;
    while (next < count && numbers[next] < number)
        next += 1;
    if (next == count || numbers[next] != number)
        return 0;
    given = lseek(STDIN_FILENO, 0, SEEK_CUR);
    output = lseek(STDOUT_FILENO, 0, SEEK_CUR);
    errors = lseek(STDERR_FILENO, 0, SEEK_CUR);
    run = (pid_t)syscall(SYS_clone, SIGCHLD, 0, 0, 0, 0); /* fork would take locks that the C library may hold here */
    if (run == 0) {
        is_walk = 0;
        fault = number;
        alarm(seconds);
        return 1;
    }
    await(run, (uint32_t)number);
    tried[next] = 1;
    next += 1;
    *counted = counts;
    if (lseek(STDIN_FILENO, given, SEEK_SET) < 0 || ftruncate(STDOUT_FILENO, output) || ftruncate(STDERR_FILENO, errors))
        stop();
    lseek(STDOUT_FILENO, output, SEEK_SET);
    lseek(STDERR_FILENO, errors, SEEK_SET);
    return 0;
}

/* A new run from the program's start: in it 0 is returned. */
static pid_t start(unsigned long number, int walks) {
    pid_t run;
    begin_anew(STDOUT_FILENO);
    begin_anew(STDERR_FILENO);
    if (lseek(STDIN_FILENO, 0, SEEK_SET))
        stop();
    *counted = 0;
    run = fork();
    if (run == 0) {
        fault = number;
        is_walk = walks;
        alarm(walks ? 0 : seconds);
    }
    return run;
}

static void *shared_memory(size_t length) {
    void *bytes = mmap(NULL, length, PROT_READ | PROT_WRITE, MAP_SHARED | MAP_ANONYMOUS, -1, 0);
    if (bytes == MAP_FAILED)
        stop();
    return bytes;
}

/* Returns in each run. */
static void begin_runs(void) {
    int asked = (int)number_of("RUNS_NUMBERS"), status = 0;
    off_t length = lseek(asked, 0, SEEK_END);
    size_t at;
    pid_t run;
    ends = (int)number_of("RUNS_ENDS");
    seconds = (unsigned)number_of("RUNS_SECONDS");
    counted = shared_memory(sizeof *counted);
    count = (size_t)length / sizeof *numbers;
    tried = shared_memory(count + 1);
    numbers = mmap(NULL, (size_t)length + 1, PROT_READ, MAP_PRIVATE, asked, 0);
    if (length < 0 || numbers == MAP_FAILED)
        stop();
    if ((run = start(0, 0)) == 0)
        return;
    status = await(run, 0);
    next = 1;
    if (count > 2 && !WIFSIGNALED(status)) {
        if ((run = start(0, 1)) == 0)
            return;
        if (run < 0 || waitpid(run, &status, 0) != run)
            stop();
    }
    for (at = 1; at < count; at++) {
        if (tried[at])
            continue;
        if ((run = start(numbers[at], 0)) == 0)
            return;
        await(run, numbers[at]);
    }
    for (;;)
        syscall(SYS_exit_group, 0);
}
