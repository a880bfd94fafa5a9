/*
** stmdesk in the process of its caller. A desk is the console of docs/CONSOLE.md: lines go in, and the bytes that `./stmdesk run` would
** print come out (stmdesk_new, stmdesk_feed, stmdesk_free). A history is checked, and a script explored, without a desk (stmdesk_check,
** stmdesk_explore, stmdesk_explore_with_diagnostics). docs/EMBEDDING.md says how the library is built, what is proved of it, and what isn't.
**
** An example. It prints what a desk answers to three lines:
**
**     #include <stdio.h>
**     #include <string.h>
**     #include <stmdesk.h>
**
**     int main(void) {
**         const char *lines = "tvar x : Int = 1\natomically writeTVar x 5\nstore\n";
**         uint8_t out[4096];
**         stmdesk_fed fed;
**         stmdesk desk;
**         if (!stmdesk_new(STMDESK_MAX_EVENTS, &desk)) return 1;
**         uint32_t status = stmdesk_feed(&desk, (const uint8_t *)lines, strlen(lines), out, sizeof out, &fed);
**         fwrite(out, 1, fed.given, stdout);
**         stmdesk_free(desk);
**         return status == STMDESK_ALL_TAKEN ? 0 : 1;
**     }
**
** THREADS. The library has no variables of its own, of a thread or of the process. So different desks may be used by different threads at
** the same time. On one desk there is one call at a time: calls of several threads need a mutex, or something else that puts each call
** after the one before it. A call starts no thread and waits for nothing but the processor.
**
** STACK. A call needs up to 2 MiB of stack, for the longest and deepest blocks. In a thread with less, such a block ends the process.
**
** SIGNALS. A signal handler may call no function on a desk that the interrupted thread may be in a call of, and none at all if malloc can't
** be called there, as is so by POSIX. stmdesk_version may be called anywhere.
**
** FORKS. A forked process has a copy of each desk, from which both go on by themselves. Fork while no call is under way on the desk in
** another thread: a copy of a desk in the midst of a call can't be used, and can't be freed.
**
** MEMORY. All that the library allocates comes from malloc and realloc and goes to free. What it holds after a call belongs to a desk. It keeps
** no pointer to what it is given after a call has returned. The bytes `lines`, `history`, `script`, `out`, and the variables are the caller's.
**
** POINTERS. No pointer may be NULL. One to bytes whose length is 0 may point anywhere else. What a function writes may overlap nothing else
** that it is given.
**
** STATUS. Functions whose result is a number return one of the statuses below. New ones may come with new functions; these keep their values.
*/
#ifndef STMDESK_H
#define STMDESK_H

#include <stdbool.h>
#include <stddef.h>
#include <stdint.h>

#ifdef __cplusplus
extern "C" {
#endif

/*
** The version of the library that this header belongs to: as a text, and as the number 1000000 * major + 1000 * minor + patch, which #if can
** compare. stmdesk_version has that of the library that runs.
*/
#define STMDESK_VERSION "0.30.0"
#define STMDESK_VERSION_NUMBER 30000

/*
** Sets *version to the version of the library, a text that a byte 0 ends, as STMDESK_VERSION is. It is never freed and never changes. The
** variable has to point to a text before the call, for example to STMDESK_VERSION. Allocates nothing, and can't fail.
*/
void stmdesk_version(const char **version);

/*
** A desk: a pointer at which only the functions below look. stmdesk_new fills such a variable, which belongs to the desk until
** stmdesk_free. It may be moved, for example into a struct of the caller's; but of two copies only one may be used from then on.
*/
typedef struct {
    void *at;
} stmdesk;

/* What a call of stmdesk_feed did. It sets all three, whatever its status is. */
typedef struct {
    size_t taken;   /* how many bytes of `lines` were taken: whole lines, from the front */
    size_t given;   /* how many bytes were written to `out` */
    size_t waiting; /* how many bytes of answers still wait; they are given by later calls */
} stmdesk_fed;

/* How a call of stmdesk_feed ended; STMDESK_NO_MEMORY is a status of every function that allocates. */
enum {
    /*
    ** All bytes were taken: taken == lines_length.
    */
    STMDESK_ALL_TAKEN = 0,

    /*
    ** The bytes from `taken` on have no line feed, so they are no line, and were not taken. The lines before them were answered. A caller
    ** that reads a stream puts these bytes before the next ones of it. A line isn't kept in part, so that a forgotten line feed never makes
    ** one command of two.
    */
    STMDESK_PART_OF_LINE = 1,

    /*
    ** malloc or realloc returned NULL: in stmdesk_feed in the line that begins at `taken`. The lines before it were answered, and their
    ** answers are kept. The desk goes on. Of that line no byte of an answer was given or is kept; the line was done, or it wasn't, or, if it
    ** is `eval`, `settle` or `drain`, it was done in part. Feed it again, or look at the desk first, by `show` or `events`.
    */
    STMDESK_NO_MEMORY = 2
};

/* How many events a desk takes at most. */
#define STMDESK_MAX_EVENTS 1048576u

/*
** Makes a desk with no variables, which takes `max_events` events, or STMDESK_MAX_EVENTS if that is more. `desk` points to a variable,
** which needn't be initialized.
**
** Returns true, and the desk is the caller's, to be freed by stmdesk_free. Returns false if there was no memory: *desk is then as it was,
** and isn't freed.
*/
bool stmdesk_new(uint32_t max_events, stmdesk *desk);

/*
** A seed: two numbers on which the places of names of variables in tables depend, and nothing that a function returns. Under a seed that a
** stranger doesn't know, such as 16 bytes of getrandom, he can't choose names that collide, which cost time.
*/
typedef struct {
    uint64_t first;
    uint64_t second;
} stmdesk_seed;

/*
** The same as stmdesk_new, with the names of variables under this seed. stmdesk_new has one that is always the same and known to all.
*/
bool stmdesk_new_seeded(uint32_t max_events, const stmdesk_seed *seed, stmdesk *desk);

/*
** Answers the whole lines among the `lines_length` bytes at `lines`, in their order, as the console does, and then writes the oldest bytes
** of answers that wait to `out`, at most `out_length`. What has no room is kept in the desk, and no byte is lost: after a call with
** fed->waiting > 0 call again with lines_length 0, or with more lines. While there is room in `out`, nothing waits: if fed->given <
** out_length, then fed->waiting == 0.
**
** A line ends with '\n', before which a '\r' counts for nothing. Lines may have any bytes; what isn't a command is answered with a line
** `refused ..`. How many lines an answer has is said in docs/CONSOLE.md.
**
** `desk` and `fed` point to variables, `lines` and `out` to the bytes. With length 0 these two may point anywhere, but not be NULL. Nothing
** that is written (*desk, *fed, out) may overlap anything else.
**
** Returns STMDESK_ALL_TAKEN, STMDESK_PART_OF_LINE or STMDESK_NO_MEMORY.
*/
uint32_t stmdesk_feed(stmdesk *desk, const uint8_t *lines, size_t lines_length, uint8_t *out, size_t out_length, stmdesk_fed *fed);

/*
** Frees a desk, with the answers that wait. It can't be used any more, nor can a copy of the variable.
*/
void stmdesk_free(stmdesk desk);

/* How a call of stmdesk_check ended, if not with STMDESK_NO_MEMORY. */
enum {
    /* The bytes are a legal history. */
    STMDESK_LEGAL = 0,

    /* `line` isn't the first line of a history, or not one of its variables, or of the checkpoint from which it begins. */
    STMDESK_BAD_HEADER = 3,

    /* `line` is of no event that the format has, is too long, or has no line feed. */
    STMDESK_BAD_LINE = 4,

    /* `line` is of an event that can't follow those before it. */
    STMDESK_NOT_LEGAL = 5
};

/* What a check found. stmdesk_check sets all four, whatever its status is. */
typedef struct {
    uint32_t events;  /* STMDESK_LEGAL: how many events the history has; else 0 */
    uint32_t waiting; /* STMDESK_LEGAL: how many blocks wait after them; else 0 */
    uint32_t cells;   /* STMDESK_LEGAL: how many variables the store has after them; else 0 */
    uint32_t line;    /* a fault: the number of its line, counted from 1; else 0 */
} stmdesk_checked;

/*
** Checks whether the `history_length` bytes at `history` are a legal history (docs/HISTORY.md), as `./stmdesk check` does. It needs no desk,
** keeps nothing, and may be called in several threads at once. A history with a fault is read twice up to there.
**
** Returns STMDESK_LEGAL; the status of the first fault, by docs/HISTORY.md; or STMDESK_NO_MEMORY, and then nothing is known of the history.
*/
uint32_t stmdesk_check(const uint8_t *history, size_t history_length, const stmdesk_seed *seed, stmdesk_checked *checked);

/* How a call of stmdesk_explore ended, if not with STMDESK_NO_MEMORY. */
enum {
    /* No order of the steps leads to a fault. */
    STMDESK_RIGHT = 0,

    /* There is a fault. The text says which, and which order leads there; or it is the history of that order. */
    STMDESK_FAULTY = 6,

    /* More states can be reached than `max_states`, and no fault was found. */
    STMDESK_INCOMPLETE = 7,

    /* `line` of the script is invalid. Nothing was explored, and the text is empty. */
    STMDESK_BAD_SCRIPT = 8,

    /* With `history`: there is a fault, and its history has more events, or more blocks that wait, than a desk allows. The text is empty. */
    STMDESK_NO_ROOM = 9
};

/*
** What is asked of an exploration: the options of `./stmdesk explore`. Version 0.14.0 has padding in place of `trace`, and up to 0.16.0 this
** ends before `progress`: compile again what was compiled with an older header.
*/
typedef struct {
    uint32_t max_states; /* how many states are kept at most; `./stmdesk explore` keeps 1,000,000. With 0 none is looked at */
    bool history;        /* whether the text is the history of the fault, and empty if there is none */
    bool all;            /* whether each state is met and counted, also those that can't matter */
    bool allow_throws;   /* whether no throw of a block is a fault */
    bool trace;          /* whether after a fault the text says what each step of its order does, and the last store; not with `history` */
    bool progress;       /* whether it is a fault if a client can't ever do its next step again; then each state is met and counted, too */
} stmdesk_explore_options;

/* What an exploration found besides its text. Both are set, whatever the status is. */
typedef struct {
    size_t length; /* how many bytes the text has, without the diagnostics */
    uint32_t line; /* STMDESK_BAD_SCRIPT: the number of the first invalid line, counted from 1; else 0 */
} stmdesk_explored;

/*
** Explores every order in which the clients of a script can do their steps (docs/EXPLORE.md): of the `script_length` bytes at `script`, as
** `./stmdesk explore` does. It needs no desk, and may be called in several threads at once. It can take long, and memory for as many
** states as `max_states`; nothing breaks it off.
**
** The text that the program would print is given as the answers of a desk are. For this *text becomes a desk of its own, which takes no
** events, and in which the text waits: stmdesk_feed with lines_length 0 gives it, in parts of any size, and stmdesk_free frees it. `text`
** points to a variable, which needn't be initialized.
**
** Returns one of the statuses above, and *text is the caller's, to be freed by stmdesk_free, also if the text is empty. Or returns
** STMDESK_NO_MEMORY: *text is then as it was, and isn't freed.
*/
uint32_t stmdesk_explore(const uint8_t *script, size_t script_length, const stmdesk_explore_options *options,
                         stmdesk *text, stmdesk_explored *explored);

/*
** The same as stmdesk_explore, for callers who show their user what may be wrong with a script. After the explored->length bytes of the text
** its diagnostics wait: the lines that `./stmdesk explore` writes to standard error, each ended by '\n'. After STMDESK_RIGHT these are the
** warnings, after STMDESK_BAD_SCRIPT the number of the invalid line and why it is invalid, and with `history`, if there is none, why not; else
** there are none (docs/EXPLORE.md, "Output"). When stmdesk_feed has given explored->length bytes, fed->waiting is how many they have.
*/
uint32_t stmdesk_explore_with_diagnostics(const uint8_t *script, size_t script_length, const stmdesk_explore_options *options,
                                          stmdesk *text, stmdesk_explored *explored);

#ifdef __cplusplus
}
#endif

#endif
