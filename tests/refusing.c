/* Loaded before a program, makes calls of it fail as the environment says. REFUSE_ALLOCATION, REFUSE_THREAD, FAIL_READ and FAIL_WRITE are
   the number of the one call of that kind that fails, and SHORTEN_READ and SHORTEN_WRITE that of the one read or write of several bytes that
   moves a single byte, each counted from 1. What the C library allocates for a thread isn't counted. READ_ROOM bytes can be read, and
   WRITE_ROOM bytes be written, one at a time; each call behind them fails, or answers 0 if WRITE_ENDS is set. The first READ_INTERRUPTIONS
   and WRITE_INTERRUPTIONS calls are interrupted. A `!` goes to the descriptor TOLD for the one call, and a `t` for each thread that starts. */
#define _GNU_SOURCE
#include <dlfcn.h>
#include <errno.h>
#include <pthread.h>
#include <stdatomic.h>
#include <stdlib.h>
#include <sys/syscall.h>
#include <sys/types.h>
#include <unistd.h>

void *__libc_malloc(size_t size);
void *__libc_calloc(size_t count, size_t size);
void *__libc_realloc(void *old, size_t size);

struct device {
    atomic_long calls, long_calls, room, interruptions;
    long failing, shortened, has_room, ends;
};

typedef int starting(pthread_t *, const pthread_attr_t *, void *(*)(void *), void *);

static struct device input, output;
static atomic_long allocations, threads;
static long refused, refused_thread;
static starting *start;
static _Thread_local int starts __attribute__((tls_model("initial-exec")));
static int told;

static long number_of(const char *name) {
    const char *digits = getenv(name);
    return digits ? atol(digits) : 0;
}

__attribute__((constructor)) static void begin(void) {
    told = number_of("TOLD");
    input.failing = number_of("FAIL_READ");
    input.shortened = number_of("SHORTEN_READ");
    input.has_room = getenv("READ_ROOM") != NULL;
    input.room = number_of("READ_ROOM");
    input.interruptions = number_of("READ_INTERRUPTIONS");
    output.failing = number_of("FAIL_WRITE");
    output.shortened = number_of("SHORTEN_WRITE");
    output.has_room = getenv("WRITE_ROOM") != NULL;
    output.room = number_of("WRITE_ROOM");
    output.ends = number_of("WRITE_ENDS");
    output.interruptions = number_of("WRITE_INTERRUPTIONS");
    start = (starting *)dlsym(RTLD_NEXT, "pthread_create");
    refused_thread = number_of("REFUSE_THREAD");
    refused = number_of("REFUSE_ALLOCATION");
}

/* Counts a call, and says whether it is the one with this number. */
static int is_due(atomic_long *calls, long number) {
    if (!number || atomic_fetch_add(calls, 1) + 1 != number)
        return 0;
    syscall(SYS_write, told, "!", 1);
    return 1;
}

static int is_refused(void) {
    if (starts || !is_due(&allocations, refused))
        return 0;
    errno = ENOMEM;
    return 1;
}

/* How many of these bytes a device may move, or what the call answers. */
static ssize_t moved(struct device *device, size_t count, size_t at_once, int *answers) {
    *answers = 1;
    if (device->interruptions > 0) {
        device->interruptions--;
        errno = EINTR;
        return -1;
    }
    if (is_due(&device->calls, device->failing) || (device->has_room && device->room <= 0 && !device->ends)) {
        errno = EIO;
        return -1;
    }
    if (device->has_room && device->room <= 0)
        return 0;
    *answers = 0;
    if (device->has_room && count > at_once)
        count = at_once;
    if (device->has_room && count > (size_t)device->room)
        count = device->room;
    return count > 1 && is_due(&device->long_calls, device->shortened) ? 1 : count;
}

static ssize_t note(struct device *device, ssize_t count) {
    if (count > 0)
        device->room -= count;
    return count;
}

void *malloc(size_t size) {
    return is_refused() ? NULL : __libc_malloc(size);
}

void *calloc(size_t count, size_t size) {
    return is_refused() ? NULL : __libc_calloc(count, size);
}

void *realloc(void *old, size_t size) {
    return is_refused() ? NULL : __libc_realloc(old, size);
}

int pthread_create(pthread_t *thread, const pthread_attr_t *how, void *(*runs)(void *), void *given) {
    if (is_due(&threads, refused_thread))
        return EAGAIN;
    starts = 1;
    int failed = start(thread, how, runs, given);
    starts = 0;
    if (told && !failed)
        syscall(SYS_write, told, "t", 1);
    return failed;
}

ssize_t read(int from, void *to, size_t count) {
    int answers;
    ssize_t most = moved(&input, count, count, &answers);
    return answers ? most : note(&input, syscall(SYS_read, from, to, most));
}

ssize_t write(int to, const void *from, size_t count) {
    int answers;
    ssize_t most = to == 1 ? moved(&output, count, 1, &answers) : (answers = 0, (ssize_t)count);
    ssize_t written = answers ? most : syscall(SYS_write, to, from, most);
    return to == 1 && !answers ? note(&output, written) : written;
}
