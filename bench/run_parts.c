/* A preloaded library that tells where a run's time goes: when its workers begin, when each has ended and when all are joined, when the
 * first byte is written, and how often and how long its threads yield. At the program's end a line goes to the file that PARTS_LOG names.
 * With PARTS_WAIT a thread that yields pauses so often first, and doubles that up to a limit while it yields again at once. Built by
 * bench/run_parts. */
#define _GNU_SOURCE
#include <dlfcn.h>
#include <fcntl.h>
#include <pthread.h>
#include <stdint.h>
#include <stdio.h>
#include <stdlib.h>
#include <sys/syscall.h>
#include <time.h>
#include <unistd.h>

#define MOST 4096
/* A yield that follows the last one so soon, in nanoseconds, is of the same wait. */
#define AT_ONCE 500

/* A moment by the clock, and the processor time of the whole process until then. */
struct moment {
    uint64_t clock, processor;
};

static struct moment workers_begun, joined, written;
static uint64_t threads, ends[MOST];
static uint64_t least_pauses, most_pauses;
static __thread uint64_t last_yield, pauses, has_ended;

/* What each thread has yielded, in a cache line of its own. */
static struct yields {
    uint64_t count, time;
} __attribute__((aligned(128))) yields[MOST];
static uint64_t yielders;
static __thread struct yields *mine;

static int (*real_create)(pthread_t *, const pthread_attr_t *, void *(*)(void *), void *);
static int (*real_join)(pthread_t, void **);
static ssize_t (*real_write)(int, const void *, size_t);

/* The next definition of a name, behind this one's. */
#define LOAD(real, name) do { if (!real) *(void **)&real = dlsym(RTLD_NEXT, name); } while (0)

static uint64_t time_by(clockid_t clock) {
    struct timespec time;
    clock_gettime(clock, &time);
    return (uint64_t)time.tv_sec * 1000000000 + time.tv_nsec;
}

static uint64_t now(void) {
    return time_by(CLOCK_MONOTONIC);
}

static struct moment moment(void) {
    return (struct moment){now(), time_by(CLOCK_PROCESS_CPUTIME_ID)};
}

__attribute__((constructor)) static void begin(void) {
    const char *wait = getenv("PARTS_WAIT");
    if (wait)
        sscanf(wait, "%lu..%lu", &least_pauses, &most_pauses);
}

static void end(void) {
    const char *log = getenv("PARTS_LOG");
    int file = log ? open(log, O_WRONLY | O_CREAT | O_TRUNC, 0644) : -1;
    if (file < 0)
        return;
    uint64_t count = 0, time = 0;
    for (uint64_t at = 0; at < yielders && at < MOST; at++) {
        count += yields[at].count;
        time += yields[at].time;
    }
    struct moment marks[] = {workers_begun, joined, written, moment()};
    for (uint64_t at = 0; at < sizeof marks / sizeof *marks; at++)
        dprintf(file, "%lu %lu ", marks[at].clock, marks[at].processor);
    dprintf(file, "%lu %lu", count, time);
    for (uint64_t at = 0; at < threads && at < MOST; at++)
        dprintf(file, " %lu", ends[at]);
    dprintf(file, "\n");
    close(file);
}

/* Programs with threads end by this, which runs no destructor. */
__attribute__((noreturn)) void _exit(int status) {
    end();
    for (;;)
        syscall(SYS_exit_group, status);
}

/* A thread's own work ends where it first waits for another, or with it. */
static void end_work(void) {
    if (has_ended)
        return;
    has_ended = 1;
    uint64_t at = __atomic_fetch_add(&threads, 1, __ATOMIC_RELAXED);
    if (at < MOST)
        ends[at] = now();
}

struct start {
    void *(*call)(void *);
    void *with;
};

static void *work(void *given) {
    struct start start = *(struct start *)given;
    free(given);
    void *result = start.call(start.with);
    end_work();
    return result;
}

int pthread_create(pthread_t *thread, const pthread_attr_t *attributes, void *(*call)(void *), void *with) {
    LOAD(real_create, "pthread_create");
    if (!workers_begun.clock)
        workers_begun = moment();
    struct start *start = malloc(sizeof *start);
    if (!start)
        abort();
    *start = (struct start){call, with};
    return real_create(thread, attributes, work, start);
}

int pthread_join(pthread_t thread, void **result) {
    LOAD(real_join, "pthread_join");
    end_work();
    int status = real_join(thread, result);
    joined = moment();
    return status;
}

ssize_t write(int file, const void *bytes, size_t count) {
    LOAD(real_write, "write");
    if (file == 1 && !written.clock)
        written = moment();
    return real_write(file, bytes, count);
}

int sched_yield(void) {
    uint64_t from = now();
    if (most_pauses) {
        pauses = from - last_yield < AT_ONCE && pauses ? pauses * 2 : least_pauses;
        if (pauses > most_pauses)
            pauses = most_pauses;
        for (uint64_t made = 0; made < pauses; made++)
            __builtin_ia32_pause();
    }
    syscall(SYS_sched_yield);
    last_yield = now();
    if (!mine)
        mine = &yields[__atomic_fetch_add(&yielders, 1, __ATOMIC_RELAXED) % MOST];
    mine->count += 1;
    mine->time += last_yield - from;
    return 0;
}
