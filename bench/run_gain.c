/* Times one kind of work in so many threads or processes at once, each of which does the same, and prints the nanoseconds until the last
 * has done it: what the machine itself gains by several. Built by bench/run_parts.
 *
 * usage: run_gain numbers|copies|pages threads|processes COUNT */
#define _GNU_SOURCE
#include <pthread.h>
#include <stdint.h>
#include <stdio.h>
#include <stdlib.h>
#include <string.h>
#include <sys/mman.h>
#include <sys/wait.h>
#include <time.h>
#include <unistd.h>

static uint64_t now(void) {
    struct timespec time;
    clock_gettime(CLOCK_MONOTONIC, &time);
    return (uint64_t)time.tv_sec * 1000000000 + time.tv_nsec;
}

/* Four chains of sums and products in registers. */
static void *numbers(void *none) {
    uint64_t a = 1, b = 2, c = 3, d = 4;
    for (uint64_t at = 0; at < 20000000; at++) {
        a = a * 0x9e3779b97f4a7c15 + at, b = b * 0x9e3779b97f4a7c15 + at;
        c = c * 0x9e3779b97f4a7c15 + at, d = d * 0x9e3779b97f4a7c15 + at;
    }
    __asm__ volatile("" ::"r"(a ^ b ^ c ^ d));
    return none;
}

/* Copies of blocks of 4 KiB that stay in the nearest cache. */
static void *copies(void *none) {
    char from[4096], to[4096];
    memset(from, 1, sizeof from);
    for (uint64_t at = 0; at < 1000000; at++) {
        memcpy(to, from, sizeof to);
        __asm__ volatile("" ::"r"(to), "r"(from) : "memory");
    }
    return none;
}

/* Fresh pages, a byte written into each. */
static void *pages(void *none) {
    size_t length = 32 << 20;
    char *place = mmap(NULL, length, PROT_READ | PROT_WRITE, MAP_PRIVATE | MAP_ANONYMOUS, -1, 0);
    if (place == MAP_FAILED)
        abort();
    for (size_t at = 0; at < length; at += 4096)
        ((volatile char *)place)[at] = 1;
    munmap(place, length);
    return none;
}

static void in_threads(void *(*work)(void *), int count) {
    pthread_t *all = calloc(count, sizeof *all);
    for (int at = 0; at < count; at++)
        if (pthread_create(&all[at], NULL, work, NULL))
            abort();
    for (int at = 0; at < count; at++)
        pthread_join(all[at], NULL);
    free(all);
}

static void in_processes(void *(*work)(void *), int count) {
    for (int at = 0; at < count; at++)
        if (!fork()) {
            work(NULL);
            _exit(0);
        }
    while (wait(NULL) > 0)
        ;
}

int main(int words, char **word) {
    if (words != 4)
        return 1;
    void *(*work)(void *) = !strcmp(word[1], "numbers") ? numbers : !strcmp(word[1], "copies") ? copies : pages;
    uint64_t begun = now();
    (!strcmp(word[2], "threads") ? in_threads : in_processes)(work, atoi(word[3]));
    printf("%llu\n", (unsigned long long)(now() - begun));
    return 0;
}
