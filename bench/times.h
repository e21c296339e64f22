/* What the programs of loads share, sqlite_times.c and changecap_times.c: how much there is of everything, the keys,
** the clock, and how a time is printed. A time is the processor time of the thread, and of several threads that of the
** clock on the wall. */
#ifndef TIMES_H
#define TIMES_H

#include <pthread.h>
#include <stdint.h>
#include <stdio.h>
#include <stdlib.h>
#include <string.h>
#include <time.h>

enum { COMMITS = 100000, BATCH = 10000, SESSIONS = 64, UPDATED = 1000, ONE_IN = 100, PIECE = 4096 };
enum { BIG_TABLE = 1000000, TRANSACTIONS = 10000, ROWS_A_TRANSACTION = 10 };
enum { THREADS = 4, CAPTURES = 1000 };

static inline double nanoseconds_of(clockid_t clock) {
    struct timespec time;
    clock_gettime(clock, &time);
    return time.tv_sec * 1e9 + time.tv_nsec;
}

static inline double now(void) { return nanoseconds_of(CLOCK_THREAD_CPUTIME_ID); }

/* Prints the line 'NAME NANOSECONDS' of a load that began at `start` and did this many things. */
static inline void report(const char *name, double start, long count) {
    printf("%s %.1f\n", name, (now() - start) / count);
    fflush(stdout);
}

static inline void check(int holds, const char *what) {
    if (!holds) {
        fprintf(stderr, "a load goes wrong: %s\n", what);
        exit(3);
    }
}

/* Does the same work on a thread for each of an array of things, and prints the line 'NAME NANOSECONDS' of all of it,
** by how much was done. */
static inline void together(const char *name, int count, void *(*work)(void *), void *things, size_t size, long done) {
    pthread_t threads[THREADS];
    double start = nanoseconds_of(CLOCK_MONOTONIC);
    for (int at = 0; at < count; at++)
        check(pthread_create(&threads[at], NULL, work, (char *)things + (size_t)at * size) == 0, "a thread");
    for (int at = 0; at < count; at++) check(pthread_join(threads[at], NULL) == 0, "a thread");
    printf("%s %.1f\n", name, (nanoseconds_of(CLOCK_MONOTONIC) - start) / done);
    fflush(stdout);
}

/* The key of a row: its number, or far from its neighbours. */
static inline int64_t key_of(int64_t number, int scrambled) {
    uint64_t mixed = (uint64_t)number;
    if (!scrambled) return number;
    mixed *= 0x9e3779b97f4a7c15u;
    mixed = (mixed ^ (mixed >> 30)) * 0xbf58476d1ce4e5b9u;
    mixed = (mixed ^ (mixed >> 27)) * 0x94d049bb133111ebu;
    return (int64_t)(mixed ^ (mixed >> 31));
}

/* The key of a row that is read: all rows of the load have their turn, and neighbours are far apart. */
static inline int64_t key_to_read(int64_t number) { return number * 7919 % COMMITS; }

/* The first key of the rows of a transaction. Transactions are spread over the table. */
static inline int64_t first_of(int64_t number) {
    return number * 7919 % (BIG_TABLE / ROWS_A_TRANSACTION) * ROWS_A_TRANSACTION;
}

#endif
