/* What the programs that time slices share: so many pairs on so many threads, by the thread that takes longest. */
#ifndef SLICES_H
#define SLICES_H

#include <pthread.h>
#include <stdio.h>
#include <stdlib.h>
#include <time.h>

enum { MOST_THREADS = 16 };

static inline double slices_now(void) {
    struct timespec now;
    clock_gettime(CLOCK_MONOTONIC, &now);
    return (double)now.tv_sec * 1e9 + (double)now.tv_nsec;
}

struct slices_job {
    unsigned number;
    long pairs;
    double nanoseconds;
    pthread_barrier_t *start;
};

static void write_pairs(unsigned number, long pairs);

static void *slices_run(void *given) {
    struct slices_job *job = given;
    pthread_barrier_wait(job->start);
    double before = slices_now();
    write_pairs(job->number, job->pairs);
    job->nanoseconds = slices_now() - before;
    return NULL;
}

/* Nanoseconds of a pair, where each of so many threads writes so many. */
static inline double slices_time(unsigned threads, long pairs) {
    pthread_barrier_t start;
    pthread_t running[MOST_THREADS];
    struct slices_job jobs[MOST_THREADS];
    double longest = 0;
    pthread_barrier_init(&start, NULL, threads);
    for (unsigned n = 0; n < threads; n++) {
        struct slices_job job = {n, pairs, 0, &start};
        jobs[n] = job;
        if (pthread_create(&running[n], NULL, slices_run, &jobs[n])) exit(1);
    }
    for (unsigned n = 0; n < threads; n++) {
        pthread_join(running[n], NULL);
        if (jobs[n].nanoseconds > longest) longest = jobs[n].nanoseconds;
    }
    pthread_barrier_destroy(&start);
    return longest / (double)pairs;
}

#endif
