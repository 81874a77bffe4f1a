/* When a pull is refused, and how long that takes. Of a pool whose places are all held each pull is refused; its time stands beside
   those of one pass over as many words, and of the pull of the last free place. Four threads with four places are never refused,
   since each has one at a time. It has no limit of time, so that it can be run with many pulls.
   usage: test_refusals [PULLS] */
#include "kundratu_pool.h"
#include <pthread.h>
#include <stdbool.h>
#include <stdint.h>
#include <stdio.h>
#include <stdlib.h>
#include <time.h>

enum { PLACES = 65536, PAGES = PLACES / KDR_PAGE_PLACES, ROUNDS = 200, THREADS = 4 };

static kdr_handle holders[PLACES];
static volatile uint64_t words[PAGES];

static void check(bool holds, const char *what) {
    if (!holds) {
        puts(what);
        exit(1);
    }
}

static long long nanoseconds(void) {
    struct timespec now;
    clock_gettime(CLOCK_MONOTONIC, &now);
    return (long long)now.tv_sec * 1000000000 + now.tv_nsec;
}

/* Holds all places, the last one by the last handle. A further handle holds none. */
static void hold_all(kdr_handle *spare) {
    size_t place;
    check(kdr_pool_new(PLACES, &holders[0]) == KDR_DONE, "no pool");
    for (size_t at = 0; at < PLACES; at++) {
        check(at == 0 || kdr_pool_share(&holders[0], &holders[at]) == KDR_DONE, "no handle");
        check(kdr_pool_pull_near(&holders[at], at / KDR_PAGE_PLACES, &place) == KDR_DONE, "a pull was refused while a place was free");
    }
    check(kdr_pool_share(&holders[0], spare) == KDR_DONE, "no handle");
}

static void refuse(kdr_handle *spare) {
    size_t place;
    check(kdr_pool_pull_near(spare, 0, &place) == KDR_ALL_IN_USE, "a pull wasn't refused while all places were held");
}

static void read_words(kdr_handle *spare) {
    (void)spare;
    for (size_t page = 0; page < PAGES; page++) {
        check(words[page] == 0, "a word was written to");
    }
}

static void pull_last(kdr_handle *spare) {
    size_t place;
    check(kdr_pool_pull_near(spare, 0, &place) == KDR_DONE && place / KDR_PAGE_PLACES == PAGES - 1, "it wasn't the last place");
}

/* The least time of a call. */
static long long least(void (*call)(kdr_handle *), kdr_handle *spare) {
    long long least = -1;
    for (int round = 0; round < ROUNDS; round++) {
        long long begun = nanoseconds();
        call(spare);
        long long time = nanoseconds() - begun;
        least = least < 0 || time < least ? time : least;
        kdr_pool_return(spare);
    }
    return least;
}

static void refuse_while_all_are_held(void) {
    kdr_handle spare = KDR_HANDLE_EMPTY;
    hold_all(&spare);
    long long refused = least(refuse, &spare), pass = least(read_words, &spare);
    check(kdr_pool_return(&holders[PLACES - 1]) == KDR_DONE, "a place wasn't returned");
    long long last = least(pull_last, &spare);
    printf("%d places: refused in %lld ns, the last free one pulled in %lld, a pass over %d words in %lld\n", PLACES, refused, last, PAGES, pass);
    kdr_pool_drop(&spare);
    for (size_t at = 0; at < PLACES; at++) {
        kdr_pool_drop(&holders[at]);
    }
}

struct job {
    pthread_t thread;
    kdr_handle handle;
    unsigned long turns;
    unsigned long refused;
};

static void *pull_and_return(void *given) {
    struct job *job = given;
    size_t place;
    for (unsigned long turn = 0; turn < job->turns; turn++) {
        job->refused += kdr_pool_pull(&job->handle, &place) != KDR_DONE;
        kdr_pool_return(&job->handle);
    }
    return NULL;
}

static void share_as_many_places_as_threads(unsigned long pulls) {
    static struct job jobs[THREADS];
    unsigned long refused = 0;
    check(kdr_pool_new(THREADS, &jobs[0].handle) == KDR_DONE, "no pool");
    for (size_t i = 0; i < THREADS; i++) {
        jobs[i].turns = pulls / THREADS;
        check(i == 0 || kdr_pool_share(&jobs[0].handle, &jobs[i].handle) == KDR_DONE, "no handle");
    }
    for (size_t i = 0; i < THREADS; i++) {
        check(!pthread_create(&jobs[i].thread, NULL, pull_and_return, &jobs[i]), "no thread");
    }
    for (size_t i = 0; i < THREADS; i++) {
        pthread_join(jobs[i].thread, NULL);
        refused += jobs[i].refused;
        kdr_pool_drop(&jobs[i].handle);
    }
    printf("%d threads with as many places: %lu pulls, %lu refused\n", THREADS, pulls, refused);
    check(refused == 0, "a pull was refused while a place was free");
}

int main(int count, char **given) {
    refuse_while_all_are_held();
    share_as_many_places_as_threads(count > 1 ? strtoul(given[1], NULL, 10) : 2000000);
}
