/* Each pool has a tag of its own, also if eight threads create pools at once: tags are counted, and no count is lost. A call that
   creates no pool counts one too, so the threads make such calls, which are short. */
#include "kundratu_pool.h"
#include <pthread.h>
#include <stdatomic.h>
#include <stdio.h>

enum { THREADS = 8, CALLS = 1000000 };

static atomic_int waiting = THREADS;

static void *count_tags(void *unused) {
    kdr_handle none = KDR_HANDLE_EMPTY;
    atomic_fetch_sub(&waiting, 1);
    while (atomic_load(&waiting) > 0) {
    }
    for (long call = 0; call < CALLS; call++) {
        if (kdr_pool_new(0, &none) != KDR_NO_PLACES) {
            return &waiting;
        }
    }
    return unused;
}

/* The tag of a pool that is created now, or 0 if it can't be. */
static size_t tag_of_a_pool(void) {
    kdr_handle first = KDR_HANDLE_EMPTY;
    kdr_place place = KDR_PLACE_EMPTY;
    if (kdr_pool_new(1, &first) != KDR_DONE || kdr_place_pull(&first, 0, &place) != KDR_DONE || kdr_pool_drop(&first) != KDR_DONE) {
        return 0;
    }
    return place.pool;
}

int main(void) {
    pthread_t threads[THREADS];
    size_t before = tag_of_a_pool();
    for (size_t at = 0; at < THREADS; at++) {
        if (pthread_create(&threads[at], NULL, count_tags, NULL) != 0) {
            return 1;
        }
    }
    for (size_t at = 0; at < THREADS; at++) {
        void *failed;
        if (pthread_join(threads[at], &failed) != 0 || failed) {
            puts("a pool of no places was created");
            return 1;
        }
    }
    size_t after = tag_of_a_pool();
    if (before == 0 || after - before != (size_t)THREADS * CALLS + 1) {
        printf("the tags %zu and %zu, with %zu calls between\n", before, after, (size_t)THREADS * CALLS);
        return 1;
    }
    puts("each pool has a tag of its own");
    return 0;
}
