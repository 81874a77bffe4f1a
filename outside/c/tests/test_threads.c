/* Eight threads, each with handles of its own, take places of one pool, write to what lies there, and return them. Nobody else
   may be at a place meanwhile. The half of the handles of each thread is dropped by the thread that began it.
   usage: test_threads [TURNS] */
#include "kundratu_pool.h"
#include "test_order.h"
#include <pthread.h>
#include <stdio.h>
#include <stdlib.h>
#include <unistd.h>

enum { THREADS = 8, HANDLES = 6, ITEMS = 40, SECONDS = 100 };

/* What lies at a place: who holds it, and how often it was held. Plain words, which only their holder touches. */
struct cell {
    unsigned long holder;
    unsigned long times;
    char order; /* stands for the order that the pool gives, to the sanitizer */
};

struct job {
    pthread_t thread;
    unsigned long number;
    unsigned long turns;
    unsigned long held;
    unsigned long refused;
    unsigned long faults;
    kdr_handle handles[HANDLES];
};

static struct cell cells[ITEMS];

static int enter(struct job *job, size_t place) {
    struct cell *cell = &cells[place];
    COMES_AFTER_THE_RETURN(&cell->order);
    int was_free = cell->holder == 0;
    cell->holder = job->number;
    cell->times++;
    return was_free;
}

static int leave(struct job *job, size_t place) {
    struct cell *cell = &cells[place];
    int was_own = cell->holder == job->number;
    cell->holder = 0;
    COMES_BEFORE_THE_PULL(&cell->order);
    return was_own;
}

static void take(struct job *job, size_t at, size_t places[HANDLES]) {
    switch (kdr_pool_pull(&job->handles[at], &places[at])) {
    case KDR_DONE:
        job->held++;
        job->faults += places[at] >= ITEMS || !enter(job, places[at]);
        break;
    case KDR_ALL_IN_USE:
        places[at] = ITEMS;
        job->refused++;
        break;
    default:
        job->faults++;
    }
}

static void bring_back(struct job *job, size_t at, size_t places[HANDLES]) {
    if (places[at] == ITEMS) {
        job->faults += kdr_pool_return(&job->handles[at]) != KDR_HOLDS_NONE;
        return;
    }
    job->faults += !leave(job, places[at]);
    job->faults += kdr_pool_return(&job->handles[at]) != KDR_DONE;
}

/* 48 handles want 40 places, so some pulls are refused. */
static void *work(void *given) {
    struct job *job = given;
    size_t places[HANDLES];
    for (unsigned long turn = 0; turn < job->turns; turn++) {
        for (size_t at = 0; at < HANDLES; at++) {
            take(job, at, places);
        }
        for (size_t at = 0; at < HANDLES; at++) {
            bring_back(job, (at + turn) % HANDLES, places);
        }
    }
    for (size_t at = 0; at < HANDLES / 2; at++) {
        job->faults += kdr_pool_drop(&job->handles[at]) != KDR_DONE;
    }
    return NULL;
}

static int open_all(struct job jobs[THREADS], unsigned long turns) {
    kdr_handle first = KDR_HANDLE_EMPTY;
    if (kdr_pool_new(ITEMS, &first) != KDR_DONE) {
        return 0;
    }
    for (unsigned long number = 0; number < THREADS; number++) {
        jobs[number] = (struct job){.number = number + 1, .turns = turns};
        for (size_t at = 0; at < HANDLES; at++) {
            if (kdr_pool_share(&first, &jobs[number].handles[at]) != KDR_DONE) {
                return 0;
            }
        }
    }
    return kdr_pool_drop(&first) == KDR_DONE;
}

int main(int count, char **words) {
    static struct job jobs[THREADS];
    unsigned long turns = count > 1 ? strtoul(words[1], NULL, 10) : 20000;
    unsigned long times = 0, held = 0, faults = 0;
    alarm(SECONDS);
    if (!open_all(jobs, turns)) {
        puts("no pool");
        return 1;
    }
    for (size_t i = 0; i < THREADS; i++) {
        if (pthread_create(&jobs[i].thread, NULL, work, &jobs[i])) {
            puts("no thread");
            return 1;
        }
    }
    for (size_t i = 0; i < THREADS; i++) {
        pthread_join(jobs[i].thread, NULL);
        held += jobs[i].held;
        faults += jobs[i].faults + (jobs[i].held + jobs[i].refused != turns * HANDLES);
    }
    for (size_t place = 0; place < ITEMS; place++) {
        times += cells[place].times;
        faults += cells[place].holder != 0;
    }
    faults += times != held;
    for (size_t i = 0; i < THREADS; i++) {
        for (size_t at = HANDLES / 2; at < HANDLES; at++) {
            faults += kdr_pool_drop(&jobs[i].handles[at]) != KDR_DONE;
        }
    }
    printf("%d threads, %lu turns each, %lu faults\n", THREADS, turns, faults);
    return faults != 0;
}
