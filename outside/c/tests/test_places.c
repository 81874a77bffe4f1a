/* Places by themselves: one handle takes all places of a pool, another returns them; what each call refuses; and threads that
   take places, hand them on, and return those that others took.
   usage: test_places [TURNS] */
#include "kundratu_pool.h"
#include "test_order.h"
#include <pthread.h>
#include <stdbool.h>
#include <stdio.h>
#include <stdlib.h>
#include <unistd.h>

enum { ITEMS = 70, THREADS = 8, AT_ONCE = 12, HANDED = 24, SECONDS = 100 };

static void check(bool holds, const char *what) {
    if (!holds) {
        puts(what);
        exit(1);
    }
}

static kdr_handle new_pool(size_t items) {
    kdr_handle first = KDR_HANDLE_EMPTY;
    check(kdr_pool_new(items, &first) == KDR_DONE, "no pool");
    return first;
}

static kdr_handle share(kdr_handle *handle) {
    kdr_handle other = KDR_HANDLE_EMPTY;
    check(kdr_pool_share(handle, &other) == KDR_DONE, "no further handle");
    return other;
}

static kdr_place pull(kdr_handle *handle, size_t page) {
    kdr_place place = KDR_PLACE_EMPTY;
    check(kdr_place_pull(handle, page, &place) == KDR_DONE, "a pull was refused while a place was free");
    check(kdr_place_number(&place) < kdr_pool_items(handle), "a number that is no place's");
    return place;
}

static void give_back(kdr_handle *handle, kdr_place *place) {
    check(kdr_place_return(handle, place) == KDR_DONE, "a place wasn't returned");
    check(kdr_place_number(place) == KDR_NO_PLACE, "a place that was returned isn't empty");
}

static void pull_all(kdr_handle *handle, kdr_place places[ITEMS]) {
    bool taken[ITEMS] = {false};
    for (size_t at = 0; at < ITEMS; at++) {
        places[at] = pull(handle, at);
        check(!taken[kdr_place_number(&places[at])], "a place was taken twice");
        taken[kdr_place_number(&places[at])] = true;
    }
}

static void refuse(kdr_handle *handle) {
    kdr_place one_more = KDR_PLACE_EMPTY;
    check(kdr_place_pull(handle, 0, &one_more) == KDR_ALL_IN_USE, "a pull past the last place wasn't refused");
    check(kdr_place_number(&one_more) == KDR_NO_PLACE, "a refused pull didn't leave its place alone");
}

/* One handle takes each place once; another handle returns them, in another order; then they are taken again. */
static void take_all(void) {
    kdr_place places[ITEMS];
    kdr_handle first = new_pool(ITEMS), second = share(&first);
    for (size_t turn = 0; turn < 3; turn++) {
        pull_all(&first, places);
        refuse(&first);
        refuse(&second);
        for (size_t at = 0; at < ITEMS; at++) {
            give_back(&second, &places[at * 11 % ITEMS]);
        }
    }
    check(kdr_pool_drop(&first) == KDR_DONE && kdr_pool_drop(&second) == KDR_DONE, "a handle wasn't dropped");
}

/* What a call refuses leaves the place as it was. */
static void refuse_each(void) {
    kdr_handle none = KDR_HANDLE_EMPTY, first = new_pool(ITEMS);
    kdr_place empty = KDR_PLACE_EMPTY, held = pull(&first, 1);
    size_t number = kdr_place_number(&held);
    check(kdr_place_pull(&first, 0, &held) == KDR_HOLDS_ONE, "a place that holds one was pulled");
    check(kdr_place_number(&held) == number, "KDR_HOLDS_ONE changed the place");
    check(kdr_place_return(&first, &empty) == KDR_HOLDS_NONE, "an empty place was returned");
    check(kdr_place_number(&empty) == KDR_NO_PLACE, "KDR_HOLDS_NONE changed the place");
    check(kdr_place_pull(&none, 0, &empty) == KDR_NO_POOL, "a handle without a pool pulled");
    check(kdr_place_pull(&none, 0, &held) == KDR_NO_POOL, "a handle without a pool pulled");
    check(kdr_place_return(&none, &held) == KDR_NO_POOL, "a handle without a pool returned");
    check(kdr_place_return(&none, &empty) == KDR_NO_POOL, "a handle without a pool returned");
    check(kdr_place_number(&empty) == KDR_NO_PLACE && kdr_place_number(&held) == number, "KDR_NO_POOL changed a place");
    check(none.at == NULL, "a handle without a pool was changed");
    give_back(&first, &held);
    check(kdr_place_return(&first, &held) == KDR_HOLDS_NONE, "a place was returned twice");
    kdr_pool_drop(&first);
}

/* The handle's own place and the places beside it are apart, and outlive each other's calls. */
static void hold_beside(void) {
    kdr_place places[ITEMS];
    size_t own = SIZE_MAX, other = SIZE_MAX;
    kdr_handle first = new_pool(ITEMS), second = share(&first);
    check(kdr_pool_pull(&first, &own) == KDR_DONE, "no place for the handle");
    for (size_t at = 0; at < ITEMS - 1; at++) {
        places[at] = pull(&first, 0);
        check(kdr_place_number(&places[at]) != own, "the handle's own place was taken");
    }
    refuse(&first);
    check(kdr_pool_pull(&second, &other) == KDR_ALL_IN_USE, "a handle took a place that is out");
    check(kdr_pool_return(&second) == KDR_HOLDS_NONE, "a handle returned a place that isn't its own");
    check(kdr_pool_return(&first) == KDR_DONE, "the handle's own place wasn't returned");
    check(kdr_pool_return(&first) == KDR_HOLDS_NONE, "a handle returned a place that isn't its own");
    check(kdr_pool_pull(&second, &other) == KDR_DONE && other == own, "another place was free");
    check(kdr_pool_drop(&first) == KDR_DONE, "a handle wasn't dropped");
    refuse(&second);
    for (size_t at = 0; at < ITEMS - 1; at++) {
        give_back(&second, &places[at]);
    }
    kdr_pool_drop(&second);
}

/* A pull takes a place of its page, as long as one is free there. */
static void begin_at_a_page(void) {
    enum { PAGES = 8 };
    kdr_handle first = new_pool(PAGES * KDR_PAGE_PLACES);
    for (size_t at = 0; at < KDR_PAGE_PLACES; at++) {
        for (size_t page = 0; page < PAGES; page++) {
            kdr_place place = pull(&first, page + at * PAGES);
            check(kdr_place_number(&place) / KDR_PAGE_PLACES == page, "a pull began elsewhere than at its page");
        }
    }
    kdr_pool_drop(&first);
}

/* Places that were handed on, under a lock. */
struct handed {
    pthread_mutex_t lock;
    size_t count;
    kdr_place places[HANDED];
};

struct job {
    pthread_t thread;
    unsigned long number;
    unsigned long turns;
    unsigned long held;
    unsigned long received;
    kdr_handle handle;
};

/* What lies at a place. Plain words, which only its holder touches. */
struct cell {
    unsigned long holder;
    unsigned long times;
    char order; /* stands for the order that the pool gives, to the sanitizer */
};

static struct handed handed = {.lock = PTHREAD_MUTEX_INITIALIZER};
static struct cell cells[ITEMS];

static kdr_place take(struct job *job, size_t page) {
    kdr_place place = KDR_PLACE_EMPTY;
    if (kdr_place_pull(&job->handle, page, &place) == KDR_DONE) {
        struct cell *cell = &cells[kdr_place_number(&place)];
        COMES_AFTER_THE_RETURN(&cell->order);
        check(cell->holder == 0, "a place was held by two");
        cell->holder = job->number;
        cell->times++;
        job->held++;
    }
    return place;
}

/* Whoever returns it found it in the hands of one thread, and not of two. */
static void bring_back(struct job *job, kdr_place *place) {
    if (kdr_place_number(place) == KDR_NO_PLACE) {
        check(kdr_place_return(&job->handle, place) == KDR_HOLDS_NONE, "an empty place was returned");
        return;
    }
    struct cell *cell = &cells[kdr_place_number(place)];
    job->received += cell->holder != job->number;
    check(cell->holder != 0, "a place was returned by two");
    cell->holder = 0;
    COMES_BEFORE_THE_PULL(&cell->order);
    give_back(&job->handle, place);
}

/* Hands a place on, and gets one that was handed on before, if there is one. */
static void swap(kdr_place *place, size_t at) {
    pthread_mutex_lock(&handed.lock);
    if (kdr_place_number(place) != KDR_NO_PLACE && handed.count < HANDED) {
        handed.places[handed.count++] = *place;
        *place = KDR_PLACE_EMPTY;
    }
    if (kdr_place_number(place) == KDR_NO_PLACE && handed.count > HANDED / 2) {
        kdr_place *from = &handed.places[at % handed.count];
        *place = *from;
        *from = handed.places[--handed.count];
    }
    pthread_mutex_unlock(&handed.lock);
}

/* 8 threads want 96 places of 70, and hand some on. */
static void *work(void *given) {
    struct job *job = given;
    kdr_place places[AT_ONCE];
    for (unsigned long turn = 0; turn < job->turns; turn++) {
        for (size_t at = 0; at < AT_ONCE; at++) {
            places[at] = take(job, job->number + turn);
        }
        for (size_t at = 0; at < AT_ONCE; at++) {
            swap(&places[at], at + turn);
            bring_back(job, &places[at]);
        }
    }
    return NULL;
}

static void hand_on(unsigned long turns) {
    static struct job jobs[THREADS];
    kdr_handle first = new_pool(ITEMS);
    unsigned long held = 0, received = 0, times = 0;
    for (unsigned long at = 0; at < THREADS; at++) {
        jobs[at] = (struct job){.number = at + 1, .turns = turns, .handle = share(&first)};
    }
    for (size_t at = 0; at < THREADS; at++) {
        check(!pthread_create(&jobs[at].thread, NULL, work, &jobs[at]), "no thread");
    }
    for (size_t at = 0; at < THREADS; at++) {
        pthread_join(jobs[at].thread, NULL);
        held += jobs[at].held;
        received += jobs[at].received;
        check(kdr_pool_drop(&jobs[at].handle) == KDR_DONE, "a handle wasn't dropped");
    }
    while (handed.count > 0) {
        kdr_place place = handed.places[--handed.count];
        cells[kdr_place_number(&place)].holder = 0;
        give_back(&first, &place);
    }
    for (size_t place = 0; place < ITEMS; place++) {
        times += cells[place].times;
        check(cells[place].holder == 0, "a place has a holder at the end");
    }
    check(times == held, "places were held at another number of times than were pulled");
    check(received > 0, "no thread returned another's place");
    kdr_place places[ITEMS];
    pull_all(&first, places);
    refuse(&first);
    kdr_pool_drop(&first);
    printf("%lu places were pulled by %d threads, and %lu returned by another\n", held, THREADS, received);
}

int main(int count, char **words) {
    unsigned long turns = count > 1 ? strtoul(words[1], NULL, 10) : 20000;
    alarm(SECONDS);
    take_all();
    refuse_each();
    hold_beside();
    begin_at_a_page();
    hand_on(turns);
    return 0;
}
