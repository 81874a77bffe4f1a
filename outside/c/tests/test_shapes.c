/* How the cost of calls grows with a pool: instructions, at one size and at one 64 times as large.
   Of each kind 32 calls run step by step, spread over the places. They cost the same at both sizes.
   A refusal reads each word twice. The opening of a pool and the flush of a cache cost as much a
   place. */
#include "kundratu_pool.h"
#include <signal.h>
#include <stdbool.h>
#include <stdio.h>
#include <stdlib.h>
#include <string.h>

enum { SMALL = 256, TIMES = 64, LARGE = SMALL * TIMES, SAMPLES = 32, SMALL_ROOM = 8 };

/* How many instructions more the larger size may cost: the allocator treats large blocks otherwise. */
enum { MORE = 1000, MORE_A_WORD = 50 };

enum shape { FLAT, BY_PLACES, BY_WORDS };

/* A kind of call: what it does with the place of a number, or once. */
struct work {
    const char *name;
    void (*call)(size_t at);
    bool is_for_each;
    enum shape shape;
};

static size_t items;
static kdr_handle first, handles[LARGE];
static kdr_place places[LARGE];
static kdr_cache cache;
static volatile long steps;

static void check(kdr_status status, kdr_status wanted) {
    if (status != wanted) {
        printf("%zu places: %s\n", items, kdr_status_name(status));
        exit(1);
    }
}

static void nothing(size_t at) {
    (void)at;
}

static void open_pool(size_t at) {
    (void)at;
    check(kdr_pool_new(items, &first), KDR_DONE);
}

static void end_pool(size_t at) {
    (void)at;
    check(kdr_pool_drop(&first), KDR_DONE);
}

static void count_places(size_t at) {
    (void)at;
    check(kdr_pool_items(&first) == items ? KDR_DONE : KDR_NO_PLACES, KDR_DONE);
}

/* Each pull begins at page 0, which is full soon. */
static void pull_place(size_t at) {
    check(kdr_place_pull(&first, 0, &places[at]), KDR_DONE);
}

static void return_place(size_t at) {
    check(kdr_place_return(&first, &places[at]), KDR_DONE);
}

/* The prime divides no number of places, so each comes once. */
static void return_far_place(size_t at) {
    return_place(at * 7919 % items);
}

static void turn_only_place(size_t at) {
    return_place(at);
    pull_place(at);
}

static void refuse_place(size_t at) {
    kdr_place more = KDR_PLACE_EMPTY;
    (void)at;
    check(kdr_place_pull(&first, 0, &more), KDR_ALL_IN_USE);
}

static void open_cache(size_t room) {
    check(kdr_cache_new(&first, room, 0, &cache), KDR_DONE);
}

static void open_small_cache(size_t at) {
    (void)at;
    open_cache(SMALL_ROOM);
}

static void open_great_cache(size_t at) {
    (void)at;
    open_cache(items);
}

static void pull_by_cache(size_t at) {
    check(kdr_cache_pull(&cache, &places[at]), KDR_DONE);
}

static void refuse_cache(size_t at) {
    kdr_place more = KDR_PLACE_EMPTY;
    (void)at;
    check(kdr_cache_pull(&cache, &more), KDR_ALL_IN_USE);
}

static void return_to_cache(size_t at) {
    check(kdr_cache_return(&cache, &places[at]), KDR_DONE);
}

static void flush_cache(size_t at) {
    (void)at;
    check(kdr_cache_flush(&cache), KDR_DONE);
}

static void close_cache(size_t at) {
    (void)at;
    check(kdr_cache_drop(&cache), KDR_DONE);
}

static void open_handle(size_t at) {
    check(kdr_pool_share(&first, &handles[at]), KDR_DONE);
}

static void pull_by_handle(size_t at) {
    size_t number;
    check(kdr_pool_pull(&handles[at], &number), KDR_DONE);
}

static void pull_near_by_handle(size_t at) {
    size_t number;
    check(kdr_pool_pull_near(&handles[at], 0, &number), KDR_DONE);
}

static void refuse_handle(size_t at) {
    size_t number;
    (void)at;
    check(kdr_pool_pull(&first, &number), KDR_ALL_IN_USE);
}

static void return_by_handle(size_t at) {
    check(kdr_pool_return(&handles[at]), KDR_DONE);
}

static void close_handle(size_t at) {
    check(kdr_pool_drop(&handles[at]), KDR_DONE);
}

/* All works, in the order in which they are done. */
static const struct work works[] = {
    {"nothing for each place", nothing, true, FLAT},
    {"nothing", nothing, false, FLAT},
    {"a pool is opened", open_pool, false, BY_PLACES},
    {"its number of places", count_places, false, FLAT},
    {"a first pull of a place", pull_place, true, FLAT},
    {"a refusal of a place", refuse_place, false, BY_WORDS},
    {"a return and a pull of the only free place", turn_only_place, true, FLAT},
    {"a return of a place", return_place, true, FLAT},
    {"a pull of a place again", pull_place, true, FLAT},
    {"a return of a place far from the last one", return_far_place, true, FLAT},
    {"a cache with room for 8 is opened", open_small_cache, false, FLAT},
    {"a first pull by it", pull_by_cache, true, FLAT},
    {"a return by it", return_to_cache, true, FLAT},
    {"a pull by it again", pull_by_cache, true, FLAT},
    {"a refusal of it", refuse_cache, false, BY_WORDS},
    {"it is closed", close_cache, false, FLAT},
    {"a cache with room for all is opened", open_great_cache, false, FLAT},
    {"a return to it", return_to_cache, true, FLAT},
    {"a pull of what it keeps", pull_by_cache, true, FLAT},
    {"a return to it again", return_to_cache, true, FLAT},
    {"its flush", flush_cache, false, BY_PLACES},
    {"it is closed, too", close_cache, false, FLAT},
    {"a handle is opened", open_handle, true, FLAT},
    {"a first pull by a handle", pull_by_handle, true, FLAT},
    {"a refusal of a handle", refuse_handle, false, BY_WORDS},
    {"a return by a handle", return_by_handle, true, FLAT},
    {"a pull by a handle again", pull_by_handle, true, FLAT},
    {"its return", return_by_handle, true, FLAT},
    {"a pull by a handle near page 0", pull_near_by_handle, true, FLAT},
    {"a handle that holds a place is closed", close_handle, true, FLAT},
    {"the pool ends", end_pool, false, FLAT},
};

enum { WORKS = sizeof works / sizeof works[0] };

static void count_step(int sent) {
    (void)sent;
    steps++;
}

/* What runs from here on runs step by step, or does so no longer, by a flag of the processor. What
   the compiler keeps below the stack pointer is left alone. */
static void switch_steps(void) {
    __asm__ volatile("leaq -128(%%rsp), %%rsp\n\t"
                     "pushfq\n\t"
                     "xorq $0x100, (%%rsp)\n\t"
                     "popfq\n\t"
                     "leaq 128(%%rsp), %%rsp" ::: "cc", "memory");
}

/* Of each so many calls one runs step by step, at another place of its page each time. */
static bool is_sample(size_t at) {
    size_t apart = items / SAMPLES;
    return at % apart == at / apart * 5 % apart;
}

static void do_work(const struct work *work, bool is_counted) {
    for (size_t at = 0; at < (work->is_for_each ? items : 1); at++) {
        bool is_stepped = is_counted && (!work->is_for_each || is_sample(at));
        if (is_stepped) {
            switch_steps();
        }
        work->call(at);
        if (is_stepped) {
            switch_steps();
        }
    }
}

/* Does all works with so many places. It counts the instructions of each, without those that do
   nothing. */
static void do_works(size_t wanted, long *counts, bool is_counted) {
    items = wanted;
    for (size_t at = 0; at < WORKS; at++) {
        steps = 0;
        do_work(&works[at], is_counted);
        counts[at] = steps - (at > 1 ? counts[works[at].is_for_each ? 0 : 1] : 0);
    }
}

static bool has_shape(enum shape shape, long small, long large) {
    long times = shape == BY_PLACES ? TIMES : 1;
    long words = shape == BY_WORDS ? (LARGE - SMALL) / KDR_PAGE_PLACES : 0;
    return small > 0 && large <= (small + small / 4) * times + words * MORE_A_WORD + MORE;
}

int main(void) {
    struct sigaction stepped;
    long small[WORKS], large[WORKS];
    int wrong = 0;
    memset(&stepped, 0, sizeof stepped);
    stepped.sa_handler = count_step;
    if (sigaction(SIGTRAP, &stepped, NULL) != 0) {
        return 1;
    }
    do_works(SMALL, small, false); /* once without steps, so that the loader has done its part */
    do_works(SMALL, small, true);
    do_works(LARGE, large, true);
    for (size_t at = 2; at < WORKS; at++) {
        bool is_right = has_shape(works[at].shape, small[at], large[at]);
        printf("%s: %ld and %ld instructions%s\n", works[at].name, small[at], large[at], is_right ? "" : ", WRONG");
        wrong += !is_right;
    }
    printf("%d of %d works have another shape than they should\n", wrong, WORKS - 2);
    return wrong != 0;
}
