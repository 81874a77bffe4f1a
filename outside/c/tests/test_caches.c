/* Caches: random calls, by the header's lines and past them, answer as a plain model does, which
   has a stack for each cache; what a cache keeps is in use to all others until its flush or its
   end; caches whose pages are full go on apart; and threads that hand places on never hold one
   together.
   usage: test_caches [TURNS] */
#include "kundratu_pool.h"
#include "test_order.h"
#include <pthread.h>
#include <stdbool.h>
#include <stdio.h>
#include <stdlib.h>
#include <string.h>
#include <unistd.h>

enum { THREADS = 8, AT_ONCE = 5, ROOM = 3, ITEMS = THREADS * (AT_ONCE + ROOM), SECONDS = 100 };

static void check(bool holds, const char *what) {
    if (!holds) {
        puts(what);
        exit(1);
    }
}

static kdr_handle new_pool(size_t items) {
    kdr_handle first = KDR_HANDLE_EMPTY;
    check(kdr_pool_new(items, &first) == KDR_DONE, "no pool");
    return first;
}

static kdr_cache new_cache(const kdr_handle *handle, size_t room, size_t page) {
    kdr_cache cache = KDR_CACHE_EMPTY;
    check(kdr_cache_new(handle, room, page, &cache) == KDR_DONE, "no cache");
    return cache;
}

static kdr_place pull(kdr_cache *cache) {
    kdr_place place = KDR_PLACE_EMPTY;
    check(kdr_cache_pull(cache, &place) == KDR_DONE, "a pull was refused while a place was free");
    return place;
}

static bool is_refused(kdr_cache *cache) {
    kdr_place place = KDR_PLACE_EMPTY;
    return kdr_cache_pull(cache, &place) == KDR_ALL_IN_USE && kdr_place_number(&place) == KDR_NO_PLACE;
}

static size_t count_free(kdr_handle *handle) {
    size_t count = 0;
    kdr_place place = KDR_PLACE_EMPTY;
    while (kdr_place_pull(handle, 0, &place) == KDR_DONE) {
        place = KDR_PLACE_EMPTY; /* it stays out */
        count++;
    }
    return count;
}

/* The model. Two pools, two caches of the first and one of the second, which keeps none. */
enum { POOLS = 2, CACHES = 3, FEW = 24, HELD = 90, FREE = -2, OUT = -1 };
static const size_t POOL_OF[CACHES] = {0, 0, 1}, ROOM_OF[CACHES] = {8, 3, 0};

struct model {
    kdr_handle pools[POOLS];
    kdr_cache caches[CACHES];
    kdr_place places[HELD];
    size_t pool_of[HELD];
    /* Of each place: it is free, or out, or kept by the cache of this number. */
    int where[POOLS][FEW];
    size_t kept[CACHES][FEW], count[CACHES], free[POOLS];
    unsigned long kept_pulls, pool_pulls, refusals, beyond;
};

static uint64_t drawn = 88172645463325252u;

static size_t draw(size_t below) {
    drawn ^= drawn << 13;
    drawn ^= drawn >> 7;
    drawn ^= drawn << 17;
    return (size_t)(drawn >> 20) % below;
}

static void pull_as_the_model(struct model *model, size_t cache, size_t at) {
    kdr_place *place = &model->places[at], before = *place;
    size_t pool = POOL_OF[cache];
    kdr_cache *by = &model->caches[cache];
    kdr_status status = draw(2) ? kdr_cache_pull(by, place) : (kdr_cache_pull)(by, place);
    size_t number = kdr_place_number(place);
    if (kdr_place_number(&before) != KDR_NO_PLACE) {
        check(status == KDR_HOLDS_ONE && memcmp(place, &before, sizeof before) == 0, "a place was pulled that isn't empty");
        return;
    }
    if (model->count[cache] == 0 && model->free[pool] == 0) {
        check(status == KDR_ALL_IN_USE && number == KDR_NO_PLACE, "a place was pulled while all were in use");
        model->refusals++;
        return;
    }
    check(status == KDR_DONE && number < FEW, "a pull was refused while a place was free");
    if (model->count[cache] > 0) {
        check(number == model->kept[cache][--model->count[cache]], "another place was pulled than the one that came back last");
        check(model->where[pool][number] == (int)cache, "a place was pulled that another cache keeps");
        model->kept_pulls++;
    } else {
        check(model->where[pool][number] == FREE, "a place was pulled that is in use");
        model->free[pool]--;
        model->pool_pulls++;
    }
    model->where[pool][number] = OUT;
    model->pool_of[at] = pool;
}

static void return_as_the_model(struct model *model, size_t cache, size_t at) {
    kdr_place *place = &model->places[at], before = *place;
    size_t pool = POOL_OF[cache], number = kdr_place_number(place);
    kdr_cache *by = &model->caches[cache];
    kdr_status status = draw(2) ? kdr_cache_return(by, place) : (kdr_cache_return)(by, place);
    if (number == KDR_NO_PLACE || model->pool_of[at] != pool) {
        check(status == (number == KDR_NO_PLACE ? KDR_HOLDS_NONE : KDR_OTHER_POOL), "a return has another answer");
        check(memcmp(place, &before, sizeof before) == 0, "a return that was refused changed the place");
        return;
    }
    check(status == KDR_DONE && place->after == 0 && place->pool == 0, "a place that was returned isn't empty");
    bool is_kept = model->count[cache] < ROOM_OF[cache];
    if (is_kept) {
        model->kept[cache][model->count[cache]++] = number;
    } else {
        model->free[pool]++;
        model->beyond++;
    }
    model->where[pool][number] = is_kept ? (int)cache : FREE;
}

static void flush_as_the_model(struct model *model, size_t cache) {
    check(kdr_cache_flush(&model->caches[cache]) == KDR_DONE, "a cache wasn't flushed");
    while (model->count[cache] > 0) {
        model->where[POOL_OF[cache]][model->kept[cache][--model->count[cache]]] = FREE;
        model->free[POOL_OF[cache]]++;
    }
}

/* A place goes back by the handle, past all caches. */
static void return_by_the_handle(struct model *model, size_t at) {
    size_t number = kdr_place_number(&model->places[at]), pool = model->pool_of[at];
    if (number != KDR_NO_PLACE) {
        check(kdr_place_return(&model->pools[pool], &model->places[at]) == KDR_DONE, "a place wasn't returned by its pool's handle");
        model->where[pool][number] = FREE;
        model->free[pool]++;
    }
}

static void end_the_model(struct model *model) {
    for (size_t at = 0; at < HELD; at++) {
        return_by_the_handle(model, at);
    }
    for (size_t cache = 0; cache < CACHES; cache++) {
        model->free[POOL_OF[cache]] += model->count[cache];
        check(kdr_cache_drop(&model->caches[cache]) == KDR_DONE, "a cache wasn't dropped");
        check(kdr_cache_drop(&model->caches[cache]) == KDR_NO_POOL, "a cache was dropped twice");
    }
    for (size_t pool = 0; pool < POOLS; pool++) {
        check(model->free[pool] == FEW && count_free(&model->pools[pool]) == FEW, "a place was lost");
        check(kdr_pool_drop(&model->pools[pool]) == KDR_DONE, "a handle wasn't dropped");
    }
}

static void follow_a_model(unsigned long calls) {
    static struct model model;
    for (size_t pool = 0; pool < POOLS; pool++) {
        model.pools[pool] = new_pool(FEW);
        model.free[pool] = FEW;
        for (size_t at = 0; at < FEW; at++) {
            model.where[pool][at] = FREE;
        }
    }
    for (size_t cache = 0; cache < CACHES; cache++) {
        model.caches[cache] = new_cache(&model.pools[POOL_OF[cache]], ROOM_OF[cache], cache);
    }
    for (unsigned long call = 0; call < calls; call++) {
        size_t cache = draw(CACHES), at = draw(HELD), what = draw(80);
        if (what == 0) {
            flush_as_the_model(&model, cache);
        } else if (what < 4) {
            return_by_the_handle(&model, at);
        } else if (what % 2 == 0) {
            pull_as_the_model(&model, cache, at);
        } else {
            return_as_the_model(&model, cache, at);
        }
    }
    check(model.kept_pulls > calls / 100 && model.pool_pulls > calls / 100 && model.refusals > calls / 100 && model.beyond > calls / 100,
          "a kind of answer was seldom");
    end_the_model(&model);
}

static bool is_same(const kdr_cache *one, const kdr_cache *other) {
    return memcmp(one, other, sizeof *one) == 0;
}

/* A zeroed cache is empty. What was made stays as it is if it is made again, or if there is no handle. */
static void use_zeroed_memory(void) {
    kdr_cache *cache = calloc(1, sizeof *cache);
    kdr_handle none = KDR_HANDLE_EMPTY, first = new_pool(FEW);
    kdr_cache empty = KDR_CACHE_EMPTY;
    check(cache != NULL && is_same(cache, &empty), "an empty cache isn't one of zeros");
    kdr_place place = KDR_PLACE_EMPTY, held = KDR_PLACE_EMPTY;
    check(kdr_place_pull(&first, 0, &held) == KDR_DONE, "no place");
    check(kdr_cache_pull(cache, &place) == KDR_NO_POOL && place.after == 0, "a zeroed cache has a place");
    check(kdr_cache_return(cache, &held) == KDR_NO_POOL && held.after != 0, "a zeroed cache keeps a place");
    check(kdr_cache_flush(cache) == KDR_NO_POOL && kdr_cache_drop(cache) == KDR_NO_POOL, "a zeroed cache was flushed or dropped");
    check(kdr_cache_new(&none, 1, 0, cache) == KDR_NO_POOL && is_same(cache, &empty),
          "a cache was made without a pool");
    check(kdr_cache_new(&first, 1, 0, cache) == KDR_DONE, "a zeroed cache isn't empty");
    kdr_handle greater = new_pool(FEW + 1);
    kdr_cache before = *cache;
    check(kdr_cache_new(&greater, 1, 0, cache) == KDR_HAS_POOL && is_same(cache, &before),
          "a cache was made twice");
    kdr_pool_drop(&greater);
    check(kdr_cache_return(cache, &held) == KDR_DONE && kdr_cache_return(cache, &held) == KDR_HOLDS_NONE, "a place was returned twice");
    check(kdr_cache_drop(cache) == KDR_DONE, "a cache wasn't dropped");
    free(cache);
    check(count_free(&first) == FEW, "a place was lost");
    kdr_pool_drop(&first);
}

/* What a cache keeps is in use to all others, until it is flushed or ends. The handle may end before. */
static void keep_all(void) {
    kdr_handle first = new_pool(ROOM);
    kdr_cache cache = new_cache(&first, ROOM, 0), other = new_cache(&first, ROOM, 0);
    kdr_place places[ROOM];
    for (int turn = 0; turn < 2; turn++) {
        for (size_t at = 0; at < ROOM; at++) {
            places[at] = pull(&cache);
        }
        check(is_refused(&other) && is_refused(&cache), "a place was pulled while all were out");
        for (size_t at = 0; at < ROOM; at++) {
            check(kdr_cache_return(&cache, &places[at]) == KDR_DONE, "a place wasn't returned");
        }
        check(is_refused(&other), "a place was taken that another cache keeps");
        if (turn == 0) {
            check(kdr_cache_flush(&cache) == KDR_DONE && kdr_cache_flush(&cache) == KDR_DONE, "a cache wasn't flushed");
            kdr_place place = pull(&other);
            check(kdr_cache_return(&other, &place) == KDR_DONE && kdr_cache_flush(&other) == KDR_DONE, "a place wasn't returned");
        }
    }
    check(kdr_pool_drop(&first) == KDR_DONE && kdr_cache_drop(&cache) == KDR_DONE, "no end");
    for (size_t at = 0; at < ROOM; at++) {
        places[at] = pull(&other);
    }
    check(is_refused(&other), "a place came back twice");
    check(kdr_cache_drop(&other) == KDR_DONE, "the last cache wasn't dropped");
}

/* Pulls from the pool begin at the cache's page, counted round and round. Once it is full, and so are some others, each cache goes on
   at a page of its own. */
static void go_apart(void) {
    enum { PAGES = 256, FULL = 4, SOME = 4 };
    kdr_handle first = new_pool(PAGES * KDR_PAGE_PLACES);
    for (size_t page = 0; page < PAGES; page++) {
        kdr_cache one = new_cache(&first, 1, page + PAGES * (page % 3));
        kdr_place place = pull(&one);
        check(kdr_place_number(&place) / KDR_PAGE_PLACES == page, "a cache began at another page");
        check(kdr_cache_return(&one, &place) == KDR_DONE && kdr_cache_drop(&one) == KDR_DONE, "no end");
    }
    kdr_cache caches[SOME];
    for (size_t at = 0; at < FULL * KDR_PAGE_PLACES; at++) {
        kdr_place place = KDR_PLACE_EMPTY; /* it stays out */
        check(kdr_place_pull(&first, at / KDR_PAGE_PLACES, &place) == KDR_DONE, "no place");
    }
    bool taken[PAGES] = {false};
    for (size_t at = 0; at < SOME; at++) {
        caches[at] = new_cache(&first, 0, at % FULL);
        kdr_place one = pull(&caches[at]), other = pull(&caches[at]);
        size_t page = kdr_place_number(&other) / KDR_PAGE_PLACES;
        check(!taken[page], "two caches went on at one page");
        taken[page] = true;
        check(kdr_cache_return(&caches[at], &one) == KDR_DONE && kdr_cache_return(&caches[at], &other) == KDR_DONE, "no return");
        other = pull(&caches[at]);
        check(kdr_place_number(&other) / KDR_PAGE_PLACES == page, "a cache left a page that had a free place");
        check(kdr_cache_return(&caches[at], &other) == KDR_DONE && kdr_cache_drop(&caches[at]) == KDR_DONE, "no end");
    }
    kdr_pool_drop(&first);
}

/* What lies at a place. Plain words, which only its holder touches. */
struct cell {
    unsigned long holder;
    char order; /* stands for the order that the pool gives, to the sanitizer */
};

struct job {
    pthread_t thread;
    unsigned long number, turns;
    kdr_handle handle;
    kdr_cache cache;
};

static struct cell cells[ITEMS];
/* What a thread hands to the next one. */
static kdr_place handed[THREADS];
static pthread_mutex_t handing = PTHREAD_MUTEX_INITIALIZER;

/* Hands a place to the next thread, and gets what another one handed there before. */
static void swap(struct job *job, kdr_place *place) {
    pthread_mutex_lock(&handing);
    kdr_place *other = &handed[job->number % THREADS], before = *other;
    *other = *place;
    *place = before;
    pthread_mutex_unlock(&handing);
}

static kdr_place hold(struct job *job) {
    kdr_place place = pull(&job->cache);
    struct cell *cell = &cells[kdr_place_number(&place)];
    COMES_AFTER_THE_RETURN(&cell->order);
    check(cell->holder == 0, "a place was held by two");
    cell->holder = job->number;
    return place;
}

static void give_back(struct job *job, kdr_place *place) {
    struct cell *cell = &cells[kdr_place_number(place)];
    check(cell->holder != 0, "a place was returned by two");
    cell->holder = 0;
    COMES_BEFORE_THE_PULL(&cell->order);
    check(kdr_cache_return(&job->cache, place) == KDR_DONE, "a place wasn't returned");
}

/* So many places that no pull is refused: those that each thread holds and keeps. One of them is handed on. */
static void *work(void *given) {
    struct job *job = given;
    kdr_place places[AT_ONCE - 1];
    for (unsigned long turn = 0; turn < job->turns; turn++) {
        size_t count = 1 + turn % (AT_ONCE - 1);
        for (size_t at = 0; at < count; at++) {
            places[at] = hold(job);
        }
        swap(job, &places[0]);
        for (size_t at = 0; at < count; at++) {
            if (kdr_place_number(&places[at]) != KDR_NO_PLACE) {
                give_back(job, &places[at]);
            }
        }
        if (turn % 1000 == 0) {
            check(kdr_cache_flush(&job->cache) == KDR_DONE, "a cache wasn't flushed");
        }
    }
    check(kdr_cache_drop(&job->cache) == KDR_DONE && kdr_pool_drop(&job->handle) == KDR_DONE, "no end");
    return NULL;
}

static void keep_by_threads(unsigned long turns) {
    static struct job jobs[THREADS];
    kdr_handle first = new_pool(ITEMS);
    for (unsigned long at = 0; at < THREADS; at++) {
        handed[at] = KDR_PLACE_EMPTY;
        jobs[at] = (struct job){.number = at + 1, .turns = turns, .handle = KDR_HANDLE_EMPTY};
        check(kdr_pool_share(&first, &jobs[at].handle) == KDR_DONE, "no further handle");
        jobs[at].cache = new_cache(&jobs[at].handle, ROOM, at);
    }
    for (size_t at = 0; at < THREADS; at++) {
        check(!pthread_create(&jobs[at].thread, NULL, work, &jobs[at]), "no thread");
    }
    for (size_t at = 0; at < THREADS; at++) {
        pthread_join(jobs[at].thread, NULL);
    }
    for (size_t at = 0; at < THREADS; at++) {
        check(kdr_place_return(&first, &handed[at]) == KDR_DONE, "a place that was handed on wasn't returned");
    }
    check(count_free(&first) == ITEMS, "a place was lost");
    kdr_pool_drop(&first);
}

int main(int count, char **words) {
    unsigned long turns = count > 1 ? strtoul(words[1], NULL, 10) : 200000;
    alarm(SECONDS);
    use_zeroed_memory();
    keep_all();
    go_apart();
    follow_a_model(turns * 10);
    keep_by_threads(turns);
    puts("caches answer as a plain model, and each place that a thread kept was its own and came back");
    return 0;
}
