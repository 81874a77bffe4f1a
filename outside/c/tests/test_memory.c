/* What the calls ask of malloc, realloc and free: each refusal is answered by its name and leaves
   nothing behind, nothing is asked for between the making of handles and their end, and all is given
   back then. A block of no bytes has an address. Linked with --wrap for the three. */
#include "kundratu_pool.h"
#include <malloc.h>
#include <stdio.h>
#include <stdlib.h>

void *__real_malloc(size_t bytes);
void *__real_realloc(void *block, size_t bytes);
void __real_free(void *block);

static long asked, held, refuse_at = -1;
static size_t asked_bytes, given_back;

static int is_refused(void) {
    return asked++ == refuse_at;
}

void *__wrap_malloc(size_t bytes) {
    if (is_refused()) {
        return NULL;
    }
    void *block = __real_malloc(asked_bytes = bytes);
    held += block != NULL;
    return block;
}

void *__wrap_realloc(void *block, size_t bytes) {
    if (is_refused()) {
        return NULL;
    }
    void *moved = __real_realloc(block, asked_bytes = bytes);
    held += !block && moved;
    return moved;
}

void __wrap_free(void *block) {
    held -= block != NULL;
    given_back += malloc_usable_size(block);
    __real_free(block);
}

enum { ITEMS = 100, MANY = 1000000, FEW_BYTES = 20000 };

static int faults;

static void check(int holds, const char *what) {
    if (!holds) {
        printf("%s\n", what);
        faults++;
    }
}

static long requests_of_new(void) {
    kdr_handle one = KDR_HANDLE_EMPTY;
    asked = 0;
    check(kdr_pool_new(ITEMS, &one) == KDR_DONE, "no pool");
    long requests = asked;
    check(kdr_pool_drop(&one) == KDR_DONE && held == 0, "a pool left memory behind");
    return requests;
}

/* The words of a pool are laid out once before they are shared, so as much is given back meanwhile as the pool keeps. */
static void make_once(void) {
    kdr_handle one = KDR_HANDLE_EMPTY;
    given_back = 0;
    check(kdr_pool_new(MANY, &one) == KDR_DONE, "no pool");
    size_t meanwhile = given_back;
    check(kdr_pool_drop(&one) == KDR_DONE && held == 0, "a great pool left memory behind");
    check(meanwhile < 2 * (given_back - meanwhile), "a pool was made twice");
    check(given_back - meanwhile <= MANY / 4 * 5 + FEW_BYTES, "a pool keeps more than 1.25 bytes a place");
    check(given_back <= MANY / 2 * 5 + FEW_BYTES, "a pool needs more than 2.5 bytes a place while it is created");
}

static void refuse_new(long requests) {
    for (refuse_at = 0; refuse_at < requests; refuse_at++) {
        kdr_handle one = KDR_HANDLE_EMPTY;
        asked = 0;
        check(kdr_pool_new(ITEMS, &one) == KDR_NO_MEMORY, "a refusal wasn't answered by its name");
        check(one.at == NULL && held == 0, "a refused pool left something behind");
    }
    refuse_at = -1;
    for (size_t fewer = 0; fewer <= 2 * KDR_PAGE_PLACES; fewer++) {
        kdr_handle one = KDR_HANDLE_EMPTY;
        check(kdr_pool_new(SIZE_MAX - fewer, &one) == KDR_NO_MEMORY, "a pool of too many places");
        check(one.at == NULL && held == 0, "a pool of too many places left something behind");
    }
}

static void refuse_share(void) {
    kdr_handle one = KDR_HANDLE_EMPTY, other = KDR_HANDLE_EMPTY;
    check(kdr_pool_new(ITEMS, &one) == KDR_DONE, "no pool");
    long before = held;
    asked = refuse_at = 0;
    check(kdr_pool_share(&one, &other) == KDR_NO_MEMORY, "a refused handle wasn't answered by its name");
    check(other.at == NULL && held == before, "a refused handle left something behind");
    refuse_at = -1;
    check(kdr_pool_share(&one, &other) == KDR_DONE, "no further handle");
    check(kdr_pool_drop(&one) == KDR_DONE, "the first handle");
    check(kdr_pool_items(&other) == ITEMS, "the pool ended before its last handle");
    check(kdr_pool_drop(&other) == KDR_DONE && held == 0, "handles left memory behind");
}

static void take_none_between(void) {
    kdr_handle all[ITEMS + 1] = {KDR_HANDLE_EMPTY};
    check(kdr_pool_new(ITEMS, &all[0]) == KDR_DONE, "no pool");
    for (size_t at = 1; at <= ITEMS; at++) {
        check(kdr_pool_share(&all[0], &all[at]) == KDR_DONE, "no handle");
    }
    asked = 0;
    for (int turn = 0; turn < 3; turn++) {
        size_t place;
        for (size_t at = 0; at < ITEMS; at++) {
            check(kdr_pool_pull(&all[at], &place) == KDR_DONE, "no place");
        }
        check(kdr_pool_pull(&all[ITEMS], &place) == KDR_ALL_IN_USE, "a place too many");
        check(kdr_pool_pull(&all[0], &place) == KDR_HOLDS_ONE, "a second place");
        check(kdr_pool_items(&all[0]) == ITEMS, "another number of places");
        for (size_t at = 0; at < ITEMS; at++) {
            check(kdr_pool_return(&all[at]) == KDR_DONE, "no return");
        }
        check(kdr_pool_return(&all[0]) == KDR_HOLDS_NONE, "a second return");
    }
    for (size_t page = 0; page < ITEMS; page++) {
        size_t place;
        check(kdr_pool_pull_near(&all[0], page, &place) == KDR_DONE, "no place near a page");
        check(kdr_pool_return(&all[0]) == KDR_DONE, "no return");
    }
    check(asked == 0, "a pull, a return or the number of places asked for memory");
    for (size_t at = 0; at <= ITEMS; at++) {
        check(kdr_pool_drop(&all[at]) == KDR_DONE, "no end");
    }
    check(kdr_pool_drop(&all[0]) == KDR_NO_POOL, "a second end");
    check(held == 0, "a pool left memory behind");
}

/* Nor do places by themselves ask for any, and they keep none: they may be out when the last handle ends. */
static void take_none_by_places(void) {
    kdr_handle one = KDR_HANDLE_EMPTY;
    kdr_place all[ITEMS], more = KDR_PLACE_EMPTY;
    check(kdr_pool_new(ITEMS, &one) == KDR_DONE, "no pool");
    asked = 0;
    for (int turn = 0; turn < 3; turn++) {
        for (size_t at = 0; at < ITEMS; at++) {
            all[at] = KDR_PLACE_EMPTY;
            check(kdr_place_pull(&one, at, &all[at]) == KDR_DONE, "no place by itself");
        }
        check(kdr_place_pull(&one, 0, &more) == KDR_ALL_IN_USE, "a place by itself too many");
        for (size_t at = 0; turn < 2 && at < ITEMS; at++) {
            check(kdr_place_return(&one, &all[at]) == KDR_DONE, "no return of a place by itself");
        }
    }
    check(asked == 0, "a place by itself asked for memory");
    check(kdr_pool_drop(&one) == KDR_DONE && held == 0, "a pool of places that are out left memory behind");
}

/* What the proved code calls for memory. */
struct got {
    size_t is_some;
    void *at;
};
struct got kdr_0_1_0_alloc(size_t size, size_t align);
struct got kdr_0_1_0_realloc(void *at, size_t old, size_t size, size_t align);
void kdr_0_1_0_dealloc(void *at);

/* No pool asks for no bytes, and one that did would get an address of its own. What is refused has
   an address too, and the block that was to be longer stays. */
static void take_no_bytes(void) {
    struct got none = kdr_0_1_0_alloc(0, 16);
    check(asked_bytes == 16 && none.is_some == 1 && none.at != NULL, "a block of no bytes has no address");
    struct got moved = kdr_0_1_0_realloc(none.at, 0, 64, 16);
    check(asked_bytes == 64 && moved.is_some == 1, "a block isn't made longer");
    *(char *)moved.at = 1;
    moved = kdr_0_1_0_realloc(moved.at, 64, 128, 16);
    check(moved.is_some == 1 && *(char *)moved.at == 1, "a longer block has other bytes");
    asked = refuse_at = 0;
    struct got refused = kdr_0_1_0_realloc(moved.at, 128, 256, 16);
    refuse_at = -1;
    check(refused.is_some == 0 && refused.at != NULL, "a refused block has no address");
    check(held == 1 && *(char *)moved.at == 1, "a block that isn't made longer doesn't stay");
    none = kdr_0_1_0_realloc(moved.at, 128, 0, 16);
    check(asked_bytes == 16 && none.is_some == 1 && none.at != NULL, "a block that shrank to none has no address");
    kdr_0_1_0_dealloc(none.at);
    check(held == 0, "a block of no bytes was left behind");
}

/* A cache asks for memory when it is made, and then for none, however many places come back. It keeps its pool. */
static void take_none_by_caches(void) {
    enum { ROOM = 64 };
    kdr_handle one = KDR_HANDLE_EMPTY;
    kdr_cache cache = KDR_CACHE_EMPTY;
    kdr_place all[ITEMS], more = KDR_PLACE_EMPTY;
    check(kdr_pool_new(ITEMS, &one) == KDR_DONE, "no pool");
    long before = held, requests;
    kdr_status status;
    for (requests = 0;; requests++) {
        asked = 0;
        refuse_at = requests;
        status = kdr_cache_new(&one, ROOM, 0, &cache);
        refuse_at = -1;
        if (status != KDR_NO_MEMORY) {
            break;
        }
        check(!cache.at && !cache.open && !cache.numbers && held == before,
              "a refused cache left something behind");
    }
    check(status == KDR_DONE, "no cache");
    check(requests > 0, "a cache takes no memory");
    kdr_cache great = KDR_CACHE_EMPTY;
    check(kdr_cache_new(&one, SIZE_MAX, 0, &great) == KDR_NO_MEMORY, "a cache of too much room was made");
    asked = 0;
    for (int turn = 0; turn < 3; turn++) {
        for (size_t at = 0; at < ITEMS; at++) {
            all[at] = KDR_PLACE_EMPTY;
            check(kdr_cache_pull(&cache, &all[at]) == KDR_DONE, "no place of a cache");
        }
        check(kdr_cache_pull(&cache, &more) == KDR_ALL_IN_USE, "a place of a cache too many");
        for (size_t at = 0; at < ITEMS; at++) {
            check(kdr_cache_return(&cache, &all[at]) == KDR_DONE, "no return to a cache");
        }
        check(kdr_cache_return(&cache, &more) == KDR_HOLDS_NONE, "a second return to a cache");
        check(turn != 1 || kdr_cache_flush(&cache) == KDR_DONE, "no flush");
    }
    size_t least = given_back;
    check(kdr_pool_drop(&one) == KDR_DONE, "no end");
    check(held > 0, "a pool ended before its last cache");
    check(kdr_cache_drop(&cache) == KDR_DONE && held == 0, "a cache left memory behind");
    check(given_back - least >= ROOM * 8, "a cache had no memory for its room");
    check(asked == 0, "a call by a cache asked for memory");
}

int main(void) {
    long requests = requests_of_new();
    refuse_new(requests);
    make_once();
    refuse_share();
    take_none_between();
    take_none_by_places();
    take_no_bytes();
    take_none_by_caches();
    printf("%d faults\n", faults);
    return faults != 0;
}
