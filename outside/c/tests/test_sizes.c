/* Pools of many sizes, each with a handle for each place and one more. Each place is handed out once, and no further one; all are
   returned in another order, and all are handed out again; a place that is free alone is found; a pull near a page takes the place that
   is free there, however great the number is that names the page; and a cache keeps half of the places. */
#include "kundratu_pool.h"
#include <stdbool.h>
#include <stdio.h>
#include <stdlib.h>
#include <string.h>

enum { MOST_ITEMS = 70000, MOST_PAGES = (MOST_ITEMS + KDR_PAGE_PLACES - 1) / KDR_PAGE_PLACES };

static const size_t sizes[] = {1, 31, 32, 33, 1000, MOST_ITEMS};

static size_t items;
static size_t pages;
static kdr_handle handles[MOST_ITEMS + 1];

/* Who holds each place, a handle that holds none, and those that held a place of each page. */
static kdr_handle *holder[MOST_ITEMS];
static kdr_handle *spare;
static kdr_handle *idle[MOST_PAGES];

static void check(bool holds, const char *what) {
    if (!holds) {
        printf("a pool of %zu places: %s\n", items, what);
        exit(1);
    }
}

/* The number at a turn. The prime divides no count of places or pages, so as many turns come to each number once. */
static size_t stepped(size_t turn, size_t count) {
    return turn * 7919 % count;
}

static size_t last_place(size_t page) {
    size_t behind = (page + 1) * KDR_PAGE_PLACES;
    return (behind < items ? behind : items) - 1;
}

/* The greatest number that names a page, where pages are counted round and round. */
static size_t greatest_name(size_t page) {
    return SIZE_MAX - (SIZE_MAX % pages + pages - page) % pages;
}

static void make(size_t wanted) {
    items = wanted;
    pages = (items + KDR_PAGE_PLACES - 1) / KDR_PAGE_PLACES;
    check(kdr_pool_new(items, &handles[0]) == KDR_DONE, "it wasn't made");
    for (size_t at = 1; at <= items; at++) {
        check(kdr_pool_share(&handles[at - 1], &handles[at]) == KDR_DONE, "a handle wasn't made");
    }
    for (size_t at = 0; at <= items; at++) {
        check(kdr_pool_items(&handles[at]) == items, "a handle tells another number of places");
    }
    spare = &handles[items];
}

static void hold(kdr_handle *handle, kdr_status answer, size_t place) {
    check(answer == KDR_DONE, "a pull was refused while a place was free");
    check(place < items, "a place was pulled that isn't the pool's");
    check(holder[place] == NULL, "a place was pulled that is held");
    holder[place] = handle;
}

static void pull(kdr_handle *handle) {
    size_t place = SIZE_MAX;
    kdr_status answer = kdr_pool_pull(handle, &place);
    hold(handle, answer, place);
}

static void pull_near(kdr_handle *handle, size_t name, size_t wanted) {
    size_t place = SIZE_MAX;
    kdr_status answer = kdr_pool_pull_near(handle, name, &place);
    hold(handle, answer, place);
    check(place == wanted, "a pull near a page took another place than the one that is free there");
}

/* Frees a place. The handle that held it is the spare one from then on. */
static void give_back(size_t place) {
    spare = holder[place];
    holder[place] = NULL;
    check(kdr_pool_return(spare) == KDR_DONE, "a place wasn't returned");
}

static void refuses(void) {
    size_t place = SIZE_MAX;
    check(kdr_pool_pull(spare, &place) == KDR_ALL_IN_USE, "a pull wasn't refused while each place was out");
    check(kdr_pool_pull_near(spare, pages - 1, &place) == KDR_ALL_IN_USE, "a pull near the last page wasn't refused");
    check(kdr_pool_pull_near(spare, SIZE_MAX, &place) == KDR_ALL_IN_USE, "a pull near the greatest number wasn't refused");
    check(place == SIZE_MAX, "a refused pull wrote a place");
}

static void pull_all(void) {
    for (size_t at = 0; at <= items; at++) {
        if (&handles[at] != spare) {
            pull(&handles[at]);
        }
    }
    refuses();
}

static void return_all(void) {
    for (size_t turn = 0; turn < items; turn++) {
        give_back(stepped(turn, items));
    }
}

/* Each place is once the only one that is free, and the handle that held none takes it. */
static void pull_each_alone(void) {
    for (size_t turn = 0; turn < items; turn++) {
        kdr_handle *idler = spare;
        give_back(stepped(turn, items));
        pull(idler);
    }
    refuses();
}

/* The last place of each page is free, and each is pulled near its page, by the handle that held another one. */
static void pull_near_each_page(bool by_greatest_names) {
    kdr_handle *unused = spare;
    for (size_t page = 0; page < pages; page++) {
        give_back(last_place(page));
        idle[page] = spare;
    }
    for (size_t turn = 0; turn < pages; turn++) {
        size_t page = stepped(turn, pages);
        pull_near(idle[turn], by_greatest_names ? greatest_name(page) : page, last_place(page));
    }
    spare = unused;
    refuses();
}

/* A place that is free alone is found from the page behind its own, which is the whole way round. */
static void pull_from_the_page_behind(void) {
    for (size_t page = 0; page < pages; page++) {
        kdr_handle *idler = spare;
        give_back(last_place(page));
        pull_near(idler, page + 1, last_place(page));
    }
    refuses();
}

/* Ends each handle with its place, so that they are free for the last one, and the last one with a place too. */
static void drop_all(void) {
    for (size_t at = 0; at <= items; at++) {
        if (&handles[at] != spare) {
            check(kdr_pool_drop(&handles[at]) == KDR_DONE, "a handle wasn't dropped");
        }
    }
    memset(holder, 0, sizeof holder);
    pull(spare);
    check(kdr_pool_drop(spare) == KDR_DONE, "the last handle wasn't dropped");
    check(kdr_pool_items(spare) == 0, "a dropped handle tells places");
    memset(holder, 0, sizeof holder);
}

/* A cache with room for half of the places. It pulls each once, and keeps what it has room for, which no other finds until its flush. */
static void keep_half(size_t wanted) {
    static kdr_place held[MOST_ITEMS];
    static bool taken[MOST_ITEMS];
    kdr_handle first = KDR_HANDLE_EMPTY;
    kdr_cache cache = KDR_CACHE_EMPTY, other = KDR_CACHE_EMPTY, *users[] = {&cache, &other, &other};
    size_t room = wanted / 2, counts[] = {wanted, wanted - room, room};
    check(kdr_pool_new(wanted, &first) == KDR_DONE, "it wasn't made");
    check(kdr_cache_new(&first, room, 1, &cache) == KDR_DONE && kdr_cache_new(&first, 0, 0, &other) == KDR_DONE, "no cache");
    for (size_t turn = 0; turn < 3; turn++) {
        kdr_place more = KDR_PLACE_EMPTY, *own = turn == 2 ? held + counts[1] : held;
        memset(taken, 0, turn == 2 ? 0 : sizeof taken);
        for (size_t at = 0; at < counts[turn]; at++) {
            own[at] = KDR_PLACE_EMPTY;
            check(kdr_cache_pull(users[turn], &own[at]) == KDR_DONE, "a pull by a cache was refused while a place was free");
            size_t number = kdr_place_number(&own[at]);
            check(number < wanted && !taken[number], "a cache pulled a place that is in use");
            taken[number] = true;
        }
        check(kdr_cache_pull(users[turn], &more) == KDR_ALL_IN_USE, "a pull by a cache wasn't refused while all were in use");
        for (size_t at = 0; turn == 0 && at < wanted; at++) {
            check(kdr_cache_return(&cache, &held[stepped(at, wanted)]) == KDR_DONE, "a place wasn't returned to a cache");
        }
        check(turn != 1 || kdr_cache_flush(&cache) == KDR_DONE, "a cache wasn't flushed");
    }
    check(kdr_cache_drop(&cache) == KDR_DONE && kdr_cache_drop(&other) == KDR_DONE && kdr_pool_drop(&first) == KDR_DONE, "no end");
}

int main(void) {
    size_t places = 0;
    size_t count = sizeof sizes / sizeof sizes[0];
    for (size_t at = 0; at < count; at++) {
        make(sizes[at]);
        pull_all();
        return_all();
        pull_all();
        pull_each_alone();
        pull_near_each_page(false);
        pull_near_each_page(true);
        pull_from_the_page_behind();
        drop_all();
        keep_half(sizes[at]);
        places += sizes[at];
    }
    printf("%zu pools handed out each of their %zu places once, again, alone, and near its page\n", count, places);
    return 0;
}
