/* Handles without end, pools past two million places, and where handles begin: a million handles are
   opened and dropped, each with a place; handles begin at pages of their own, and go on at such pages
   once theirs are full; and after a pull near a page, a handle's next one begins there too. Two calls
   only read a handle.
   usage: test_handles [HANDLES] */
#include "kundratu_pool.h"
#include <stdbool.h>
#include <stdio.h>
#include <stdlib.h>
#if !defined(_WIN32)
#include <sys/mman.h>
#include <unistd.h>
#endif

enum { FEW = 64, THREADS = 8, PAGES = 256, GREAT = 3 * (1 << 20) + 1 };

static void check(bool holds, const char *what) {
    if (!holds) {
        puts(what);
        exit(1);
    }
}

static size_t pull(kdr_handle *handle) {
    size_t place = SIZE_MAX;
    check(kdr_pool_pull(handle, &place) == KDR_DONE, "a pull was refused while a place was free");
    return place;
}

/* Opens and drops so many handles of a pool of one page, each of which holds a place, one after another. */
static void open_and_drop(unsigned long handles) {
    kdr_handle first = KDR_HANDLE_EMPTY;
    check(kdr_pool_new(KDR_PAGE_PLACES, &first) == KDR_DONE, "no pool");
    for (unsigned long at = 0; at < handles; at++) {
        kdr_handle one = KDR_HANDLE_EMPTY;
        check(kdr_pool_share(&first, &one) == KDR_DONE, "a further handle was refused");
        check(pull(&one) < KDR_PAGE_PLACES, "a place of another pool");
        check(kdr_pool_drop(&one) == KDR_DONE, "a handle wasn't dropped");
    }
    kdr_pool_drop(&first);
}

/* A great pool is made in full: its last place is there. */
static void make_a_great_pool(void) {
    kdr_handle first = KDR_HANDLE_EMPTY;
    size_t place = SIZE_MAX;
    check(kdr_pool_new(GREAT, &first) == KDR_DONE, "a great pool was refused");
    check(kdr_pool_items(&first) == GREAT, "a great pool has another number of places");
    check(kdr_pool_pull_near(&first, GREAT / KDR_PAGE_PLACES, &place) == KDR_DONE, "its last page has no place");
    check(place == GREAT - 1, "its last place isn't there");
    kdr_pool_drop(&first);
}

/* The first pulls of handles come to different pages, also where the number of pages is one by which handles begin apart. */
static void begin_apart(size_t pages) {
    static kdr_handle handles[FEW];
    bool taken[PAGES] = {false};
    check(kdr_pool_new(pages * KDR_PAGE_PLACES, &handles[0]) == KDR_DONE, "no pool");
    for (size_t at = 0; at < FEW; at++) {
        check(at == 0 || kdr_pool_share(&handles[0], &handles[at]) == KDR_DONE, "no handle");
    }
    for (size_t at = 0; at < FEW; at++) {
        size_t page = pull(&handles[at]) / KDR_PAGE_PLACES;
        check(!taken[page], "two handles began at one page");
        taken[page] = true;
    }
    for (size_t at = 0; at < FEW; at++) {
        kdr_pool_drop(&handles[at]);
    }
}

/* A pull near a page, a return, and a pull: the second is at that page too. */
static void keep_to_a_page(void) {
    kdr_handle first = KDR_HANDLE_EMPTY;
    size_t place = SIZE_MAX;
    check(kdr_pool_new(PAGES * KDR_PAGE_PLACES, &first) == KDR_DONE, "no pool");
    for (size_t page = 0; page < PAGES; page++) {
        check(kdr_pool_pull_near(&first, page, &place) == KDR_DONE, "no place near a page");
        check(kdr_pool_return(&first) == KDR_DONE, "no return");
        check(pull(&first) / KDR_PAGE_PLACES == page, "a pull began elsewhere than where the last one found a place");
        check(kdr_pool_return(&first) == KDR_DONE, "no return");
    }
    kdr_pool_drop(&first);
}

/* A handle that may only be read has a number of places, and further handles are made of it. */
static void only_read_a_handle(void) {
#if !defined(_WIN32)
    kdr_handle further = KDR_HANDLE_EMPTY;
    size_t size = (size_t)sysconf(_SC_PAGESIZE);
    kdr_handle *first = mmap(NULL, size, PROT_READ | PROT_WRITE, MAP_PRIVATE | MAP_ANONYMOUS, -1, 0);
    check(first != MAP_FAILED && kdr_pool_new(FEW, first) == KDR_DONE, "no pool");
    check(mprotect(first, size, PROT_READ) == 0, "the handle can't be made read-only");
    check(kdr_pool_items(first) == FEW, "another number of places");
    check(kdr_pool_share(first, &further) == KDR_DONE, "no further handle");
    check(mprotect(first, size, PROT_READ | PROT_WRITE) == 0, "the handle stays read-only");
    check(kdr_pool_drop(first) == KDR_DONE && kdr_pool_drop(&further) == KDR_DONE, "a handle wasn't dropped");
    munmap(first, size);
#endif
}

/* The pages at which handles begin are full. Their first pulls come to one page, and the next ones go on apart. */
static void go_apart(void) {
    static kdr_handle handles[THREADS];
    bool taken[PAGES] = {false};
    check(kdr_pool_new(PAGES * KDR_PAGE_PLACES, &handles[0]) == KDR_DONE, "no pool");
    for (size_t at = 0; at < THREADS; at++) {
        check(at == 0 || kdr_pool_share(&handles[0], &handles[at]) == KDR_DONE, "no handle");
        size_t page = pull(&handles[at]) / KDR_PAGE_PLACES;
        check(kdr_pool_return(&handles[at]) == KDR_DONE, "no return");
        for (size_t more = 0; more < KDR_PAGE_PLACES; more++) {
            kdr_place place = KDR_PLACE_EMPTY; /* it stays out */
            check(kdr_place_pull(&handles[0], page, &place) == KDR_DONE, "no place");
        }
    }
    size_t first = pull(&handles[0]) / KDR_PAGE_PLACES;
    for (size_t at = 0; at < THREADS; at++) {
        check(at == 0 || pull(&handles[at]) / KDR_PAGE_PLACES == first, "a full pool's pages have two hints");
        check(kdr_pool_return(&handles[at]) == KDR_DONE, "no return");
    }
    for (size_t at = 0; at < THREADS; at++) {
        size_t page = pull(&handles[at]) / KDR_PAGE_PLACES;
        check(!taken[page], "two handles went on at one page");
        taken[page] = true;
    }
    for (size_t at = 0; at < THREADS; at++) {
        check(kdr_pool_drop(&handles[at]) == KDR_DONE, "no end");
    }
}

int main(int count, char **words) {
    unsigned long handles = count > 1 ? strtoul(words[1], NULL, 10) : 1000000;
    open_and_drop(handles);
    make_a_great_pool();
    begin_apart(PAGES);
    begin_apart(17 * 4);
    keep_to_a_page();
    only_read_a_handle();
    go_apart();
    printf("%lu handles were opened and dropped\n", handles);
    return 0;
}
